#!/usr/bin/env python3
"""Checks the page of a replay against its trace and its record, and against what any page has to be.

    check_report.py PAGE [TRACE RECORD [DAG]]

Prints nothing where all is well. Of a page alone it looks at what any page has to be. DAG is a DAG file whose component files give values.
The trace is read here by its lines, and nothing is taken from the tools that made the page, but for the readers of records, of DAG files and
of values.
"""
import json
import os
import re
import sys
from collections import Counter, defaultdict
from html.parser import HTMLParser
from itertools import accumulate

sys.path.insert(0, os.path.join(os.path.dirname(os.path.abspath(__file__)), "..", "..", "tools"))
from dag import read_entries, ways_of
from record import messages_of, whole_of
from values import value_of

MOST = 5_000_000  # bytes of a page
ALONE = {"meta", "link", "br", "wbr", "img", "input", "hr"}  # elements without an end


def fail(text):
    sys.exit(f"check_report: {text}")


class Page(HTMLParser):
    """A page: its elements, the texts of its scripts, and the cells of its tables."""

    def __init__(self, text):
        super().__init__(convert_charrefs=True)
        self.open, self.elements, self.tables, self.scripts, self.cell = [], [], [], [], None
        self.feed(text)
        self.close()
        if self.open:
            fail(f"elements without an end: {self.open}")

    def handle_starttag(self, tag, attributes):
        self.elements.append((tag, dict(attributes)))
        if len(dict(attributes)) != len(attributes):
            fail(f"an attribute twice: {tag} {attributes}")
        if tag not in ALONE:
            self.open.append(tag)
        if tag == "table":
            self.tables.append({"rows": [], "caption": "", "heads": 0})
        if tag == "tr":
            self.tables[-1]["rows"].append([])
        if tag in ("td", "th", "caption"):
            self.cell = []
            if tag == "th" and not dict(attributes).get("scope"):
                fail("a head of a table without a scope")
        if tag == "br" and self.cell is not None:
            self.cell.append("\n")

    def handle_startendtag(self, tag, attributes):
        if "svg" not in self.open:
            fail(f"<{tag}/> outside a picture")
        self.elements.append((tag, dict(attributes)))

    def handle_endtag(self, tag):
        if not self.open or self.open[-1] != tag:
            fail(f"</{tag}> where {self.open[-1:]} is open")
        self.open.pop()
        if tag in ("td", "th"):
            self.tables[-1]["rows"][-1].append("".join(self.cell).strip())
        if tag == "caption":
            self.tables[-1]["caption"] = "".join(self.cell).strip()

    def handle_data(self, data):
        if self.cell is not None:
            self.cell.append(data)
        if self.open and self.open[-1] == "script":
            self.scripts.append((self.elements[-1][1], data))


def check_page(page):
    """What any page has to be: whole in itself, with tables that have heads and captions, and names that lead somewhere."""
    names = [given["id"] for _, given in page.elements if "id" in given]
    if len(names) != len(set(names)):
        fail(f"names that are there twice: {[it for it, count in Counter(names).items() if count > 1]}")
    if sum(tag == "h1" for tag, _ in page.elements) != 1 or page.elements[0] != ("html", {"lang": "en"}):
        fail("no one heading, or no language")
    for tag, given in page.elements:
        strange = [it for it in given if it.startswith("on") or it in ("style", "src", "srcset", "action")]
        if strange or tag in ("link", "img", "iframe", "object", "embed", "base"):
            fail(f"<{tag}> with {strange}")
        for key in ("aria-labelledby", "aria-describedby", "for"):
            if key in given and given[key] not in names:
                fail(f"{key}={given[key]} leads nowhere")
        target = given.get("href")
        if target and not (target[0] == "#" and target[1:] in names or re.fullmatch(r"[\w.%-]+/report\.html", target)):
            fail(f"a link to {target}")
    if not all(it["caption"] for it in page.tables):
        fail("a table without a caption")
    if "default-src 'none'" not in next(given["content"] for tag, given in page.elements if given.get("http-equiv")):
        fail("the page may load something")


def unquoted(text):
    """The name in a quoted text of a trace, as a page shows it."""
    text = text.replace("\\\\", "\\\0").replace('\\"', '"')
    for mark in "ntr":
        text = text.replace(f"\\{mark}", {"n": "\n", "t": "\t", "r": "\r"}[mark])
    text = text.replace("\\\0", "\\")
    return "".join(it if it.isprintable() else it.encode("unicode_escape").decode() for it in text)


class Told:
    """A trace by its lines."""

    def __init__(self, path):
        with open(path, encoding="utf-8") as file:
            lines = file.read().split("\n")[:-1]
        self.played = int(lines[1].split()[1])
        self.calls, self.roles, self.tape = {}, {}, []
        for line in lines[2:]:
            word, _, rest = line.partition(" ")
            if word == "component":
                name = unquoted(re.fullmatch(r'"((?:[^"\\]|\\.)*)"(?: overflow \w+)?', rest)[1])
                calls = self.calls[name] = []
            elif word == "roles":
                self.roles[name] = "" if rest == "-" else rest
            elif word == "call":
                calls.append(self.call(rest))
            elif word == "tape":
                channel, _, number = rest.rpartition(" ")
                self.tape.append((unquoted(channel[1:-1]), int(number)))

    @staticmethod
    def call(text):
        """A call as position, tail, numbers of its messages, and number, time and value of its output."""
        position, *numbers, out = text.split()
        position, tail = map(int, position.split("/"))
        match = re.fullmatch(r"(\d+)@(\d+)(?:=(-?\d+))?", out)
        output = None if out == "-" else (int(match[1]), int(match[2]), None if match[3] is None else int(match[3]))
        return position, tail, tuple(map(int, numbers)), output


def check_channel(lane, data, messages, way):
    """A lane of messages: each one that is in the page is the one of the record."""
    times = list(accumulate(lane["times"]))
    numbers = list(accumulate(lane["numbers"])) if "numbers" in lane else range(1, len(times) + 1)
    if lane["total"] != len(messages) or len(times) != len(numbers):
        fail(f"{lane['name']}: {lane['total']} messages")
    if "numbers" not in lane and len(times) != len(messages):
        fail(f"{lane['name']}: {len(times)} of {len(messages)} messages, and it doesn't say so")
    for place, (number, time) in enumerate(zip(numbers, times)):
        want, content = messages[number - 1]
        value = value_of(content, way) if way else whole_of(content) if content[:1] == b"\x08" else None
        told = lane["values"][place] if "values" in lane else None
        if time + int(data["first"]) != want or (None if told is None else int(told)) != value:
            fail(f"{lane['name']}: message {number} at {time}, value {told}")
    if "counts" in lane and (sum(lane["counts"]["messages"]) != len(messages) or len(lane["counts"]["messages"]) != data["pieces"]):
        fail(f"{lane['name']}: its counts are not those of its messages")


def shown_calls(lane, data):
    """The calls of a lane by their numbers, as the trace has them, with the time of each."""
    first, width = int(data["first"]), lane["width"]
    begins, positions = accumulate(lane["begins"]), accumulate(lane["positions"])
    messages = list(zip(*(accumulate(it) for it in lane["messages"]))) if width else []
    numbers = accumulate(lane["numbers"]) if "numbers" in lane else range(1, len(lane["begins"]) + 1)
    found = {}
    for place, (number, begin, position) in enumerate(zip(numbers, begins, positions)):
        out, value = lane["outputs"][place], lane["values"][place] if "values" in lane else None
        output = (out, begin + first + lane["lags"][place], None if value is None else int(value)) if out else None
        ages = [it[place] for it in lane["ages"]]
        found[number] = (position, position + lane["waiting"][place], messages[place], output), begin + first, ages
    return found


def check_component(lane, data, told, times):
    """A lane of calls: each one that is in the page is the one of the trace, at the time of its trigger."""
    calls, name = told.calls[lane["name"]], lane["name"]
    found = shown_calls(lane, data)
    if lane["total"] != len(calls) or ("numbers" not in lane and len(found) != len(calls)):
        fail(f"{name}: {len(found)} of {lane['total']} calls, where there are {len(calls)}")
    for number, (call, begin, ages) in found.items():
        if call != calls[number - 1]:
            fail(f"{name}: call {number} is {call}, and in the trace {calls[number - 1]}")
        readers = [data["lanes"][it]["name"] for it in lane["reads"]]
        at = [times[channel][seq - 1] for channel, seq in zip(readers, call[2])]
        if at != [begin] + [begin - age for age in ages]:
            fail(f"{name}: call {number} is at {begin}, and its messages at {at}")
        if call[3] and (data["lanes"][lane["out"]]["name"], call[3][0]) not in told.places:
            fail(f"{name}: call {number} has an output that is not on the tape")
    skipped = calls[-1][0] - len(calls) if calls else 0
    if lane["skipped"] != skipped or ("counts" not in lane and len(lane["skips"]) != skipped):
        fail(f"{name}: {lane['skipped']} skipped tuples, where there are {skipped}")
    if "counts" in lane:
        counts = {key: sum(it) for key, it in lane["counts"].items()}
        made = sum(call[3] is not None for call in calls)
        if (counts["outputs"], counts["quiet"], counts["skips"]) != (made, len(calls) - made, skipped):
            fail(f"{name}: its counts {counts} are not those of its calls")


def rows_of(page, caption):
    """The rows of the table whose caption begins so."""
    return next(table["rows"][1:] for table in page.tables if table["caption"].startswith(caption))


def check_tables(page, told, times):
    """The tables of components and channels have the counts of the trace and the record."""
    rows = {it[0].split("\n")[0]: it for it in rows_of(page, "What each component")}
    for name, calls in told.calls.items():
        skips = [after[0] - before[0] - 1 for before, after in zip([(0,), *calls], calls)]
        want = [len(calls), sum(it[3] is not None for it in calls), sum(skips), max(skips, default=0)]
        cells = [int(it.replace(",", "")) for it in [rows[name][4], rows[name][5], rows[name][7], rows[name][8]]]
        if cells != want:
            fail(f"the table has {cells} of {name}, and the trace {want}")
    rows = {it[0]: it for it in rows_of(page, "What each channel")}
    for channel, its in times.items():
        steps = sorted(after - before for before, after in zip(its, its[1:]))
        period = steps[len(steps) // 2] if len(steps) > 1 else 0
        gaps = sum(it > 3 * period for it in steps) if period > 0 else 0
        cells = [int(rows[channel][it].replace(",", "")) for it in (4, 10)]
        if cells != [len(its), gaps]:
            fail(f"the table has {cells} of {channel}, and the record {[len(its), gaps]}")


def check_run(page, trace, out, dag=None):
    """The page is that of a trace and a record, with the values that component files of a DAG file give."""
    told, ways = Told(trace), ways_of(read_entries(dag)) if dag else {}
    data = next(json.loads(script) for given, script in page.scripts if given.get("type") == "application/json")
    if len(page.scripts) != 2:
        fail(f"{len(page.scripts)} scripts")
    told.places = set(told.tape)
    messages = defaultdict(list)
    with open(out, "rb") as file:
        for (_, time, content), (name, _) in zip(messages_of(file.read()), told.tape):
            messages[name].append((time, content))
    times = {name: [it[0] for it in its] for name, its in messages.items()}
    if {it["name"] for it in data["lanes"]} != set(messages) | set(told.calls):
        fail("lanes of other names")
    for lane in data["lanes"]:
        if lane["kind"] == "channel":
            check_channel(lane, data, messages[lane["name"]], ways.get(lane["name"].encode()))
        else:
            check_component(lane, data, told, times)
    check_tables(page, told, times)


def main():
    with open(sys.argv[1], encoding="utf-8") as file:
        text = file.read()
    if len(text.encode()) > MOST:
        fail(f"{len(text.encode())} bytes")
    page = Page(text)
    check_page(page)
    if len(sys.argv) > 2:
        check_run(page, *sys.argv[2:])


main()
