#!/usr/bin/env python3
"""Checks a timeline against the rules of the Chrome trace event format and against the trace that it was made of.

    check_timeline.py run.json TRACE [READERS OUT ...]

Prints nothing where all is well. READERS and OUT are, for each component in its order, the channels that it reads with commas
between them and the one that it writes; with them each flow has to lead from a message of a tuple to its call, or on to its output.
"""
import json
import re
import sys
from bisect import bisect_right
from collections import Counter, defaultdict


def fail(text):
    sys.exit(f"check_timeline: {text}")


def nanoseconds(text):
    """A time with three digits behind the point, exactly."""
    whole, _, rest = text.partition(".")
    if len(rest) != 3:
        fail(f"{text} has not three digits behind the point")
    return int(whole + rest)


def check_event(event):
    """The fields that each kind of event has to have."""
    need = {"X": "name cat pid tid ts dur", "C": "name pid ts args", "M": "name pid args"}
    need |= dict.fromkeys("stf", "name cat id pid tid ts")
    phase = event.get("ph")
    if phase not in need:
        fail(f"an event of no known kind: {event}")
    lacks = [name for name in need[phase].split() if name not in event]
    if lacks or (phase == "X" and event["dur"] <= 0):
        fail(f"{event} lacks {lacks}")
    if phase == "C" and not all(isinstance(it, int) for it in event["args"].values()):
        fail(f"{event} counts no numbers")
    if phase == "f" and event.get("bp") != "e":
        fail(f"{event} is bound to no slice that it stands in")


def tracks_of(events):
    """The slices of each track in the order of time; none may overlap another."""
    tracks = defaultdict(list)
    for event in events:
        if event["ph"] == "X":
            tracks[event["pid"], event["tid"]].append((event["ts"], event["ts"] + event["dur"], event))
    for track, slices in tracks.items():
        slices.sort(key=lambda it: it[:2])
        for before, after in zip(slices, slices[1:]):
            if before[1] > after[0]:
                fail(f"{before[2]} and {after[2]} overlap on track {track}")
    return {track: ([it[0] for it in slices], slices) for track, slices in tracks.items()}


def slice_at(tracks, event):
    """The slice in which a flow's event stands."""
    begins, slices = tracks[event["pid"], event["tid"]]
    at = bisect_right(begins, event["ts"]) - 1
    if at < 0 or event["ts"] >= slices[at][1]:
        fail(f"{event} stands in no slice")
    return slices[at][2]


def ends_of(slice_):
    """What a slice is: a message by its channel and number, a call by its component and number."""
    return slice_["cat"], slice_["name"], slice_["args"].get("number", slice_["args"].get("call"))


def links_of(events, tracks):
    """The pairs of slices that flows join; each flow begins once, ends once, and goes on in time."""
    flows = defaultdict(list)
    for event in events:
        if event["ph"] in "stf":
            flows[event["id"]].append(event)
    links = Counter()
    for number, steps in flows.items():
        steps.sort(key=lambda it: (it["ts"], "stf".index(it["ph"])))
        if [it["ph"] for it in steps] not in (["s", "f"], ["s", "t", "f"]):
            fail(f"flow {number} is {steps}")
        places = [ends_of(slice_at(tracks, it)) for it in steps]
        links.update(zip(places, places[1:]))
    return links


def wanted(trace, wiring):
    """The calls of a trace, and the links that its flows have to make."""
    calls, links, component, number = [], Counter(), -1, 0
    tape = set(re.findall(r'^tape "(.*)" (\d+)$', trace, re.M))
    for line in trace.splitlines():
        if line.startswith("component "):
            quoted = re.match(r'component ("(?:[^"\\]|\\.)*")', line)[1]
            component, number, name = component + 1, 0, json.loads(quoted)
        if not line.startswith("call "):
            continue
        words, number = line.split(), number + 1
        call = "call", name, number
        calls.append(call)
        if wiring:
            readers, out = wiring[2 * component].split(","), wiring[2 * component + 1]
            for reader, sequence in zip(readers, words[2:-1]):
                links[("message", reader, int(sequence)), call] = 1
            sequence = words[-1].split("@")[0]
            if (out, sequence) in tape:
                links[call, ("message", out, int(sequence))] = 1
    return calls, +links


def main():
    path, trace, *wiring = sys.argv[1:]
    with open(path, encoding="utf-8") as file:
        events = json.load(file, parse_float=nanoseconds)["traceEvents"]
    with open(trace, encoding="utf-8") as file:
        calls, links = wanted(file.read(), wiring)
    for event in events:
        check_event(event)
    tracks = tracks_of(events)
    found = links_of(events, tracks)
    if Counter(ends_of(it) for it in events if it.get("cat") == "call") != Counter(calls):
        fail("the slices are not the calls of the trace")
    if found != links and wiring:
        fail(f"the flows are not the tuples and outputs of the trace: {list((found - links) + (links - found))[:3]}")
    names = {(it["pid"], it["tid"]) for it in events if it["name"] == "thread_name"}
    if set(tracks) - names:
        fail(f"tracks without a name: {set(tracks) - names}")


main()
