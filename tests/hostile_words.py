#!/usr/bin/env python3
"""Gives the program words with odd names in them, and compares its status, its line and its trace with what docs/FORMATS.md says of words.

    hostile_words.py PROGRAM

One DAG file has a component of each odd name, and one record a message on a channel of each at each time from 1 to 4, so that a stop and a
list of channels are seen to mean just what they name. Prints how many rows there were, and ends with status 1 where one differs.
"""
import os
import re
import subprocess
import sys
import tempfile

HERE = os.path.dirname(os.path.abspath(__file__))
sys.path.insert(0, os.path.join(HERE, "..", "tools"))
from record import content_of, record
from strict import quoted

USAGE = b"cyber: the words are not of a known form\n"
TIMES = [1, 2, 3, 4]
# The system hands no word on that has 131,072 bytes or a byte 0.
NAMES = [
    b"p", b"p@1", b"@", b"@@5@", b"a@b@", b"a=b", b"=", b"a b", b" ", b"\n", b"a\nb\n", b"\t", b"\r", b"\1", b"\x7f", b'"', b'"q"', b"'", b"\\",
    b"\\n", b"#", b"{}", b"%n%s", b"$(id)", b"`", b"*", b"a-", "é".encode(), "\u202e".encode(), "\U0010ffff".encode(), b"x" * 4096,
]  # fmt: skip
WITH_COMMAS = [b",", b"a,b", b"p,"]
LONG = b"x" * 10_000  # longer than a record may have the name of a channel
# No words of any form: a name that is no UTF-8, or that a word would begin with a `-` for.
NO_NAMES = [b"\xff", b"p\xff", b"\xc0\x80", b"\xed\xa0\x80", b"\xf4\x90\x80\x80", b"\xc3", b"-p", b"--stop", b"-"]
NO_TIMES = [
    b"", b"-1", b"+1", b" 1", b"1 ", b"1\n", b"0x1", b"1e3", b"1.0", b"1_0", b"\xd9\xa1", b"18446744073709551616", b"000000000000000000001",
    b"99999999999999999999", b"\xff", b"1@", b"1,",
]  # fmt: skip
NO_LISTS = [b"", b",", b",p", b"p,", b"p,,p", b",,", *NO_NAMES, b"p,\xff"]
SPLIT = [b"split", b"in.rec", b"part.rec"]
PLAY = [b"play", b"--serial", b"--dag", b"d.dag", b"--record", b"in.rec", b"--out", b"out.rec", b"--trace", b"trace"]


def in_text(name):
    """A name as a string of the text form, each byte of which has an escape."""
    return b'"' + b"".join(b"\\%03o" % it for it in name) + b'"'


def write_files(names):
    """A component of each name reads the channel of that name; messages stand on all of these."""
    parts = []
    for number, name in enumerate(names):
        config = b'name: %s config_file_path: "p%d.conf" readers { channel: %s }' % (in_text(name), number, in_text(name[:4096]))
        parts.append(b'components { class_name: "PassComponent" config { %s } }' % config)
        with open(f"p{number}.conf", "w", encoding="utf-8") as file:
            file.write(f'out: "/out/{number}"')
    with open("d.dag", "wb") as file:
        file.write(b"module_config { %s }" % b" ".join(parts))
    with open("in.rec", "wb") as file:
        file.write(record([(name[:4096], time, content_of(time)) for time in TIMES for name in channels(names)]))


def channels(names):
    return list(dict.fromkeys(name[:4096] for name in names))


def option(name, value):
    """An option as two words, and as one."""
    return [[name, value], [name + b"=" + value]]


def calls_of(trace):
    """By the name of each component, as a trace spells it, its calls and the state in which it ended."""
    found = {}
    for part in re.split(rb"^component ", trace, flags=re.M)[1:]:
        state = re.search(rb"^end (\w+)", part, re.M)[1]
        found[part.split(b"\n", 1)[0]] = len(re.findall(rb"^call ", part, re.M)), state
    return found


def done_line(played, calls):
    return b"done: played %d, shadowed 0, calls %d, written %d\n" % (played, calls, played + calls)


class Rows:
    def __init__(self, program):
        self.program, self.count, self.wrong = program, 0, []

    def answers(self, words, status, line):
        """Compares the status and the line, which stands on the stream where it belongs."""
        ran = subprocess.run([self.program, *words], capture_output=True, timeout=60, check=False)
        has, want = (ran.returncode, ran.stdout, ran.stderr), (status, line, b"") if status == 0 else (status, b"", line)
        self.is_so(has == want, words, f"{has} and not {want}")
        return has == want

    def is_so(self, is_well, words, what):
        self.count += 1
        if not is_well:
            self.wrong.append(f"{[it[:60] for it in words]}: {what[:400]}")

    def refuses(self, words):
        """The words ask for nothing, and no file is made."""
        before = sorted(os.listdir(b"."))
        self.answers(words, 2, USAGE)
        self.is_so(sorted(os.listdir(b".")) == before, words, "a file was made")


def try_stops(rows, names):
    """The component of just that name is stopped, whatever stands in it; another name is told in quotes."""
    most = len(channels(names)) * len(TIMES)
    for name in names:
        for words in option(b"--stop", name + b"@2"):
            if rows.answers(PLAY + words, 0, done_line(most, len(names) * len(TIMES) - 2)):
                with open("trace", "rb") as file:
                    found = calls_of(file.read())
                want = {quoted(it): (2, b"FINISHED") if it == name else (4, b"DATA_WAIT") for it in names}
                rows.is_so(found == want, words, f"{found.get(quoted(name))} is what became of it")
        for words in option(b"--stop", name + b"?@2"):
            rows.answers(PLAY + words, 1, b"cyber: d.dag: StopUnknown %s\n" % quoted(name + b"?"))
    for words in [it for name in NO_NAMES for it in option(b"--stop", name + b"@2")]:
        rows.refuses(PLAY + words)
    for time in NO_TIMES:
        for words in option(b"--stop", b"p@" + time):
            rows.refuses(PLAY + words)
    for value in (b"", b"p", b"@2", b"@", LONG):
        for words in option(b"--stop", value):
            rows.refuses(PLAY + words)


def try_lists(rows, names):
    """Just the messages of the channels that a list names are played, or left out."""
    there = channels(names)
    single = [it for it in there if b"," not in it]
    lists = [(it, {it}) for it in single] + [(b",".join(single), set(single)), (b"a,-b, p,P", set()), (b"a,b", set()), (LONG, set())]
    for value, named in lists:
        for name, count in ((b"--channels", len(named)), (b"--drop", len(there) - len(named))):
            for words in option(name, value):
                calls = sum(it[:4096] in named if name == b"--channels" else it[:4096] not in named for it in names)
                rows.answers(PLAY + words, 0, done_line(count * len(TIMES), calls * len(TIMES)))
            for words in option(name, value):
                told = b"done: messages %d of %d\n" % (count * len(TIMES), len(there) * len(TIMES))
                rows.answers(SPLIT + words, 0, told)
    for value in NO_LISTS:
        for words in option(b"--channels", value) + option(b"--drop", value):
            rows.refuses(PLAY + words)
            rows.refuses(SPLIT + words)
        rows.refuses([b"merge", value, b"part.rec"])


def try_places(rows, names):
    """Words that stand at places: channels of `pass`, and names of files."""
    there = channels(names)
    for name in there:
        words = [b"pass", b"in.rec", b"out.rec", b"trace", name, b"/to"]
        rows.answers(words, 0, done_line(len(there) * len(TIMES), len(TIMES)))
        rows.refuses(words[:5] + [name])
    for name in NO_NAMES:
        rows.refuses([b"pass", b"in.rec", b"out.rec", b"trace", name, b"/to"])
        rows.refuses([b"info", name])
        rows.refuses([b"recover", name, b"part.rec"])
        rows.refuses([b"split", b"in.rec", name])
        rows.refuses([b"merge", b"in.rec", name])
    for name in (b"a\nb", b"a=b", "é".encode(), b"@", b"a,b", b'"', b"no\\", b" ", b"x" * 4000, b"x" * 100_000, b"/" * 100_000 + b"no"):
        rows.answers([b"info", name], 3, b"cyber: %s: the store failed\n" % name)
        rows.answers([b"recover", name, b"part.rec"], 3, b"cyber: %s: the store failed\n" % name)
        for words in option(b"--dag", name):
            rows.answers([b"check", *words], 3, b"cyber: %s: the store failed\n" % name)
    rows.refuses([b"info"] + [b"in.rec"] * 10_000)
    rows.refuses(PLAY + [b"--drop", b"/a"] * 10_000)


def main():
    rows, names = Rows(os.path.abspath(sys.argv[1])), NAMES + WITH_COMMAS + [LONG]
    with tempfile.TemporaryDirectory() as folder:
        os.chdir(folder)
        write_files(names)
        try_stops(rows, names)
        try_lists(rows, names)
        try_places(rows, names)
        os.chdir("/")
    for wrong in rows.wrong[:20]:
        print(wrong)
    print(f"{rows.count} rows of words, {len(rows.wrong) or 'none'} amiss")
    return min(len(rows.wrong), 1)


if __name__ == "__main__":
    sys.exit(main())
