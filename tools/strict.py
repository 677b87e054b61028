"""Traces read to the letter, as docs/FORMATS.md says: each line has just one spelling, and the first one that fits nowhere is bad.

`trace.py` reads what the program writes, fast and in columns; here a trace is looked at line by line, whoever wrote it.
"""
import re
from typing import NamedTuple, Optional

SHORT, LONG = 2**32 - 1, 2**64 - 1
NUMBER = rb"(0|[1-9][0-9]*)"
NAME = rb'"((?:[^"\\]|\\.)*)"'
TITLE = re.compile(rb"cyber-trace ([12])")
PLAYED = re.compile(rb"played %s shadowed %s" % (NUMBER, NUMBER))
COMPONENT = re.compile(rb"component %s(?: overflow (NEWEST|OLDEST))?" % NAME, re.DOTALL)
ROLES = re.compile(rb"roles (-|[0-9]+)")
OUTPUT = re.compile(rb"%s@%s(?:=(0|-?[1-9][0-9]*))?" % (NUMBER, NUMBER))
CALL = re.compile(rb"call %s/%s((?: (?:0|[1-9][0-9]*)){1,4}) (\S+)" % (NUMBER, NUMBER))
END = re.compile(rb"end (FINISHED|DATA_WAIT) next %s" % NUMBER)
TAPE = re.compile(rb"tape %s %s" % (NAME, NUMBER), re.DOTALL)
ESCAPE = re.compile(rb"\\([0-7]{3}|.)", re.DOTALL)
MARKS = {b"n": b"\n", b"t": b"\t", b"r": b"\r"}


class Bad(Exception):
    """The number of the line that is bad."""


class Output(NamedTuple):
    seq: int
    time: int
    value: Optional[int]


class Call(NamedTuple):
    position: int
    tail: int
    seqs: tuple
    out: Optional[Output]


class Part(NamedTuple):
    """The lines of a component, of which the first one has the number `line`."""

    line: int
    name: bytes
    overflow: bytes
    roles: list
    calls: list
    state: bytes
    following: int

    def line_of(self, call):
        """The line of a call, from 0."""
        return self.line + 2 + call

    @property
    def end_line(self):
        return self.line_of(len(self.calls))


class Trace(NamedTuple):
    version: int
    played: int
    shadowed: int
    parts: list
    tape: list  # of messages, each a channel and a number
    tape_line: int  # the number of the first line of the tape


def quoted(name):
    """A name in quotes, as it is spelled in a trace; its bytes are UTF-8."""
    def escaped(byte):
        mark = {34: '\\"', 92: "\\\\", 10: "\\n", 9: "\\t", 13: "\\r"}.get(byte)
        return (mark or f"\\{byte:03o}").encode() if mark or byte < 32 or byte == 127 else bytes([byte])

    return b'"' + b"".join(map(escaped, name)) + b'"'


def name_of(text):
    """The name that stands between quotes; a ValueError where it isn't spelled as it would be written."""
    def unescaped(match):
        it = match[1]
        return bytes([int(it, 8) % 256]) if len(it) == 3 else MARKS.get(it, it)

    name = ESCAPE.sub(unescaped, text)
    name.decode("utf-8")
    if quoted(name) != b'"' + text + b'"':
        raise ValueError("a name in another spelling")
    return name


def bounded(text, greatest):
    """A number that is at most so great, else a ValueError."""
    number = int(text)
    if number > greatest:
        raise ValueError("a number that is too large")
    return number


def matched(pattern, line):
    """The groups of a line of this form, else a ValueError."""
    match = pattern.fullmatch(line)
    if match is None:
        raise ValueError("not of the form")
    return match.groups()


def output_of(text):
    """What a call put out, or None for a dash."""
    if text == b"-":
        return None
    seq, time, value = matched(OUTPUT, text)
    if value is not None and not -(2**63) <= int(value) < 2**63:
        raise ValueError("a value that is too large")
    return Output(bounded(seq, SHORT), bounded(time, LONG), value and int(value))


def call_of(line):
    position, tail, seqs, out = matched(CALL, line)
    numbers = tuple(bounded(it, SHORT) for it in seqs.split())
    return Call(bounded(position, LONG), bounded(tail, LONG), numbers, output_of(out))


class Reader:
    """The lines of a trace, one after another."""

    def __init__(self, data):
        self.lines, self.at = data.split(b"\n"), 0
        self.names = {}  # by its spelling, each name of the tape

    def next(self):
        """The next line, which a newline has to end."""
        self.at += 1
        if self.at >= len(self.lines):
            raise ValueError("the text ends")
        return self.lines[self.at - 1]

    def goes_on(self, word):
        """Whether the next line begins with a word; it need not be whole."""
        return self.lines[self.at].startswith(word)

    @property
    def is_through(self):
        return self.at + 1 == len(self.lines) and not self.lines[self.at]

    def part(self, version):
        """The lines of a component."""
        line = self.at + 1
        name, overflow = matched(COMPONENT, self.next())
        name = name_of(name)
        if (version == 1) != (overflow is None):
            raise ValueError("an overflow in the first version, or none in the second")
        roles, calls = matched(ROLES, self.next())[0], []
        while self.goes_on(b"call "):
            calls.append(call_of(self.next()))
        state, following = matched(END, self.next())
        digits = [] if roles == b"-" else [it - 48 for it in roles]
        return Part(line, name, overflow or b"NEWEST", digits, calls, state, bounded(following, LONG))

    def entry(self):
        """A line of the tape."""
        name, seq = matched(TAPE, self.next())
        if name not in self.names:
            self.names[name] = name_of(name)
        return self.names[name], bounded(seq, SHORT)

    def trace(self):
        version = int(matched(TITLE, self.next())[0])
        played, shadowed = (bounded(it, SHORT) for it in matched(PLAYED, self.next()))
        parts, tape = [], []
        while self.goes_on(b"component "):
            parts.append(self.part(version))
        line = self.at + 1
        while not self.is_through:
            tape.append(self.entry())
        return Trace(version, played, shadowed, parts, tape, line)


def read_trace(data):
    """The trace that bytes are; `Bad` with the number of the first line after which nothing could follow that makes one."""
    reader = Reader(data)
    try:
        return reader.trace()
    except ValueError:
        raise Bad(reader.at) from None
