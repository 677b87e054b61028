"""Traces of replays, read as docs/FORMATS.md says; a million calls take some 100 MB."""
import re
from array import array
from dataclasses import dataclass, field
from itertools import chain, islice
from operator import lt

HEADS = {b"cyber-trace 1\n": 1, b"cyber-trace 2\n": 2}
NAME = rb'component "((?:[^"\\]|\\.)*)"'
COMPONENTS = {1: re.compile(NAME + rb"(?P<overflow>)\n"), 2: re.compile(NAME + rb" overflow (?P<overflow>NEWEST|OLDEST)\n")}
QUOTED = re.compile(rb'"((?:[^"\\]|\\.)*)"')
ESCAPE = re.compile(rb"\\([0-7]{3}|.)", re.DOTALL)
MARKS_TO_SPACES = bytes.maketrans(b"/@=", b"   ")
CALLS = 20_000  # lines that are read at once
MARKS = {b"n": b"\n", b"t": b"\t", b"r": b"\r"}


def unquoted(text):
    """The name that stands between quotes, with its escapes undone."""
    def mark(match):
        it = match[1]
        return bytes([int(it, 8)]) if len(it) == 3 else MARKS.get(it, it)

    return ESCAPE.sub(mark, text).decode("utf-8", "surrogateescape")


def names_in(line):
    """All the quoted names of a line, in their order."""
    return [unquoted(match[1]) for match in QUOTED.finditer(line)]


@dataclass
class Component:
    """The calls of a component, in columns: call k has the k-th entry of each, and `width` entries of `sequences`."""

    name: str
    overflow: str = "NEWEST"  # the tuple at which it goes on where its next one isn't kept any more: the newest, or the oldest kept
    roles: bytes = b""
    width: int = 0
    positions: array = field(default_factory=lambda: array("Q"))
    tails: array = field(default_factory=lambda: array("Q"))
    sequences: array = field(default_factory=lambda: array("I"))
    outputs: array = field(default_factory=lambda: array("I"))  # 0 where a call put nothing out
    times: array = field(default_factory=lambda: array("Q"))
    values: array = field(default_factory=lambda: array("q"))
    valued: bytearray = field(default_factory=bytearray)  # 1 where `values` has the output's value
    state: str = ""
    following: int = 0

    @property
    def readers(self):
        """How many channels it is known to read; the roles are the digits from `0` on."""
        return max(self.width, max(self.roles, default=ord("0") - 1) - ord("0") + 1)

    @property
    def skipped(self):
        """How many tuples its calls jumped over."""
        return self.positions[-1] - len(self.positions) if self.positions else 0

    def tuple_of(self, call):
        """The numbers of the messages of a call's tuple, in reader order."""
        return self.sequences[call * self.width : (call + 1) * self.width]

    def begins(self, times, first):
        """The time of each call's trigger, by the times of the messages of the trigger's channel.

        Where these aren't known it is the time of the output, or else of the call before; of the first call it is then `first`.
        """
        if self.width and times is not None:
            return array("Q", [times[it - 1] for it in self.sequences[:: self.width]])
        found, last = array("Q"), first
        for output, time in zip(self.outputs, self.times):
            last = time if output else last
            found.append(last)
        return found

    def skips(self, times):
        """The times of the triggers of all tuples that calls jumped over; none where the times of the trigger's channel aren't known."""
        found, last = array("Q"), 0
        if not self.skipped or times is None:
            return found
        before = self.sequences[0] - self.positions[0]
        for position in self.positions:
            if position != last + 1:
                found.extend(times[last + before : position - 1 + before])
            last = position
        return found

    def check_messages(self, role, channel, count):
        """Raises a ValueError where a call is on a message that the channel of a reader, with so many messages, doesn't have."""
        numbers = self.sequences[role :: self.width]
        before = numbers[0] - self.positions[0]  # how many messages came before the first tuple
        if max(numbers) > count or role == 0 and not 0 <= before <= count - self.positions[-1]:
            raise ValueError(f"component {self.name}: a call on a message that {channel} doesn't have")


@dataclass
class Trace:
    """A run: its components, and its tape as two columns, of channels (by their number in `channels`) and of numbers."""

    version: int = 1
    played: int = 0
    shadowed: int = 0
    components: list = field(default_factory=list)
    channels: list = field(default_factory=list)
    tape_channels: array = field(default_factory=lambda: array("H"))
    tape_sequences: array = field(default_factory=lambda: array("I"))

    @property
    def calls(self):
        return sum(len(it.positions) for it in self.components)


def read_call(component, line):
    """Puts a line `call P/T SEQS OUT` behind the calls of a component."""
    words = line.split()
    position, tail = words[1].split(b"/")
    width = len(words) - 3
    if not 1 <= width <= 4 or component.width not in (0, width):
        raise ValueError("the number of messages")
    component.width = width
    component.positions.append(int(position))
    component.tails.append(int(tail))
    component.sequences.extend(map(int, words[2:-1]))
    out = words[-1]
    sequence, _, rest = (b"0", b"", b"0") if out == b"-" else out.partition(b"@")
    time, _, value = rest.partition(b"=")
    component.outputs.append(int(sequence))
    component.times.append(int(time))
    component.values.append(int(value or 0))
    component.valued.append(value != b"")


def read_calls(component, lines):
    """Puts many lines of calls, column by column where all have outputs with values; answers whether they are of that form."""
    text = b"".join(lines)
    if text.count(b"=") != len(lines):
        return False
    words = text.translate(MARKS_TO_SPACES).split()
    step = len(words) // len(lines)
    width = step - 6
    if len(words) != step * len(lines) or not 1 <= width <= 4 or component.width not in (0, width) or set(words[::step]) != {b"call"}:
        return False
    try:
        columns = [list(map(int, words[k::step])) for k in range(1, step)]
    except ValueError:
        return False  # line by line it is found which one it is
    component.width = width
    component.positions.extend(columns[0])
    component.tails.extend(columns[1])
    component.sequences.extend(chain.from_iterable(zip(*columns[2 : 2 + width])))
    component.outputs.extend(columns[-3])
    component.times.extend(columns[-2])
    component.values.extend(columns[-1])
    component.valued.extend(b"\1" * len(lines))
    return True


def check_calls(component):
    """Raises a ValueError where calls go backwards, or messages aren't numbered from 1."""
    outputs = array("I", filter(None, component.outputs))
    if not all(map(lt, chain([0], component.positions), component.positions)):
        raise ValueError("calls that go backwards")
    if min(component.sequences, default=1) < 1 or outputs != array("I", range(1, len(outputs) + 1)):
        raise ValueError("messages that aren't numbered from 1")


def read_component(component, line):
    """Takes a line of a component that is none of a call."""
    words = line.split()
    if words[0] == b"roles" and len(words) == 2:
        component.roles = b"" if words[1] == b"-" else words[1]
    elif words[0] == b"end" and len(words) == 4 and words[2] == b"next":
        component.state, component.following = words[1].decode(), int(words[3])
        check_calls(component)
    else:
        raise ValueError("a line of no known form")


class Reader:
    """Reads the lines of a trace, and counts them for whom it tells of one that is wrong."""

    def __init__(self):
        self.trace, self.line, self.numbers = Trace(), 0, {}

    def read_head(self, file):
        """The first two lines."""
        self.line = 1
        self.trace.version = HEADS.get(file.readline(20))
        if self.trace.version is None:
            raise ValueError("not a trace")
        self.line = 2
        words = file.readline().split()
        if len(words) != 4 or words[0] != b"played" or words[2] != b"shadowed":
            raise ValueError("not the numbers of messages")
        self.trace.played, self.trace.shadowed = int(words[1]), int(words[3])

    def read_rest(self, file):
        """The lines of the components, and then those of the tape."""
        components = self.trace.components
        rest = self.other_lines(file)
        for line in rest:
            self.line += 1
            if line.startswith(b'tape "'):
                self.check_end()
                self.read_tape(line)
                self.read_tapes(rest)
            elif line.startswith(b'component "'):
                self.check_end()
                components.append(self.component_of(line))
            else:
                read_component(components[-1], line)
        self.check_end()
        if len(self.trace.tape_sequences) < self.trace.played:
            raise ValueError("the trace is cut")

    def component_of(self, line):
        """The component that a line begins."""
        match = COMPONENTS[self.trace.version].fullmatch(line)
        if match is None:
            raise ValueError("a component of no known form")
        return Component(unquoted(match[1]), match["overflow"].decode() or "NEWEST")

    def check_end(self):
        """Raises a ValueError where the last component has no end."""
        if self.trace.components and not self.trace.components[-1].state:
            raise ValueError("a component without an end")

    def other_lines(self, file):
        """The lines that are none of a call; calls are read on the way."""
        while lines := list(islice(file, CALLS)):
            if len(lines) == CALLS and lines[0].startswith(b"call ") and lines[-1].startswith(b"call "):
                if read_calls(self.trace.components[-1], lines):
                    self.line += CALLS
                    continue
            lines = iter(lines)
            for line in lines:
                if line.startswith(b"call "):
                    self.line += 1
                    read_call(self.trace.components[-1], line)
                elif line.startswith(b'tape "'):
                    yield from chain([line], lines)
                    yield from file
                else:
                    yield line

    def read_tapes(self, file):
        """The lines of the tape behind its first one, up to the end; most are of a channel that is known."""
        get, channels, sequences = self.numbers.get, self.trace.tape_channels, self.trace.tape_sequences
        for line in file:
            self.line += 1
            head, _, sequence = line.rpartition(b" ")
            number = get(head)
            if number is None:
                self.read_tape(line)
            else:
                channels.append(number)
                sequences.append(int(sequence))

    def read_tape(self, line):
        if not line.startswith(b'tape "'):
            raise ValueError("no message of the tape")
        head, _, sequence = line.rpartition(b" ")
        number = self.numbers.get(head)
        if number is None:
            number = self.numbers[head] = len(self.trace.channels)
            self.trace.channels.append(names_in(head)[0])
        self.trace.tape_channels.append(number)
        self.trace.tape_sequences.append(int(sequence))


def read_trace(path):
    """The trace in a file; a ValueError names the line where it is none."""
    reader = Reader()
    with open(path, "rb") as file:
        try:
            reader.read_head(file)
            reader.read_rest(file)
        except IndexError:
            raise ValueError(f"{path}: line {reader.line}: a line of no known form") from None
        except (ValueError, OverflowError) as error:
            raise ValueError(f"{path}: line {reader.line}: {error}") from None
    return reader.trace
