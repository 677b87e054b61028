"""A replay as its files tell it together: the trace, the messages of its record, and the components of its DAG file."""
import re
from array import array
from collections import Counter
from dataclasses import dataclass, field

from dag import read_entries, ways_of
from record import forms_of, header_of, opened, whole_of
from tape import taped_messages
from trace import read_trace, unquoted
from values import Way, value_of

LONGEST_WHOLE = 11  # bytes of a content that is nothing but a whole number: a tag and a varint
KNOWN_CONTENTS = 50_000  # contents whose number is remembered
SAMPLES, ALL_SAMPLES = 1_000, 20_000  # contents of described messages that are kept of a channel, and of all
LARGEST_SAMPLE = 65_536  # bytes
WORD = re.compile(rb'"(?:[^"\\]|\\.)*"|\S+')
VALUE = re.compile(rb'value "((?:[^"\\]|\\.)*)" path ([0-9 ]+) kind (\w+) scale (\d+)')
HAS_ONE_VALUE = ("class", "queue", "every", "overflow")


def text_of(name):
    """A name in bytes as the trace's reader gives it."""
    return name.decode("utf-8", "surrogateescape")


@dataclass
class Part:
    """What the DAG file says of a component. Any class is as good as another here."""

    name: str
    kind: str = ""
    readers: list = field(default_factory=list)  # the channels that it reads
    out: str = None
    queue: int = 1
    overflow: str = "NEWEST"
    interval: int = None  # in milliseconds, of a timer component


@dataclass
class Channel:
    """The messages of a channel, in columns: message k is entry k - 1 of each."""

    name: str
    kind: str = ""  # the name of its type
    way: Way = None  # to the values of its messages, where a component file gives it
    times: array = field(default_factory=lambda: array("Q"))
    values: array = field(default_factory=lambda: array("q"))  # 0 where a message has none
    valued: bytearray = field(default_factory=bytearray)  # 1 where it has one
    size: int = 0  # bytes of all contents
    message_class: type = None  # of its messages, where their type is described
    step: int = 0  # each how many messages a content is kept, 0 where none is
    samples: list = field(default_factory=list)  # times and contents of messages, but for those that are nothing but whole numbers
    digests: array = field(default_factory=lambda: array("q"))  # of the contents, where they are to be compared

    @property
    def has_values(self):
        return any(self.valued)


def part_of(line):
    """The component that a line of `cyber check` tells of, None for another line. Keywords that aren't known are left out."""
    words = WORD.findall(line)
    if words[:1] not in ([b"component"], [b"timer"]):
        return None
    found, key = {}, "name"
    for word in words[1:]:
        if word.startswith(b'"'):
            found.setdefault(key, []).append(unquoted(word[1:-1]))
        elif key in HAS_ONE_VALUE and key not in found:
            found[key] = [word.decode("utf-8", "replace")]
        else:
            key = word.decode("utf-8", "replace")
    if not found.get("name"):
        return None
    name = found["name"][0]
    one = {key: found[key][0] for key in HAS_ONE_VALUE if found.get(key)}
    readers = ["@timer/" + name] if words[0] == b"timer" else found.get("reads", [])
    interval = int(one["every"]) if one.get("every", "").isdigit() else None
    queue = int(one["queue"]) if one.get("queue", "").isdigit() else 1
    out = found.get("writes", [None])[0]
    return Part(name, one.get("class", ""), readers, out, queue, one.get("overflow", "NEWEST"), interval)


def parts_checked(text):
    """The components in what `cyber check` printed, in bytes."""
    return [part for line in text.splitlines() if (part := part_of(line))]


def ways_checked(text):
    """By the name of a channel the way to the values of its messages, in what `cyber check` printed."""
    found = [match for line in text.splitlines() if (match := VALUE.fullmatch(line))]
    return {unquoted(it[1]): Way(tuple(map(int, it[2].split())), it[3].decode(), int(it[4])) for it in found}


def ways_read(path):
    """The same in the component files of a DAG file."""
    return {text_of(channel): way for channel, way in ways_of(read_entries(path)).items()}


def parts_read(path):
    """The components of a DAG file, as tools/dag.py reads it."""
    found = []
    for it in read_entries(path):
        readers, out = [text_of(name) for name in it.readers], text_of(it.out) if it.out is not None else None
        found.append(Part(text_of(it.name), it.kind, readers, out, it.queue, it.overflow.decode(), it.interval))
    return found


class Values:
    """Gives the numbers of contents that are whole numbers; most contents of a record come more than once."""

    def __init__(self):
        self.known = {}

    def of(self, content):
        """The number, or None."""
        if not 2 <= len(content) <= LONGEST_WHOLE or content[0] != 8:
            return None
        value = self.known.get(content, self)
        if value is self:
            value = whole_of(content)
            if len(self.known) < KNOWN_CONTENTS:
                self.known[content] = value
        return value


def channels_of(trace, data, describer, ways):
    """The channels of a trace, with the types that a record has for them, the classes of their messages, and the ways to their values."""
    forms, counts = forms_of(data), Counter(trace.tape_channels)
    classes = describer.classes_of(forms)
    found = []
    for number, name in enumerate(trace.channels):
        key = name.encode("utf-8", "surrogateescape")
        channel = Channel(name, text_of(forms.get(key, (b"",))[0]), ways.get(name), message_class=classes.get(key))
        if channel.message_class:
            channel.step = -(-counts[number] // min(SAMPLES, max(ALL_SAMPLES // len(trace.channels), 1)))
        found.append(channel)
    return found


def read_channels(trace, path, describer, ways, has_digests=False):
    """The channels of the record at a path, which has to be that of a trace's tape, in the order of the tape."""
    whole_number = Values().of
    with opened(path) as data:
        header_of(data)
        channels = channels_of(trace, data, describer, ways)
        for place, number, time, content in taped_messages(trace, data):
            channel = channels[place]
            channel.times.append(time)
            way = channel.way
            value = whole_number(content) if way is None else value_of(content, way)
            channel.values.append(value or 0)
            channel.valued.append(value is not None)
            channel.size += len(content)
            if has_digests:
                channel.digests.append(hash(content))
            if (value is None or way) and channel.step and (number - 1) % channel.step == 0 and len(content) <= LARGEST_SAMPLE:
                channel.samples.append((time, content))
    return channels


class Replay:
    """A run: its trace, its channels by name, and what is known of its components."""

    def __init__(self, trace, channels, parts):
        self.trace, self.channels = trace, {it.name: it for it in channels}
        known = {it.name: it for it in parts}
        self.components = [(it, known.get(it.name) or Part(it.name)) for it in trace.components]
        self.makers = {part.out: component for component, part in self.components if part.out is not None}
        times = [it.times for it in channels if it.times]
        self.first = min(map(min, times), default=0)
        self.last = max(map(max, times), default=0)

    @property
    def span(self):
        """How long it is by the times of its messages, in nanoseconds, and at least one."""
        return max(self.last - self.first, 1)

    def readers_of(self, component, part):
        """The channel of each reader of a component, None for one that isn't known or has no messages."""
        known = [self.channels.get(name) for name in part.readers]
        return (known + [None] * component.readers)[: max(component.readers, len(known))]

    def triggers_of(self, component, part):
        """The times of the messages that trigger a component, None where they aren't known."""
        return next((it and it.times for it in self.readers_of(component, part)), None)

    def begins_of(self, component, part):
        """The time of each call's trigger; where its channel isn't known the time of the output, or else of the call before."""
        return component.begins(self.triggers_of(component, part), self.first)

    def skips_of(self, component, part):
        """The times of the triggers of the tuples that calls jumped over, where the trigger's channel is known."""
        return component.skips(self.triggers_of(component, part))


def check_tuples(replay):
    """Raises a ValueError where a call is on messages that their channels don't have."""
    for component, part in replay.components:
        for role, channel in enumerate(replay.readers_of(component, part)[: component.width]):
            if channel is not None:
                component.check_messages(role, channel.name, len(channel.times))


def read_replay(trace_path, record_path, parts, ways, describer, has_digests=False):
    """The run of a trace and a record with these components and ways to values, with digests of its contents where it is to be compared.

    A ValueError tells of files that make no run.
    """
    trace = read_trace(trace_path)
    try:
        channels = read_channels(trace, record_path, describer, ways, has_digests)
    except ValueError as error:
        raise ValueError(f"{record_path}: {error}") from None
    replay = Replay(trace, channels, parts)
    try:
        check_tuples(replay)
    except ValueError as error:
        raise ValueError(f"{trace_path}: {error}") from None
    return replay
