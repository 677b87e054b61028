"""What is different in another run, taken for good: the first difference of each channel, and the calls that only one of them has."""
import filecmp
import os
from array import array
from dataclasses import dataclass, field
from typing import NamedTuple

from record import each_message, header_of, opened
from trace import read_trace
from reporting.reading import Values, text_of

CALLS_KEPT = 50  # calls of a component that are named


class Message(NamedTuple):
    """A message as a comparison tells of it."""

    time: int
    content: bytes

    @property
    def text(self):
        """What it holds: a whole number, or its first bytes in hexadecimal digits."""
        value = Values().of(self.content)
        if value is not None:
            return str(value)
        return f"0x{self.content[:24].hex()}" + ("…" if len(self.content) > 24 else "") + f" ({len(self.content)} bytes)"


class ChannelDifference(NamedTuple):
    """The first message of a channel that isn't the same, None where a run has no such message."""

    channel: str
    number: int
    here: Message
    good: Message
    count: int  # how many messages each run has
    good_count: int

    @property
    def what(self):
        """What differs."""
        if self.here is None or self.good is None:
            return "only here" if self.good is None else "only in the good run"
        return "time" if self.here.time != self.good.time else "content"


@dataclass
class CallDifference:
    """Calls of a component that only one run has, by the position of their tuples, and those on other messages or with another output."""

    component: str
    only_here: list = field(default_factory=list)  # the first ones, by their number from 1
    here_count: int = 0
    only_good: list = field(default_factory=list)
    good_count: int = 0
    changed: list = field(default_factory=list)
    changed_count: int = 0

    def __bool__(self):
        return bool(self.here_count or self.good_count or self.changed_count)


def digests_of(path):
    """By channel, the time of each message and a number that tells its content from others in all likelihood, for this process."""
    found = {}
    with opened(path) as data:
        header_of(data)
        for channel, time, content in each_message(data):
            columns = found.get(channel)
            if columns is None:
                columns = found[channel] = (array("Q"), array("q"))
            columns[0].append(time)
            columns[1].append(hash(content))
    return found


def first_unlike(one, other):
    """The first index at which two channels' columns differ, None where they are equal."""
    if one == other:
        return None
    least = min(len(one[0]), len(other[0]))
    pairs = zip(zip(*one), zip(*other))
    return next((index for index, (here, there) in enumerate(pairs) if here != there), least)


def messages_at(path, wanted):
    """The messages of a record at an index of each channel, where it has them."""
    found, counts, left = {}, dict.fromkeys(wanted, -1), dict(wanted)
    with opened(path) as data:
        for channel, time, content in each_message(data):
            if channel in left:
                counts[channel] += 1
                if counts[channel] == left[channel]:
                    found[channel] = Message(time, bytes(content))
                    del left[channel]
                    if not left:
                        break
    return found


def compare_records(replay, path, good_path):
    """The first difference of each channel that has one, of a run with digests, whose record is at a path, and of another record."""
    if filecmp.cmp(path, good_path, shallow=False):
        return []
    here = {it.name.encode("utf-8", "surrogateescape"): (it.times, it.digests) for it in replay.channels.values()}
    good = digests_of(good_path)
    empty = (array("Q"), array("q"))
    pairs = {channel: (here.get(channel, empty), good.get(channel, empty)) for channel in dict.fromkeys([*here, *good])}
    wanted = {channel: index for channel, (one, other) in pairs.items() if (index := first_unlike(one, other)) is not None}
    messages, good_messages = messages_at(path, wanted), messages_at(good_path, wanted)
    return [
        ChannelDifference(
            text_of(channel), index + 1, messages.get(channel), good_messages.get(channel), *(len(it[0]) for it in pairs[channel])
        )
        for channel, index in wanted.items()
    ]


def call_of(component, index):
    """What a call took and put out."""
    output = (component.times[index], component.values[index], component.valued[index]) if component.outputs[index] else None
    return component.tuple_of(index), output


def compare_calls(here, good):
    """How the calls of a component differ in two runs, by the positions of their tuples, which rise."""
    found = CallDifference(here.name)
    one, other = 0, 0
    while one < len(here.positions) or other < len(good.positions):
        mine = here.positions[one] if one < len(here.positions) else None
        its = good.positions[other] if other < len(good.positions) else None
        if its is None or mine is not None and mine < its:
            found.here_count += 1
            found.only_here.append(one + 1)
            one += 1
        elif mine is None or its < mine:
            found.good_count += 1
            found.only_good.append(other + 1)
            other += 1
        else:
            if call_of(here, one) != call_of(good, other):
                found.changed_count += 1
                found.changed.append(one + 1)
            one, other = one + 1, other + 1
    for calls in (found.only_here, found.only_good, found.changed):
        del calls[CALLS_KEPT:]
    return found


def has_same_calls(here, good):
    """Whether two components made the same calls, column by column."""
    columns = ("positions", "sequences", "outputs", "times", "values", "valued")
    return all(getattr(here, it) == getattr(good, it) for it in columns)


@dataclass
class Comparison:
    """All that differs from a good run."""

    folder: str
    channels: list
    calls: list
    missing: list  # components that only one run has
    is_same_tape: bool

    @property
    def is_same(self):
        return not self.channels and not self.calls and not self.missing


def compare(replay, record_path, folder):
    """What differs from the run in a folder, whose files are out.rec and out.trace, as those of a batch."""
    good = read_trace(os.path.join(folder, "out.trace"))
    ones, others = {it.name: it for it in replay.trace.components}, {it.name: it for it in good.components}
    pairs = [(it, others[name]) for name, it in ones.items() if name in others]
    calls = [difference for one, other in pairs if not has_same_calls(one, other) and (difference := compare_calls(one, other))]
    missing = [name for name in [*ones, *others] if (name in ones) != (name in others)]
    channels = compare_records(replay, record_path, os.path.join(folder, "out.rec"))
    return Comparison(folder, channels, calls, missing, is_same_tape(replay.trace, good))


def is_same_tape(one, other):
    """Whether two tapes have the same messages in the same order. Channels are numbered as they come, so equal numbers are equal names."""
    return (one.channels, one.tape_channels, one.tape_sequences) == (other.channels, other.tape_channels, other.tape_sequences)
