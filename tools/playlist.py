"""Which messages of a record are played, in their order, as docs/RULES.md says; and the options of `play` that choose them."""
import argparse
import os
from typing import NamedTuple, Optional

from dag import ways_of
from record import content_of
from values import value_by

LAST_TIME = 2**64 - 1
MILLISECOND = 1_000_000
MOST_PLAYED, MOST_PLANNED = 4_194_304, 16_777_216


class Message(NamedTuple):
    channel: bytes
    seq: int
    time: int
    value: Optional[int]
    content: bytes


class Filter(NamedTuple):
    """Which messages are chosen: those of some channels or of all, of none of some, and from a time to another."""

    only: frozenset = frozenset()
    drop: frozenset = frozenset()
    begin: int = 0
    end: int = LAST_TIME

    def lets_through(self, channel, time):
        return (not self.only or channel in self.only) and channel not in self.drop and self.begin <= time <= self.end


class PlayList(NamedTuple):
    messages: list
    shadowed: int


def list_recorded(messages, components, chosen=Filter()):
    """Those of a record's messages that are played, each a channel, a time and a content; and how many others are shadowed."""
    written = {it.out for it in components} | {it.readers[0] for it in components if it.interval}
    through = [it for it in messages if chosen.lets_through(it[0], it[1])]
    played, counts, ways = [], {}, ways_of(components)
    for channel, time, content in sorted((it for it in through if it[0] not in written), key=lambda it: it[1]):
        counts[channel] = counts.get(channel, 0) + 1
        played.append(Message(channel, counts[channel], time, value_by(content, ways.get(channel)), content))
    return PlayList(played, len(through) - len(played))


def ticks_of(components, played):
    """By the channel of each timer component the times of its ticks: the multiples of its interval while messages are played."""
    if not played:
        return {}
    begin, end = min(it.time for it in played), max(it.time for it in played)
    periods = {it.readers[0]: it.interval * MILLISECOND for it in components if it.interval}
    return {channel: range(-(-begin // period) * period, end + 1, period) for channel, period in periods.items()}


def with_ticks(components, played):
    """Messages that are played, with the ticks among them: at one time messages first, then ticks in the order of the components."""
    ticks = [
        Message(channel, number, time, number, content_of(number))
        for channel, times in ticks_of(components, played).items()
        for number, time in enumerate(times, 1)
    ]
    return sorted(played + ticks, key=lambda it: it.time)


def list_messages(messages, components, chosen=Filter()):
    """The play list of a record's messages, ticks included; and how many of them are shadowed."""
    played, shadowed = list_recorded(messages, components, chosen)
    return PlayList(with_ticks(components, played), shadowed)


def planned_entries(components, played):
    """How many arrivals, calls and messages of the tape a run may come to have."""
    counts, triggers = {}, {it.out: it.readers[0] for it in components}
    for message in played:
        counts[message.channel] = counts.get(message.channel, 0) + 1

    def planned(channel):
        while channel in triggers:
            channel = triggers[channel]
        return counts.get(channel, 0)

    arrivals = sum(planned(channel) for it in components for channel in it.readers)
    return arrivals + sum(planned(it.readers[0]) for it in components) + sum(map(planned, set(counts) | set(triggers)))


def stop_of(word):
    """The name and the time of a stop: the last @ parts them."""
    name, _, time = word.rpartition("@")
    if not name or not time.isdecimal():
        raise argparse.ArgumentTypeError(f"{word} is not NAME@N, a component and a time in nanoseconds")
    return os.fsencode(name), int(time)


def names_of(word):
    return frozenset(os.fsencode(name) for name in word.split(","))


def add_choice(reader):
    """Adds the options of `play` that choose messages, and the stop."""
    reader.add_argument("--channels", type=names_of, default=frozenset(), help="only the messages of these channels")
    reader.add_argument("--drop", type=names_of, default=frozenset(), help="none of these channels")
    reader.add_argument("--begin", type=int, default=0, help="only messages from this time on")
    reader.add_argument("--end", type=int, default=LAST_TIME, help="only messages up to this time")
    reader.add_argument("--stop", type=stop_of, help="NAME@N: the stop of the play")


def choice_of(words):
    """The filter that words ask for."""
    return Filter(words.channels, words.drop, words.begin, words.end)
