"""What a run comes to in numbers: of each component its calls, skips and lags, of each channel its rate and its gaps."""
from array import array
from collections import Counter
from dataclasses import dataclass, field
from operator import sub
from typing import NamedTuple

GAP = 3  # a gap is longer than so many periods
GAPS_KEPT = 200  # the longest gaps of a channel


class Gap(NamedTuple):
    """A time without messages on a channel, behind the message of a number."""

    number: int
    begin: int
    end: int

    @property
    def length(self):
        return self.end - self.begin


@dataclass
class ChannelMeasures:
    """Times in nanoseconds; `period` is the median time between two messages, None where fewer than three tell of none."""

    count: int
    size: int
    first: int = None
    last: int = None
    period: int = None
    rate: float = None  # messages a second
    gaps: list = field(default_factory=list)  # the longest ones, in the order of time
    gap_count: int = 0
    backwards: int = 0  # messages with a lesser time than the one before


def gaps_of(times, steps, period):
    """All gaps between messages that are so many nanoseconds apart."""
    return [
        Gap(number, before, before + step) for number, (before, step) in enumerate(zip(times, steps), 1) if step > GAP * period
    ]


def measure_channel(channel):
    """The numbers of a channel."""
    times = channel.times
    found = ChannelMeasures(len(times), channel.size)
    if not times:
        return found
    found.first, found.last = min(times), max(times)
    steps = array("q", map(sub, times[1:], times))
    found.backwards = sum(step < 0 for step in steps)
    if found.last > found.first:
        found.rate = (len(times) - 1) * 1e9 / (found.last - found.first)
    if len(steps) >= 2:
        found.period = sorted(steps)[len(steps) // 2]
    if found.period and found.period > 0:
        gaps = gaps_of(times, steps, found.period)
        found.gap_count = len(gaps)
        found.gaps = sorted(sorted(gaps, key=lambda it: -it.length)[:GAPS_KEPT])
    return found


@dataclass
class ComponentMeasures:
    """Counts of a component; the counters have how often each number came."""

    calls: int
    outputs: int
    tuples: int  # how many were made
    skipped: int
    skips: Counter  # how many tuples were skipped in a row
    lags: Counter  # from the trigger's time to the output's, in nanoseconds
    delays: Counter  # from the trigger's time to the clock's when the output was sent
    waiting: Counter  # how many newer tuples there were when a call took its own
    state: str

    @property
    def longest_skip(self):
        return max(self.skips, default=0)


def tuples_made(component):
    """How many tuples the arrivals at a component's readers make: one for each of reader 0 once all readers have a message."""
    roles, width = component.roles, component.width or component.readers
    firsts = [roles.find(b"%d" % role) for role in range(width)]
    return roles.count(b"0", max(firsts)) if firsts and min(firsts) >= 0 else 0


def skips_in_a_row(positions):
    """How often how many tuples were skipped between two calls, or before the first one."""
    found = Counter(map(sub, positions, array("Q", [0]) + positions[:-1]))
    return Counter({step - 1: count for step, count in found.items() if step > 1})


def clocks_of(replay):
    """By the name of each component, the clock when each of its outputs was sent: the time of the last message played before it."""
    trace, clock, clocks = replay.trace, replay.first, {name: array("Q") for name in replay.makers}
    rows = [(replay.channels[name].times, clocks.get(name)) for name in trace.channels]
    for number, sequence in zip(trace.tape_channels, trace.tape_sequences):
        times, sent = rows[number]
        if sent is None:
            clock = times[sequence - 1]
        else:
            sent.append(clock)
    return {replay.makers[name].name: sent for name, sent in clocks.items()}


def measure_component(component, begins, clocks):
    """The numbers of a component whose calls begin at these times, and whose outputs were sent at these clocks."""
    made = [(begin, time) for begin, time, output in zip(begins, component.times, component.outputs) if output]
    lags = Counter(time - begin for begin, time in made)
    # The clock of the last played message is the last one here, and held outputs behind it are sent when it would pass their time.
    delays = Counter(max(clock, time) - begin for (begin, time), clock in zip(made, clocks))
    return ComponentMeasures(
        calls=len(component.positions),
        outputs=len(component.outputs) - component.outputs.count(0),
        tuples=tuples_made(component),
        skipped=component.skipped,
        skips=skips_in_a_row(component.positions),
        lags=lags,
        delays=delays,
        waiting=Counter(map(sub, component.tails, component.positions)),
        state=component.state,
    )
