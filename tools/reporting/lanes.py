"""The lanes of a page's timeline, as its script reads them: all messages and calls where there is room, else some of each lane.

Times are nanoseconds from the first message of the run. Columns whose numbers grow are written as steps, which are shorter. A lane that
doesn't have all of its marks has counts of all, in pieces of the run's time that are equally long.
"""
from array import array
from collections import Counter
from itertools import chain
from operator import sub

from reporting.text import shown

MARKS = 80_000  # messages, calls and skipped tuples in a page
COUNTS = 150_000  # counts in a page
MOST_PIECES, FEWEST_PIECES = 4_000, 200
SAFE = 2**53  # whole numbers that a browser keeps to the last digit are less
ROWS = 4  # held outputs beside each other in a lane


def quotas_of(totals, room):
    """How many marks of each lane there is room for: those with few have all, the others share what is left."""
    found, left = [0] * len(totals), room
    for place, lane in enumerate(sorted(range(len(totals)), key=totals.__getitem__)):
        found[lane] = min(totals[lane], left // (len(totals) - place))
        left -= found[lane]
    return found


def spread(total, quota):
    """So many of the numbers below a total, evenly, the first and the last among them."""
    if quota >= total:
        return range(total)
    return [k * (total - 1) // max(quota - 1, 1) for k in range(quota)]


def steps(numbers):
    """The differences of numbers to the one before, the first one to 0."""
    numbers = list(numbers)
    return list(map(sub, numbers, chain([0], numbers)))


def whole(number):
    """A number as a browser keeps it to the last digit."""
    return number if -SAFE < number < SAFE else str(number)


def rows_of(begins, ends):
    """In which row of a lane each held output is drawn, so that few that overlap are in one row."""
    free, found = [], []
    for begin, end in zip(begins, ends):
        row = next((row for row, until in enumerate(free) if until <= begin), None)
        if row is None and len(free) < ROWS:
            row = len(free)
            free.append(0)
        row = free.index(min(free)) if row is None else row
        free[row] = max(end, begin + 1)
        found.append(row)
    return found


class Timeline:
    """Makes the lanes of a replay."""

    def __init__(self, replay, marks=MARKS, counts=COUNTS):
        self.replay, self.first, self.span = replay, replay.first, replay.span
        self.lanes, self.numbers = self.order(), {}
        for number, (kind, item) in enumerate(self.lanes):
            self.numbers[kind, item.name if kind == "channel" else item[0].name] = number
        self.begins = {part.name: replay.begins_of(component, part) for component, part in replay.components}
        self.skips = {part.name: replay.skips_of(component, part) for component, part in replay.components}
        self.share(marks, counts)

    def order(self):
        """The channels that were played, and then each component with the channel that it writes behind it, causes first."""
        replay, done, found = self.replay, set(), []
        for channel in replay.channels.values():
            if channel.name not in replay.makers:
                done.add(channel.name)
                found.append(("channel", channel))
        waiting = list(replay.components)
        while waiting:
            # Where the wiring isn't known, the order of the trace is as good as another.
            next_one = next((it for it in waiting if done.issuperset(set(it[1].readers) & set(replay.makers))), waiting[0])
            waiting.remove(next_one)
            found.append(("component", next_one))
            out = next_one[1].out
            if out in replay.channels and out not in done:
                found.append(("channel", replay.channels[out]))
            done.add(out)
        return found

    def share(self, marks, counts):
        """How many marks of each lane, and how many counts, the page has."""
        totals = []
        for kind, item in self.lanes:
            totals += [len(item.times)] if kind == "channel" else [len(item[0].positions), len(self.skips[item[1].name])]
        quotas = iter(quotas_of(totals, marks))
        self.quotas = [[next(quotas)] if kind == "channel" else [next(quotas), next(quotas)] for kind, _ in self.lanes]
        series = sum(1 if kind == "channel" else 4 for kind, _ in self.lanes)
        self.pieces = max(FEWEST_PIECES, min(MOST_PIECES, counts // max(series, 1)))

    def since(self, times):
        return [time - self.first for time in times]

    def counted(self, times):
        """How many of the times are in each piece of the run."""
        first, span, pieces = self.first, self.span, self.pieces
        counts = Counter((time - first) * pieces // span for time in times)
        return [counts[it] for it in range(pieces - 1)] + [counts[pieces - 1] + counts[pieces]]

    def channel_lane(self, channel, measures, quota):
        """A lane of messages."""
        total = len(channel.times)
        chosen = spread(total, quota[0])
        lane = {"kind": "channel", "name": shown(channel.name), "total": total}
        lane["played"] = channel.name not in self.replay.makers
        lane["times"] = steps(self.since(channel.times[it] for it in chosen))
        if channel.has_values:
            lane["values"] = [whole(channel.values[it]) if channel.valued[it] else None for it in chosen]
        lane["gaps"] = [[it.begin - self.first, it.end - self.first] for it in measures.gaps]
        if len(chosen) < total:
            lane["numbers"] = steps(it + 1 for it in chosen)
            lane["counts"] = {"messages": self.counted(channel.times)}
        return lane

    def chosen_calls(self, component, quota):
        """The calls that the page has: evenly spread ones, and those behind the most tuples that were skipped in a row."""
        total = len(component.positions)
        if quota >= total:
            return range(total)
        jumps = array("Q", map(sub, component.positions, chain([0], component.positions)))
        behind = sorted((it for it in range(total) if jumps[it] > 1), key=lambda it: -jumps[it])[: quota // 4]
        return sorted(set(spread(total, quota - len(behind))) | set(behind))

    def component_lane(self, component, part, quota):
        """A lane of calls and skipped tuples."""
        begins, skips, width = self.begins[part.name], self.skips[part.name], component.width
        chosen, total = self.chosen_calls(component, quota[0]), len(begins)
        lane = {"kind": "component", "name": shown(part.name), "class": shown(part.kind), "total": total, "width": width}
        lane["reads"] = [self.lane_of(name) for name in part.readers[:width]] + [None] * (width - len(part.readers))
        lane["out"] = self.lane_of(part.out)
        lane["skipped"] = component.skipped
        lane["skips"] = steps(self.since(skips[it] for it in spread(len(skips), quota[1])))
        lane |= self.call_columns(component, part, chosen)
        if len(chosen) < total:
            lane["numbers"] = steps(it + 1 for it in chosen)
        if len(chosen) < total or len(lane["skips"]) < len(skips):
            lane["counts"] = self.call_counts(component, begins, skips)
        return lane

    def call_counts(self, component, begins, skips):
        """Counts of all calls with an output, of those without, of held outputs, and of skipped tuples."""
        made = [begin for begin, output in zip(begins, component.outputs) if output]
        quiet = [begin for begin, output in zip(begins, component.outputs) if not output]
        held = [begin for begin, output, time in zip(begins, component.outputs, component.times) if output and time > begin]
        return {"outputs": self.counted(made), "quiet": self.counted(quiet), "held": self.counted(held), "skips": self.counted(skips)}

    def call_columns(self, component, part, chosen):
        """The columns of some calls. Times of messages and of outputs are told as how long before and behind the call's they are."""
        begins, width = self.begins[part.name], component.width
        starts = self.since(begins[it] for it in chosen)
        lags = [component.times[it] - begins[it] if component.outputs[it] else None for it in chosen]
        columns = {"begins": steps(starts), "positions": steps(component.positions[it] for it in chosen)}
        columns["waiting"] = [component.tails[it] - component.positions[it] for it in chosen]
        columns["messages"] = [steps(component.sequences[it * width + role] for it in chosen) for role in range(width)]
        columns["ages"] = [self.ages(component, part, role, chosen) for role in range(1, width)]
        columns["outputs"] = [component.outputs[it] for it in chosen]
        columns["lags"] = lags
        if any(component.valued):
            columns["values"] = [whole(component.values[it]) if component.valued[it] else None for it in chosen]
        if any(lags):
            columns["rows"] = rows_of(starts, [start + (lag or 0) for start, lag in zip(starts, lags)])
        return columns

    def ages(self, component, part, role, chosen):
        """How long before a call's time the message of a reader was, None where the channel isn't known."""
        channel = self.replay.readers_of(component, part)[role]
        if channel is None:
            return None
        begins, width = self.begins[part.name], component.width
        return [begins[it] - channel.times[component.sequences[it * width + role] - 1] for it in chosen]

    def lane_of(self, channel):
        """The number of a channel's lane, None where it has none."""
        return self.numbers.get(("channel", channel))

    def data(self, measures):
        """All that the page's script reads; `measures` has the numbers of each channel by its name."""
        lanes = []
        for (kind, item), quota in zip(self.lanes, self.quotas):
            lanes.append(self.channel_lane(item, measures[item.name], quota) if kind == "channel" else self.component_lane(*item, quota))
        return {"first": str(self.first), "span": self.span, "pieces": self.pieces, "lanes": lanes}
