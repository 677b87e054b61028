"""Charts as numbers: bars of histograms and points of plots, which the page draws."""
import math
from array import array
from itertools import compress
from typing import NamedTuple

BARS = 24  # at most, of a histogram
MOST_POINTS, ALL_POINTS = 2_000, 60_000  # of a plot, and of all plots of a page
FEW_POINTS = 80  # so few are also drawn as dots


class Bar(NamedTuple):
    """How often a number from `low` to `high`, both included, came."""

    low: int
    high: int
    count: int


def step_of(low, high):
    """The least step of the form 1, 2 or 5 with zeros behind it that parts a range into few enough bars."""
    step = 1
    while True:
        for factor in (1, 2, 5):
            if high // (step * factor) - low // (step * factor) < BARS:
                return step * factor
        step *= 10


def histogram(counts):
    """The bars of a counter of whole numbers, empty ones between them included."""
    if not counts:
        return []
    low, high = min(counts), max(counts)
    step = step_of(low, high)
    first = low // step
    sums = [0] * (high // step - first + 1)
    for number, count in counts.items():
        sums[number // step - first] += count
    return [Bar((first + k) * step, (first + k + 1) * step - 1, count) for k, count in enumerate(sums)]


def quantile(counts, share):
    """The least number of a counter that so large a share of its entries don't pass."""
    left = share * sum(counts.values())
    for number in sorted(counts):
        left -= counts[number]
        if left <= 0:
            break
    return number


class Plot(NamedTuple):
    """The course of some numbers: its points, from 0 to 1 in both directions, downwards, and what its sides are."""

    points: list
    low: float
    high: float
    count: int
    is_sampled: bool


def indexes_of(values, most):
    """The values of a plot that are drawn: all, or of each of many pieces the first, least, greatest and last one."""
    count, found, pieces = len(values), [], max(most // 4, 1)
    if count <= most:
        return range(count)
    for piece in range(pieces):
        begin, end = piece * count // pieces, (piece + 1) * count // pieces
        part = values[begin:end]
        found += sorted({begin, begin + part.index(min(part)), begin + part.index(max(part)), end - 1})
    return found


def plot(times, values, begin, span, most=MOST_POINTS):
    """The plot of numbers over a time, by at most so many points."""
    low, high = min(values), max(values)
    indexes = indexes_of(values, most)
    points = [((times[it] - begin) / span, share_below(values[it], low, high)) for it in indexes]
    return Plot(points, low, high, len(values), len(indexes) < len(values))


def share_below(value, low, high):
    """How far a number is below the greatest one, as a share of the range. A number that never changes is in the middle."""
    if low == high:
        return 0.5
    if math.isinf(high - low):  # a range of floating-point numbers that is none itself
        value, low, high = value / 2, low / 2, high / 2
    return (high - value) / (high - low)


def whole_numbers(channel):
    """The times and the numbers of a channel's messages that are whole numbers."""
    if all(channel.valued):
        return channel.times, channel.values
    return array("Q", compress(channel.times, channel.valued)), array("q", compress(channel.values, channel.valued))
