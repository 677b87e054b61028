"""What a record has of each channel: how many messages, when, how often, and how many bytes."""
import json
from dataclasses import dataclass
from datetime import datetime, timezone

from record import in_a_line, name_of

SECOND = 1_000_000_000  # nanoseconds
HEADS = ["messages", "first", "last", "seconds", "a second", "bytes", "channel", "type"]


def date_of(time):
    """A time in nanoseconds since 1970 as a date of ISO 8601."""
    seconds, rest = divmod(time, SECOND)
    return f"{datetime.fromtimestamp(seconds, timezone.utc):%Y-%m-%dT%H:%M:%S}.{rest:09}Z"


@dataclass
class Channel:
    """The messages of a channel, or of all: their number, their least and greatest time, and the bytes of their contents."""

    name: str | None
    kind: str = ""
    messages: int = 0
    first: int = 0
    last: int = 0
    size: int = 0

    def add(self, time, size):
        """Counts a message."""
        self.first = min(self.first, time) if self.messages else time
        self.last = max(self.last, time) if self.messages else time
        self.messages += 1
        self.size += size

    def rate(self):
        """How many messages come in a second, by the steps between the first and the last one; None where there is no such time."""
        return (self.messages - 1) * SECOND / (self.last - self.first) if self.last > self.first else None

    def cells(self):
        """The row of a table."""
        names = ["all" if self.name is None else in_a_line(self.name), in_a_line(self.kind)]
        if not self.messages:
            return ["0", "", "", "", "", "0", *names]
        seconds, rest = divmod(self.last - self.first, SECOND)
        rate = "" if self.rate() is None else f"{self.rate():.3f}"
        times = [date_of(self.first), date_of(self.last), f"{seconds}.{rest:09}"]
        return [str(self.messages), *times, rate, str(self.size), *names]

    def entry(self):
        """The same as an object. Times in nanoseconds are texts, since 64 bits are more than many readers of JSON keep."""
        found = {"channel": self.name, "type": self.kind, "messages": self.messages, "bytes": self.size}
        if self.messages:
            found |= {"first": date_of(self.first), "last": date_of(self.last), "first_time": str(self.first), "last_time": str(self.last)}
            found |= {"seconds": (self.last - self.first) / SECOND, "a_second": self.rate()}
        return found


def stats_of(record):
    """The channels of a record in its order, and all of them together, whose name is None."""
    kinds = {channel: name_of(kind) for channel, (kind, _) in record.forms.items()}
    found = {channel: Channel(name_of(channel), kinds.get(channel, "")) for channel in record.counts}
    for channel, _, time, content in record.messages():
        if channel not in found:
            found[channel] = Channel(name_of(channel))
        found[channel].add(time, len(content))
    total = Channel(None)
    for it in found.values():
        if it.messages:
            total.first = min(total.first, it.first) if total.messages else it.first
            total.last = max(total.last, it.last)
            total.messages += it.messages
            total.size += it.size
    return [*found.values(), total]


def print_stats(record, as_json):
    """A line for each channel, and one for all."""
    channels = stats_of(record)
    if as_json:
        for it in channels:
            print(json.dumps(it.entry(), ensure_ascii=False))
        return
    rows = [HEADS] + [it.cells() for it in channels]
    widths = [max(len(row[k]) for row in rows) for k in range(len(HEADS))]
    for row in rows:
        numbers = (0, 3, 4, 5)
        cells = [cell.rjust(width) if k in numbers else cell.ljust(width) for k, (cell, width) in enumerate(zip(row, widths))]
        print("  ".join(cells).rstrip())
