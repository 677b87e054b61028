"""What differs between the messages of two records: channel by channel, and within a message field by field."""
import json
import math
import struct
from collections import Counter, deque
from dataclasses import dataclass
from fractions import Fraction
from itertools import zip_longest

from record import content_of, in_a_line, name_of, whole_of

LONGEST_LINE, LONGEST_VALUE = 300, 80  # characters


@dataclass
class Rules:
    """What is no difference: numbers up to so much apart, and fields by their names from the outside in."""

    tolerance: Fraction | None = None
    ignored: frozenset = frozenset()

    def __bool__(self):
        return self.tolerance is not None or bool(self.ignored)


def are_equal(one, other, rules):
    """Whether two values are the same by the rules. What isn't a number is equal to itself here."""
    if one == other or (one != one and other != other):
        return True
    numbers = [it for it in (one, other) if isinstance(it, (int, float)) and not isinstance(it, bool) and math.isfinite(it)]
    return rules.tolerance is not None and len(numbers) == 2 and abs(Fraction(one) - Fraction(other)) <= rules.tolerance


def is_map(field):
    """Whether a field is a map; its entries are messages of a type that is made for it."""
    return bool(field.message_type) and field.message_type.GetOptions().map_entry


def value_of(message, field):
    """What a message has in a field: None where it has nothing there, a dictionary for a map, a list for a repeated field."""
    value = getattr(message, field.name)
    if is_map(field):
        return dict(value)
    if not field.has_presence:
        return value if isinstance(value, (bool, int, float, str, bytes)) else list(value)
    return value if message.HasField(field.name) else None


def children(one, other):
    """The parts of two values that correspond, each with what is put behind the name: those of lists, maps and messages."""
    if isinstance(one, list):
        return [(f"[{k}]", *pair) for k, pair in enumerate(zip(one, other))]
    return [(f"[{json.dumps(key, ensure_ascii=False)}]", one.get(key), other.get(key)) for key in sorted(one.keys() | other.keys(), key=repr)]


class Fields:
    """Looks for the fields in which two messages differ. `passed` says whether there was a difference that the rules let pass."""

    def __init__(self, rules):
        self.rules, self.passed = rules, False

    def messages(self, one, other, names=(), shown=""):
        """The fields in which two messages differ, each a name and two texts, in the order of the first one's numbers."""
        fields = [{field.name: field for field in it.DESCRIPTOR.fields} for it in (one, other)]
        for name in dict.fromkeys([*sorted(fields[0], key=lambda it: fields[0][it].number), *fields[1]]):
            pair = [it.get(name) for it in fields]
            values = [field and value_of(message, field) for message, field in zip((one, other), pair)]
            found = self.values(*values, pair[0] or pair[1], (*names, name), f"{shown}.{name}" if shown else name)
            if (*names, name) in self.rules.ignored:
                self.passed = self.passed or next(found, None) is not None
            else:
                yield from found

    def values(self, one, other, field, names, shown):
        """The differences of two values of a field."""
        if isinstance(one, list) and isinstance(other, list) and len(one) != len(other):
            yield shown, f"{len(one)} entries", f"{len(other)}"
        elif isinstance(one, (list, dict)) and isinstance(other, type(one)):
            for behind, mine, theirs in children(one, other):
                yield from self.values(mine, theirs, field, names, shown + behind)
        elif hasattr(one, "DESCRIPTOR") and hasattr(other, "DESCRIPTOR"):
            yield from self.messages(one, other, names, shown)
        elif not are_equal(one, other, Rules() if field.enum_type else self.rules):
            yield shown, text_of(one, field), text_of(other, field)
        elif one == one and one != other:
            self.passed = True


def text_of(value, field):
    """A value as a text: of a float the shortest one that is it."""
    if value is None:
        return "nothing"
    if hasattr(value, "DESCRIPTOR"):
        return "a message"
    if field.enum_type and value in field.enum_type.values_by_number:
        return field.enum_type.values_by_number[value].name
    if isinstance(value, bytes):
        return f"0x{value[:LONGEST_VALUE].hex()}"
    if isinstance(value, float) and field.type == field.TYPE_FLOAT and math.isfinite(value):
        return repr(next(it for it in (float(f"{value:.{k}g}") for k in range(6, 18)) if struct.pack("f", it) == struct.pack("f", value)))
    return json.dumps(value, ensure_ascii=False)


def cut(text, length):
    """A text of at most so many characters."""
    return text if len(text) <= length else text[: length - 3] + "..."


def first_byte(one, other):
    """The place of the first byte that differs."""
    return next((k for k, pair in enumerate(zip(one, other)) if pair[0] != pair[1]), min(len(one), len(other)))


def differing_bytes(one, other):
    """How two contents differ, as bytes."""
    place = first_byte(one, other)
    texts = [f"0x{it[place : place + 16].hex()}{'..' if len(it) > place + 16 else ''}" if len(it) > place else "the end" for it in (one, other)]
    return f"byte {place} of {len(one)} and {len(other)}: {texts[0]} and {texts[1]}"


class Comparison:
    """Two records, compared channel by channel. Of a channel, the messages are kept by which one is ahead of the other."""

    def __init__(self, records, rules):
        self.records, self.rules = records, rules
        self.ahead, self.found, self.counts, self.passed = {}, {}, Counter(), 0
        for pair in zip_longest(*[it.messages() for it in records]):
            if pair[0] == pair[1]:
                continue  # the numbers are the same, so neither record is ahead on this channel
            for which, message in enumerate(pair):
                if message:
                    self.take(which, *message)
        self.take_rest()

    def take(self, which, channel, number, time, content):
        """Compares the next message of a channel with that of the other record, or keeps it where that one is behind."""
        queues = self.ahead.setdefault(channel, (deque(), deque()))
        if queues[1 - which]:
            pair = [(number, time, content), queues[1 - which].popleft()]
            one, other = pair if which == 0 else pair[::-1]
            if one != other:
                self.compare(channel, one, other)
        else:
            queues[which].append((number, time, content))

    def compare(self, channel, one, other):
        """Counts two messages of one number that differ, and keeps how they do, where they are the first ones."""
        if channel in self.found and not self.rules:
            self.counts[channel] += 1
            return
        what = self.difference(channel, one, other)
        if what is None:
            self.passed += 1
            return
        self.counts[channel] += 1
        self.found.setdefault(channel, f"{in_a_line(name_of(channel))} {one[0]}{what}")

    def difference(self, channel, one, other):
        """How two messages differ, None where the rules let that pass."""
        if one[1] != other[1]:
            return f": time {one[1]} and {other[1]}"
        how = self.in_contents(channel, one[2], other[2])
        return how and f" at {one[1]}: {how}"

    def in_contents(self, channel, one, other):
        """How two contents differ: by a field, as numbers, or else by a byte."""
        messages = [record.message(channel, it) for record, it in zip(self.records, (one, other))]
        if not any(it is None for it in messages):
            fields = Fields(self.rules)
            try:
                found = next(fields.messages(*messages), None)
            except UnicodeDecodeError:  # a string that isn't UTF-8, in some implementations of the package
                return differing_bytes(one, other)
            if found:
                name, mine, theirs = found
                return f"{name} {cut(mine, LONGEST_VALUE)} and {cut(theirs, LONGEST_VALUE)}"
            return None if fields.passed else f"no field, but {differing_bytes(one, other)}"
        numbers = [whole_of(it) for it in (one, other)]
        if None not in numbers and [content_of(it) for it in numbers] == [one, other] and all(it is None for it in messages):
            return None if are_equal(*numbers, self.rules) else f"{numbers[0]} and {numbers[1]}"
        return differing_bytes(one, other)

    def take_rest(self):
        """Counts the messages that one record alone has."""
        for channel, queues in self.ahead.items():
            for which, queue in enumerate(queues):
                if queue:
                    counts = [it.counts[channel] for it in self.records]
                    self.counts[channel] += len(queue)
                    self.found.setdefault(
                        channel,
                        f"{in_a_line(name_of(channel))} {queue[0][0]}: only in {self.records[which].path},"
                        f" which has {counts[which]} in place of {counts[1 - which]}",
                    )

    def channels(self):
        """The channels of both records, and how many messages each has in the one that has more."""
        names = dict.fromkeys(channel for it in self.records for channel in it.counts)
        counts = {channel: max(it.counts[channel] for it in self.records) for channel in names}
        return {channel: count for channel, count in counts.items() if count}

    def lines(self):
        """A line for each channel that differs, with the first message that does, and one for all."""
        totals = self.channels()
        for channel, total in totals.items():
            if channel in self.found:
                behind = f"; {self.counts[channel]} of {total} differ"
                yield cut(self.found[channel], LONGEST_LINE - len(behind)) + behind
        passed = f"; {self.passed} pass by --tolerance or --ignore" if self.rules else ""
        if self.found:
            counts = (sum(self.counts.values()), sum(totals.values()), len(self.found), len(totals))
            yield "differ: {} of {} messages, on {} of {} channels".format(*counts) + passed
        else:
            yield f"same: {sum(totals.values())} messages on {len(totals)} channels" + passed
