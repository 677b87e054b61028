#!/usr/bin/env python3
"""Prints the messages of a record, decoded by descriptors; or how often they come; or compares two records.

    messages.py RECORD [--channel C] [--csv | --json] [--types SET]
    messages.py --stats RECORD [--channel C] [--json]
    messages.py --diff A B [--channel C] [--tolerance X] [--ignore FIELD].. [--types SET]

Ends with status 0, with 1 where two records differ, and with 2 where a file can't be read or has no such channel.
"""
import argparse
import csv
import json
import signal
import sys
from collections import Counter
from contextlib import ExitStack
from fractions import Fraction

from differences import Comparison, Rules
from record import content_of, each_message, fault_of, forms_of, header_of, in_a_line, name_of, opened, whole_of
from stats import print_stats

UNDECODED = "undecoded bytes"  # a head that no field has


class Record:
    """A record with the classes of its channels' messages; what is wrong with a description is told once."""

    def __init__(self, path, data, channel, types=None, tool="messages"):
        self.tool, self.path, self.data, self.channel = tool, path, data, channel and channel.encode("utf-8", "surrogateescape")
        header_of(data)
        self.forms, self.path_of_types = forms_of(data), types
        self.counts = Counter(dict.fromkeys((it for it in self.forms if self.channel in (None, it)), 0))
        self.classes, self.types, self.described = {}, None, None

    def class_of(self, channel):
        """The class of a channel's messages, None where it isn't known. The package that finds it is loaded for the first one."""
        if channel not in self.classes:
            self.classes[channel] = self.find_class(channel) if self.may_be_described(channel) else None
        return self.classes[channel]

    def may_be_described(self, channel):
        """Whether a channel has a type, and some descriptions are at hand; others need no package."""
        return bool(self.forms.get(channel, (b"",))[0] and (self.path_of_types or any(it[1] for it in self.forms.values())))

    def find_class(self, channel):
        """Finds the class of a channel's messages, or tells why there is none."""
        if self.types is None:
            import described  # it needs the Protocol Buffers package, which other records don't

            self.described, self.types = described, described.Types(self.forms, self.path_of_types)
        try:
            return self.types.of(channel)
        except ValueError as error:
            print(f"{self.tool}: {self.path}: {in_a_line(name_of(channel))}: {error}", file=sys.stderr)
            return None

    def messages(self):
        """Each message that is wanted, with its number on its channel: channel, number, time and content."""
        try:
            for channel, time, content in each_message(self.data):
                if self.channel in (None, channel):
                    self.counts[channel] += 1
                    yield channel, self.counts[channel], time, content
        except ValueError as error:
            raise ValueError(f"{self.path}: {error}") from None

    def message(self, channel, content):
        """A message of its class, None where it has none or can't be decoded."""
        kind = self.class_of(channel)
        return kind and self.described.message_of(kind, content)

    def decode(self, channel, content):
        """A message as a dictionary of one entry: `message`, or where it has no class `whole` or `hex`."""
        kind = self.class_of(channel)
        if kind:
            message = self.described.dictionary_of(kind, content)
            return {"hex": content.hex()} if message is None else {"message": message}
        value = whole_of(content)
        return {"whole": str(value)} if value is not None and content_of(value) == content else {"hex": content.hex()}

    def text(self, channel, content):
        """A message as a text of one line."""
        ((key, value),) = self.decode(channel, content).items()
        return json.dumps(value, ensure_ascii=False) if key == "message" else value if key == "whole" else f"0x{value}"


def cell_of(value):
    """A value as a cell, empty where there is none."""
    return "" if value is None else json.dumps(value, ensure_ascii=False) if isinstance(value, (dict, list, bool)) else value


def print_csv(record):
    """A row a message: of one channel with a class a column a field and one for what can't be decoded, else one column with the text."""
    rows, kind = csv.writer(sys.stdout, lineterminator="\n"), record.channel and record.class_of(record.channel)
    columns = record.described.columns_of(kind.DESCRIPTOR) if kind else []
    heads = [record.described.column_name(it) for it in columns] + [UNDECODED] if kind else ["message"]
    rows.writerow(["channel", "number", "time"] + heads)
    for channel, number, time, content in record.messages():
        if not kind:
            cells = [record.text(channel, content)]
        else:
            found = record.decode(channel, content)
            values = [record.described.value_at(found["message"], it) for it in columns] if "message" in found else [None] * len(columns)
            cells = [cell_of(it) for it in values] + [f"0x{found['hex']}" if "hex" in found else ""]
        rows.writerow([name_of(channel), number, time] + cells)


def print_json(record):
    """An object a line. A time is a text, since 64 bits are more than many readers of JSON keep."""
    for channel, number, time, content in record.messages():
        line = {"channel": name_of(channel), "number": number, "time": str(time)} | record.decode(channel, content)
        print(json.dumps(line, ensure_ascii=False))


def print_lines(record):
    """A line a message."""
    for channel, number, time, content in record.messages():
        print(f"{in_a_line(name_of(channel))} {number} {time} {record.text(channel, content)}")


def rules_of(words, records):
    """What is no difference. A ValueError names a field that no message has."""
    ignored = frozenset(tuple(it.split(".")) for it in words.ignore)
    kinds = [it.class_of(channel) for it in records for channel in list(it.counts)] if ignored else []
    for names in ignored:
        if not any(kind and has_field(kind.DESCRIPTOR, names) for kind in kinds):
            raise ValueError(f"no message has a field {'.'.join(names)}")
    return Rules(words.tolerance, ignored)


def has_field(descriptor, names):
    """Whether a type has a field, by its names from the outside in."""
    for name in names:
        field = descriptor and descriptor.fields_by_name.get(name)
        if not field:
            return False
        descriptor = field.message_type
    return True


def compare(records, rules):
    """Prints how two records differ, and answers whether they do."""
    comparison = Comparison(records, rules)
    print("\n".join(comparison.lines()))
    return bool(comparison.found)


def run(words):
    """Does what the words ask for, and answers the status."""
    with ExitStack() as stack:
        records = []
        for path in words.records:
            try:
                records.append(Record(path, stack.enter_context(opened(path)), words.channel, words.types))
            except ValueError as error:
                raise ValueError(f"{path}: {error}") from None
        status = 0
        if words.diff:
            status = int(compare(records, rules_of(words, records)))
        elif words.stats:
            print_stats(records[0], words.json)
        else:
            (print_csv if words.csv else print_json if words.json else print_lines)(records[0])
    if words.channel and not any(it.counts for it in records):
        raise ValueError(f"{' and '.join(words.records)}: no channel {words.channel}")
    return status


def tolerance(text):
    """A number that isn't negative, exactly."""
    value = Fraction(text)
    if value < 0:
        raise ValueError
    return value


def read_words():
    reader = argparse.ArgumentParser(description=__doc__.split("\n")[0])
    forms = reader.add_mutually_exclusive_group()
    reader.add_argument("records", nargs="+", metavar="RECORD")
    reader.add_argument("--channel", help="only the messages of this channel")
    reader.add_argument("--types", metavar="SET", help="a file with a FileDescriptorSet, for types that the record doesn't describe")
    reader.add_argument("--json", action="store_true", help="a JSON object a line")
    reader.add_argument("--tolerance", type=tolerance, metavar="X", help="numbers that differ by X at most are the same")
    reader.add_argument("--ignore", action="append", default=[], metavar="FIELD", help="a field that may differ, as header.stamp")
    forms.add_argument("--csv", action="store_true", help="comma-separated values")
    forms.add_argument("--stats", action="store_true", help="of each channel how many messages, when, how often, and their bytes")
    forms.add_argument("--diff", action="store_true", help="compare two records, message by message")
    words = reader.parse_args()
    if len(words.records) != (2 if words.diff else 1):
        reader.error("--diff takes two records" if words.diff else "one record is printed at a time")
    if words.json and (words.csv or words.diff):
        reader.error("--json stands alone or beside --stats")
    if not words.diff and (words.tolerance is not None or words.ignore):
        reader.error("--tolerance and --ignore are for --diff")
    return words


def main():
    words = read_words()
    signal.signal(signal.SIGPIPE, signal.SIG_DFL)  # who reads the output may stop
    try:
        return run(words)
    except ImportError as error:
        print(f"messages: {error}; described messages are decoded by the Protocol Buffers package (python3-protobuf)", file=sys.stderr)
    except (OSError, ValueError) as error:
        print(f"messages: {fault_of(error)}", file=sys.stderr)
    return 2


if __name__ == "__main__":
    sys.exit(main())
