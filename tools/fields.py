#!/usr/bin/env python3
"""Prints the scalar fields of a record's described messages, each as the line that makes it the value of its channel.

    fields.py RECORD [CHANNEL] [--scale N] [--types SET]

The lines are for a component's file. All other text is comments of such a file. Ends with status 0, and with 2 where a file can't be read,
or nothing is described.
"""
import argparse
import signal
import sys

from record import fault_of, forms_of, header_of, in_a_line, name_of, opened
from strict import quoted

SCALED = ("FLOAT", "DOUBLE")
VARINTS = ("INT32", "INT64", "UINT32", "UINT64", "SINT32", "SINT64", "BOOL", "ENUM")
KINDS = (*VARINTS, "FIXED32", "FIXED64", "SFIXED32", "SFIXED64", *SCALED)
LONGEST = 16  # numbers of a path


def name_at(path):
    """The name of a field, from the outside in."""
    return ".".join(it.name for it in path)


def kind_of(field):
    """The name of a scalar field's kind, None for one that isn't scalar."""
    return next((kind for kind in KINDS if field.type == getattr(field, f"TYPE_{kind}")), None)


class Lister:
    """Lists the fields of a channel's messages; numbers with a point are multiplied by `scale`."""

    def __init__(self, described, channel, scale):
        self.described, self.channel, self.scale = described, channel, scale

    def lines(self, descriptor, before=(), around=()):
        """The lines for the fields of a type, whose messages stand in others."""
        around = (*around, descriptor.full_name)
        for field in descriptor.fields:
            path, kind = (*before, field), field.message_type
            if kind is None:
                yield from self.scalar(path)
            elif field.type == field.TYPE_GROUP:
                yield f"# {name_at(path)}: a message with a group has no value"
            elif kind.full_name in around:
                yield f"# {name_at(path)}: {kind.full_name} again"
            elif len(path) == LONGEST:
                yield f"# {name_at(path)}: a path has at most {LONGEST} numbers"
            else:
                yield from self.lines(kind, path, around)

    def scalar(self, path):
        """The line for a field, where it is a scalar."""
        field, kind = path[-1], kind_of(path[-1])
        if kind is None:
            return
        if self.described.is_repeated(field) and self.described.is_packed(field):
            yield f"# {name_at(path)}: a packed list has no value"
            return
        numbers, scale = ", ".join(str(it.number) for it in path), f" scale: {self.scale}" if kind in SCALED and self.scale != 1 else ""
        channel = name_of(quoted(self.channel))
        yield f"value {{ channel: {channel} path: [{numbers}] kind: {kind}{scale} }}  # {name_at(path)}{self.note(path)}"

    def note(self, path):
        """What is to be said of a field that may come more than once, or isn't written where it is zero."""
        is_repeated, field, notes = self.described.is_repeated, path[-1], []
        lists = [path[: place + 1] for place, it in enumerate(path) if is_repeated(it)]
        if lists:
            notes.append(f"only the last {'one' if lists == [path] else 'of ' + ' and of '.join(map(name_at, lists))} counts")
        if not (field.has_presence or is_repeated(field) or field.containing_type.GetOptions().map_entry):
            notes.append("a zero is no value")
        return ": " + "; ".join(notes) if notes else ""


def types_in(described, words, forms, wanted):
    """The type of each channel that is wanted and described. What is wrong with a description is told, and of the only channel raised."""
    types, found = described.Types(forms, words.types), {}
    for channel in [wanted] if wanted else forms:
        try:
            kind = types.of(channel)
        except ValueError as error:
            fault = f"{words.record}: {in_a_line(name_of(channel))}: {error}"
            if wanted:
                raise ValueError(fault) from None
            print(f"fields: {fault}", file=sys.stderr)
            continue
        if kind:
            found[channel] = kind.DESCRIPTOR
    return found


def run(words):
    """Prints what the words ask for."""
    import described  # it needs the Protocol Buffers package

    wanted = words.channel and words.channel.encode("utf-8", "surrogateescape")
    try:
        with opened(words.record) as data:
            header_of(data)
            forms = forms_of(data)
    except ValueError as error:
        raise ValueError(f"{words.record}: {error}") from None
    if wanted and wanted not in forms:
        raise ValueError(f"{words.record}: no channel {words.channel}")
    found = types_in(described, words, forms, wanted)
    if not found:
        raise ValueError(f"{words.record}: nothing describes the messages of {words.channel if wanted else 'a channel'}")
    for channel, descriptor in found.items():
        print(f"# {in_a_line(name_of(channel))}: {descriptor.full_name}")
        for line in Lister(described, channel, words.scale).lines(descriptor):
            print(line)


def scale(text):
    """A power of ten."""
    if text not in [str(10**k) for k in range(20)]:
        raise ValueError
    return int(text)


def read_words():
    reader = argparse.ArgumentParser(description=__doc__.split("\n")[0])
    reader.add_argument("record", metavar="RECORD")
    reader.add_argument("channel", nargs="?", metavar="CHANNEL", help="only the fields of this channel")
    reader.add_argument(
        "--scale", type=scale, default=1000, metavar="N", help="a power of ten up to 10^19, by which numbers with a point are multiplied"
    )
    reader.add_argument("--types", metavar="SET", help="a file with a FileDescriptorSet, for types that the record doesn't describe")
    return reader.parse_args()


def main():
    words = read_words()
    signal.signal(signal.SIGPIPE, signal.SIG_DFL)  # who reads the output may stop
    try:
        run(words)
    except ImportError as error:
        print(f"fields: {error}; descriptions are read by the Protocol Buffers package (python3-protobuf of Debian)", file=sys.stderr)
        return 2
    except (OSError, ValueError) as error:
        print(f"fields: {fault_of(error)}", file=sys.stderr)
        return 2
    return 0


if __name__ == "__main__":
    sys.exit(main())
