#!/usr/bin/env python3
"""Checks the lines that tools/fields.py prints: for some types by hand, and for random ones by the values that they give.

    check_fields.py COUNT SEED

takes the messages of COUNT random files, and writes records into the current folder. Each line has to give the value that the Protocol
Buffers package has in the field of that name, and each scalar field has to have a line. Prints the first fault and ends with status 1.
"""
import os
import random
import subprocess
import sys

from google.protobuf import descriptor_pb2

from check_values import FIELD, KINDS, TOP, fill, is_repeated, kind_of, some_classes, wanted
from dag import read_text, ways_in
from record import block, record
from values import value_of

MESSAGES = 20  # of a type
ODD = [("packed", FIELD.TYPE_INT32, FIELD.LABEL_REPEATED, None), ("plain", FIELD.TYPE_FIXED64, FIELD.LABEL_OPTIONAL, None),
       ("again", FIELD.TYPE_MESSAGE, FIELD.LABEL_OPTIONAL, ".odd.Odd"),
       ("counts", FIELD.TYPE_MESSAGE, FIELD.LABEL_REPEATED, ".odd.Odd.CountsEntry"),
       ("name", FIELD.TYPE_STRING, FIELD.LABEL_OPTIONAL, None), ("old", FIELD.TYPE_MESSAGE, FIELD.LABEL_OPTIONAL, ".old.Old")]
OLD = [("leg", FIELD.TYPE_GROUP, FIELD.LABEL_OPTIONAL, ".old.Old.Leg"), ("speed", FIELD.TYPE_DOUBLE, FIELD.LABEL_OPTIONAL, None),
       ("parts", FIELD.TYPE_MESSAGE, FIELD.LABEL_REPEATED, ".old.Old.Part")]
WANTED = r'''# /o\n"dd: odd.Odd
# packed: a packed list has no value
value { channel: "/o\n\"dd" path: [2] kind: FIXED64 }  # plain: a zero is no value
# again: odd.Odd again
value { channel: "/o\n\"dd" path: [4, 2] kind: SINT64 }  # counts.value: only the last of counts counts
# old.leg: a message with a group has no value
value { channel: "/o\n\"dd" path: [6, 2] kind: DOUBLE scale: 100 }  # old.speed
value { channel: "/o\n\"dd" path: [6, 3, 1] kind: BOOL }  # old.parts.ok: only the last of old.parts counts
value { channel: "/o\n\"dd" path: [6, 3, 2] kind: INT32 }  # old.parts.steps: only the last of old.parts and of old.parts.steps counts
'''


def fail(text):
    print(f"check_fields: {text}")
    sys.exit(1)


def add_fields(kind, rows):
    """Gives a type fields, numbered from 1."""
    for number, (name, form, label, of) in enumerate(rows, 1):
        kind.field.add(name=name, number=number, type=form, label=label, type_name=of)


def odd_description():
    """The description of odd.Odd, whose file uses another one."""
    odd = descriptor_pb2.FileDescriptorProto(name="odd.proto", package="odd", syntax="proto3", dependency=["old.proto"])
    kind = odd.message_type.add(name="Odd")
    add_fields(kind, ODD)
    entry = kind.nested_type.add(name="CountsEntry")
    entry.options.map_entry = True
    add_fields(entry, [("key", FIELD.TYPE_STRING, FIELD.LABEL_OPTIONAL, None), ("value", FIELD.TYPE_SINT64, FIELD.LABEL_OPTIONAL, None)])
    old = descriptor_pb2.FileDescriptorProto(name="old.proto", package="old", syntax="proto2")
    kind = old.message_type.add(name="Old")
    add_fields(kind, OLD)
    add_fields(kind.nested_type.add(name="Leg"), [("length", FIELD.TYPE_INT32, FIELD.LABEL_OPTIONAL, None)])
    part = [("ok", FIELD.TYPE_BOOL, FIELD.LABEL_OPTIONAL, None), ("steps", FIELD.TYPE_INT32, FIELD.LABEL_REPEATED, None)]
    add_fields(kind.nested_type.add(name="Part"), part)
    return block(1, odd.SerializeToString()) + block(2, block(1, old.SerializeToString()))


def deep_description():
    """The description of deep.Level1, whose messages hold others of twenty types, one within the other."""
    file = descriptor_pb2.FileDescriptorProto(name="deep.proto", package="deep", syntax="proto2")
    for place in range(1, 21):
        inner = [("next", FIELD.TYPE_MESSAGE, FIELD.LABEL_OPTIONAL, f".deep.Level{place + 1}")] if place < 20 else []
        add_fields(file.message_type.add(name=f"Level{place}"), [("n", FIELD.TYPE_SINT32, FIELD.LABEL_OPTIONAL, None), *inner])
    return block(1, file.SerializeToString())


def printed(*words):
    """What the tool prints."""
    done = subprocess.run([sys.executable, os.path.join(TOP, "tools", "fields.py"), *words], capture_output=True, text=True, check=False)
    if done.returncode != 0 or done.stderr:
        fail(f"{' '.join(words)}: status {done.returncode}: {done.stderr}")
    return done.stdout


def write(path, tape, forms):
    with open(path, "wb") as file:
        file.write(record(tape, forms))


def fields_at(descriptor, name):
    """The fields on the way to a name."""
    found = []
    for part in name.split("."):
        found.append(descriptor.fields_by_name[part])
        descriptor = found[-1].message_type
    return found


def names_in(descriptor):
    """The names of all scalar fields, but of those in a message that stands in one of its own type."""
    found, open_ways = set(), [((), descriptor, {descriptor.full_name})]
    while open_ways:
        before, kind, around = open_ways.pop()
        for field in kind.fields:
            inner = field.message_type
            if inner and inner.full_name not in around:
                open_ways.append(((*before, field.name), inner, around | {inner.full_name}))
            elif field.type in KINDS.values():
                found.add(".".join((*before, field.name)))
    return found


def check_channel(channel, made, messages, lines):
    """The lines for a channel."""
    with open("lines.conf", "w", encoding="utf-8") as file:
        file.write("".join(lines))
    names = [line.split("  # ")[1].split(":")[0].strip() for line in lines if line.startswith("value")]
    ways = ways_in(read_text("lines.conf"))
    if len(ways) != len(names) or len(set(names)) != len(names) or set(names) != names_in(made.DESCRIPTOR):
        fail(f"{channel}: the names are {names}, not {names_in(made.DESCRIPTOR)}")
    for name, (its, way) in zip(names, ways):
        path = fields_at(made.DESCRIPTOR, name)
        if its != channel or way.kind != kind_of(path[-1]) or way.path != tuple(it.number for it in path):
            fail(f"{channel} {name}: the line has {its} {way}")
        if any(is_repeated(it) for it in path) != any(f"  # {name}: only" in line for line in lines):
            fail(f"{channel} {name}: it doesn't say whether it comes more than once")
        for message in messages:
            want, found = wanted(message, path, way.scale), value_of(message.SerializeToString(), way)
            if found != want:
                fail(f"{channel} {name}: {way} gives {found}, and the package has {want}")


def main():
    count, chance = int(sys.argv[1]), random.Random(int(sys.argv[2]))
    write("odd.rec", [(b'/o\n"dd', 1, b"")], {b'/o\n"dd': (b"odd.Odd", odd_description())})
    if printed("odd.rec", "--scale", "100") != WANTED:
        fail(f"odd.rec: {printed('odd.rec', '--scale', '100')}")
    write("deep.rec", [(b"/deep", 1, b"")], {b"/deep": (b"deep.Level1", deep_description())})
    deep = [f"value {{ channel: \"/deep\" path: [{'2, ' * k}1] kind: SINT32 }}  # {'next.' * k}n" for k in range(16)]
    if printed("deep.rec").splitlines() != ["# /deep: deep.Level1", *deep, f"# {'next.' * 15}next: a path has at most 16 numbers"]:
        fail(f"deep.rec: {printed('deep.rec')}")
    for _ in range(count):
        tape, forms, classes = [], {}, {}
        for place, made in enumerate(some_classes(chance)):
            file, channel = descriptor_pb2.FileDescriptorProto(), b"/%d" % place
            made.DESCRIPTOR.file.CopyToProto(file)
            forms[channel] = (made.DESCRIPTOR.full_name.encode(), block(1, file.SerializeToString()))
            classes[channel] = (made, [made() for _ in range(MESSAGES)])
            for message in classes[channel][1]:
                fill(chance, message)
                tape.append((channel, len(tape), message.SerializeToString()))
        write("some.rec", tape, forms)
        parts = printed("some.rec").split("# /")[1:]
        if len(parts) != len(classes):
            fail(f"{len(parts)} channels")
        for part, (channel, (made, messages)) in zip(parts, classes.items()):
            head, *lines = part.splitlines(keepends=True)
            if head != f"{channel.decode()[1:]}: {made.DESCRIPTOR.full_name}\n":
                fail(f"{channel} begins with {head}")
            check_channel(channel, made, messages, lines)


main()
