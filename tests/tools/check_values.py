#!/usr/bin/env python3
"""Compares tools/values.py with the Protocol Buffers package: the values of random messages of random types, by random paths.

    check_values.py PAIRS SEED

tries PAIRS pairs of a message and a path, and some rows that the package has no opinion on. Left out are groups, packed lists and embedded
messages that occur twice, which the package merges. Prints the first difference and ends with status 1, or what was tried.
"""
import os
import random
import struct
import sys
from collections import Counter
from fractions import Fraction

from google.protobuf import descriptor_pb2, descriptor_pool, message_factory
from google.protobuf.message import DecodeError

TOP = os.path.join(os.path.dirname(os.path.abspath(__file__)), "..", "..")
sys.path.insert(0, os.path.join(TOP, "tools"))
from values import BYTES, EIGHT, FOUR, VARINT, WIRE_TYPES, Way, value_of, wire_fields
from record import block, number, varint

FIELD = descriptor_pb2.FieldDescriptorProto
KINDS = {kind: getattr(FIELD, f"TYPE_{kind}") for kind in WIRE_TYPES}
TYPES, FIELDS, DEPTH = 5, 7, 6  # of a file, of a type, of a message
LEAST, GREATEST = -(2**63), 2**63 - 1
SOME_LONG = b"\xff" * 9 + b"\x7f"  # a varint of ten bytes, whose bits past 64 are dropped
SPACIOUS = b"\x85\x80\x80\x80\x80\x00"  # a 5 in six bytes

# A content, a path, a kind, a scale and the value, by the rules and by hand.
ROWS = [
    ("08ffffffffffffffffff01", (1,), "UINT64", 1, GREATEST),  # 2^64 - 1 is held within 64 signed bits
    ("09ffffffffffffffff", (1,), "FIXED64", 1, GREATEST),
    ("09ffffffffffffffff", (1,), "SFIXED64", 1, -1),
    ("088580808010", (1,), "INT32", 1, 5),  # 2^32 + 5 has the low bits 5
    ("088580808010", (1,), "SINT32", 1, -3),
    ("08ffffffff0f", (1,), "ENUM", 1, -1),  # 2^32 - 1
    ("088080808010", (1,), "BOOL", 1, 1),  # 2^32 isn't 0
    ("0805", (1,), "INT64", 1000, 5),  # a scale is for numbers with a point
    ("09333333333333d33f", (1,), "DOUBLE", 10, 2),  # 0.3 is a little less than three tenths
    ("099a9999999999b93f", (1,), "DOUBLE", 10, 1),  # and 0.1 a little more than one
    ("0dcdcccc3d", (1,), "FLOAT", 10**9, 100000001),  # in four bytes 0.1 is 0.100000001490116...
    ("09000000000000f8bf", (1,), "DOUBLE", 1, -1),  # -1.5 is cut towards zero
    ("090100000000000000", (1,), "DOUBLE", 10**19, 0),  # 2^-1074
    ("09000000000000e043", (1,), "DOUBLE", 1, GREATEST),  # 2^63
    ("09000000000000e0c3", (1,), "DOUBLE", 1, LEAST),
    ("09000000000000f03f", (1,), "DOUBLE", 10**19, GREATEST),  # 10^19 passes 2^63
    ("09000000000000f07f", (1,), "DOUBLE", 1, None),  # infinite
    ("0d0000c07f", (1,), "FLOAT", 1, None),  # no number
    ("0807" + "0a0101", (1,), "INT32", 1, 7),  # a field of another type is passed over
    ("0a020807" + "0a00", (1, 1), "INT32", 1, None),  # only the last occurrence is looked into
    ("0a020807" + "0801", (1, 1), "INT32", 1, 7),
    ("0a0108" + "1005", (2,), "INT32", 1, 5),  # what is no wire form and not on the way isn't looked into
    ("0a0108" + "1005", (1, 1), "INT32", 1, None),
    ("0805" + "10", (1,), "INT32", 1, None),  # and what is on the way is no value: a varint that is cut, a group, a field 0
    ("0805" + "1314", (1,), "INT32", 1, None),
    ("0805" + "0001", (1,), "INT32", 1, None),
    ("0805", (2,), "INT32", 1, None),
    ("", (1,), "BOOL", 1, None),
]


def fail(text):
    print(f"check_values: {text}")
    sys.exit(1)


def add_field(chance, kind, name, number_of_it, syntax):
    """Adds a random field to a type. A field that isn't repeated may be absent, and then the package says so."""
    form = chance.choice([*KINDS.values(), FIELD.TYPE_MESSAGE, FIELD.TYPE_MESSAGE, FIELD.TYPE_STRING, FIELD.TYPE_BYTES])
    field = kind.field.add(name=name, number=number_of_it, type=form, label=FIELD.LABEL_OPTIONAL)
    if form == FIELD.TYPE_MESSAGE:
        field.type_name = f".demo.M{chance.randrange(TYPES)}"
    if form == FIELD.TYPE_ENUM:
        field.type_name = ".demo.Kind"
    if chance.random() < 0.25:
        field.label = FIELD.LABEL_REPEATED
        if form in KINDS.values():
            field.options.packed = False
    elif syntax == "proto3" and form != FIELD.TYPE_MESSAGE:
        field.proto3_optional, field.oneof_index = True, len(kind.oneof_decl)
        kind.oneof_decl.add(name=f"_{name}")


def some_classes(chance):
    """The classes of the types of a random file."""
    syntax = chance.choice(["proto2", "proto3"])
    file = descriptor_pb2.FileDescriptorProto(name="demo.proto", package="demo", syntax=syntax)
    kind = file.enum_type.add(name="Kind")
    for name, value in (("NONE", 0), ("ONE", 1), ("LOW", -7), ("HIGH", 2**31 - 1)):
        kind.value.add(name=name, number=value)
    for place in range(TYPES):
        kind = file.message_type.add(name=f"M{place}")
        numbers = chance.sample([*range(1, 20), 2047, 2048, 100_000, 2**29 - 1], chance.randint(1, FIELDS))
        for place_of_it, it in enumerate(numbers):
            add_field(chance, kind, f"f{place_of_it}", it, syntax)
    pool = descriptor_pool.DescriptorPool()
    pool.Add(file)
    found = [pool.FindMessageTypeByName(f"demo.M{place}") for place in range(TYPES)]
    if hasattr(message_factory, "GetMessageClass"):
        return [message_factory.GetMessageClass(it) for it in found]
    factory = message_factory.MessageFactory(pool)
    return [factory.GetPrototype(it) for it in found]


def is_repeated(field):
    return field.is_repeated if hasattr(field, "is_repeated") else field.label == field.LABEL_REPEATED


def some_number(chance, field):
    """A random value of a scalar field."""
    if field.type == field.TYPE_BOOL:
        return chance.random() < 0.5
    if field.type == field.TYPE_ENUM:
        return chance.choice([0, 1, -7, 2**31 - 1])
    if field.type == field.TYPE_DOUBLE:
        bits = struct.unpack("<d", chance.randbytes(8))[0]
        return chance.choice([bits, chance.uniform(-1000, 1000), chance.randrange(-99, 99) / 10, -0.0])
    if field.type == field.TYPE_FLOAT:
        return chance.choice([struct.unpack("<f", chance.randbytes(4))[0], chance.randrange(-99, 99) / 10])
    size = 32 if field.cpp_type in (field.CPPTYPE_INT32, field.CPPTYPE_UINT32) else 64
    is_signed = field.cpp_type in (field.CPPTYPE_INT32, field.CPPTYPE_INT64)
    least = -(2 ** (size - 1)) if is_signed else 0
    some = [chance.getrandbits(size), chance.getrandbits(size) >> 40]
    value = chance.choice([0, 1, 2**size - 1, 2 ** (size - 1), 2 ** (size - 1) - 1, *some])
    return min(value + least, least + 2**size - 1) if chance.random() < 0.5 else min(value, least + 2**size - 1)


def fill(chance, message, depth=DEPTH):
    """Gives a message random fields."""
    for field in message.DESCRIPTOR.fields:
        if chance.random() < 0.3 or field.message_type and depth == 0:
            continue
        for _ in range(chance.randrange(4) if is_repeated(field) else 1):
            value = None if field.message_type else chance.choice(["", "abc"]) if field.type == field.TYPE_STRING else None
            value = chance.randbytes(3) if field.type == field.TYPE_BYTES else value
            if field.message_type:
                at = getattr(message, field.name)
                inner = at.add() if is_repeated(field) else at
                inner.SetInParent()
                fill(chance, inner, depth - 1)
                continue
            value = some_number(chance, field) if value is None else value
            if is_repeated(field):
                getattr(message, field.name).append(value)
            else:
                setattr(message, field.name, value)


def spelled(number_of_it, kind, value):
    """The bytes of a field."""
    if kind == BYTES:
        return block(number_of_it, value)
    if kind == VARINT:
        return number(number_of_it, value)
    return varint(8 * number_of_it + kind) + value.to_bytes(8 if kind == EIGHT else 4, "little")


def odd_field(chance, descriptor):
    """A field as other writers may add it: one that isn't known, or is of another type, or another number of more bits and bytes."""
    fields = {it.number: it for it in descriptor.fields}
    field = fields.get(chance.choice([*fields, 7777]))
    if field is None:
        return spelled(7777, *chance.choice([(VARINT, 2**64 - 1), (EIGHT, 1), (FOUR, 2), (BYTES, b"\xff")]))
    is_scalar = field.type in KINDS.values()
    its = next((WIRE_TYPES[kind] for kind, form in KINDS.items() if form == field.type), BYTES)
    others = [it for it in (VARINT, EIGHT, FOUR, BYTES) if it != its and not (it == BYTES and is_repeated(field))]
    # The package takes only some numbers for an enumeration of proto2; a single one of proto3 is in a oneof of its own here.
    is_closed = field.type == field.TYPE_ENUM and not field.containing_oneof
    if is_scalar and its == VARINT and not is_closed and chance.random() < 0.7:
        return varint(8 * field.number) + chance.choice([SOME_LONG, SPACIOUS, varint(2**32), varint(chance.getrandbits(64))])
    kind = chance.choice(others)
    return spelled(field.number, kind, b"\x01" if kind == BYTES else chance.getrandbits(32))


def twisted(chance, content, descriptor):
    """A message with odd fields somewhere in it."""
    fields, parts = {it.number: it for it in descriptor.fields}, []
    for number_of_it, kind, value in wire_fields(content):
        inner = fields[number_of_it].message_type
        parts.append(spelled(number_of_it, kind, twisted(chance, value, inner) if inner else value))
    for _ in range(chance.choice([0, 0, 1, 2])):
        parts.insert(chance.randint(0, len(parts)), odd_field(chance, descriptor))
    return b"".join(parts)


def some_path(chance, message):
    """A random way to a scalar, as fields; for choice through fields that the message has. None where it meets none."""
    descriptor, path = message.DESCRIPTOR, []
    while len(path) < 16:
        fields = [it for it in descriptor.fields if it.message_type or it.type in KINDS.values()]
        there = [it for it in fields if message is not None and last_in(message, it) is not None]
        if not fields:
            return None
        field = chance.choice(there if there and chance.random() < 0.9 else fields)
        path.append(field)
        if not field.message_type:
            return path
        message, descriptor = message and last_in(message, field), field.message_type
    return None


def last_in(message, field):
    """The last occurrence of a field in a message, or None."""
    if is_repeated(field):
        values = getattr(message, field.name)
        return values[-1] if len(values) else None
    return getattr(message, field.name) if message.HasField(field.name) else None


def wanted(message, path, scale):
    """The value by what the package read."""
    for field in path:
        message = last_in(message, field)
        if message is None:
            return None
    if isinstance(message, float):
        if message != message or message in (float("inf"), float("-inf")):
            return None
        exact = abs(Fraction(message)) * scale
        message = exact.numerator // exact.denominator * (-1 if message < 0 else 1)
    return min(max(int(message), LEAST), GREATEST)


def kind_of(field):
    """The name of a scalar field's kind."""
    return next(kind for kind, form in KINDS.items() if form == field.type)


def try_pair(chance, made, seen):
    """Tries a message of a class, and a path."""
    message = made()
    fill(chance, message)
    content = twisted(chance, message.SerializeToString(), made.DESCRIPTOR)
    content = content[: chance.randrange(len(content) + 1)] if chance.random() < 0.03 else content
    path = some_path(chance, message)
    if path is None:
        return False
    way = Way(tuple(it.number for it in path), kind_of(path[-1]), 10 ** chance.choice([0, 0, 1, 3, 19, chance.randrange(20)]))
    try:
        want = wanted(made.FromString(content), path, way.scale)
    except DecodeError:
        want = None
    found = value_of(content, way)
    if found != want:
        fail(f"{way} of {content.hex()} is {found}, and the package has {want}")
    seen[way.kind, want is not None] += 1
    return True


def main():
    pairs, chance, seen = int(sys.argv[1]), random.Random(int(sys.argv[2])), Counter()
    for content, path, kind, scale, want in ROWS:
        found = value_of(bytes.fromhex(content), Way(path, kind, scale))
        if found != want:
            fail(f"{path} {kind} {scale} of {content} is {found}, not {want}")
    while sum(seen.values()) < pairs:
        for made in some_classes(chance):
            for _ in range(10):
                try_pair(chance, made, seen)
    values = sum(count for (_, is_there), count in seen.items() if is_there)
    if pairs >= 1000 and any(not seen[kind, True] for kind in KINDS):
        fail(f"some kinds have no value: {seen}")
    print(f"{sum(seen.values())} pairs, {values} with a value, {len(ROWS)} rows")


if __name__ == "__main__":
    main()
