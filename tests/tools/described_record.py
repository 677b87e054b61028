#!/usr/bin/env python3
"""Writes a record whose channels carry descriptors as Cyber RT stores them, made by the Protocol Buffers package.

    described_record.py OUT [SPEED [SET]]

/chassis has three messages of type demo.Chassis, whose file depends on another one; the last one's speed is SPEED (3.25). /bad has a
descriptor that is none, /odd a type that its descriptor doesn't have, /whole a whole number and /raw two bytes, both without. SET is a
file with the descriptors of demo.Chassis alone, as protoc writes it.
"""
import os
import sys

from google.protobuf import descriptor_pb2, descriptor_pool, message_factory

sys.path.insert(0, os.path.join(os.path.dirname(os.path.abspath(__file__)), "..", "..", "tools"))
from record import block, content_of, record

FIELD = descriptor_pb2.FieldDescriptorProto


def file_of(name, message, fields, imports=()):
    """A file of one message; a field is a name, a type, a label and the name of a message or enumeration."""
    file = descriptor_pb2.FileDescriptorProto(name=name, package="demo", syntax="proto2", dependency=imports)
    kind = file.message_type.add(name=message)
    for number, (field, form, label, of) in enumerate(fields, 1):
        kind.field.add(name=field, number=number, type=form, label=label, type_name=of)
    return file


HEADER = file_of("demo/header.proto", "Header", [
    ("frame", FIELD.TYPE_STRING, FIELD.LABEL_OPTIONAL, None), ("stamp", FIELD.TYPE_UINT64, FIELD.LABEL_OPTIONAL, None),
])
CHASSIS = file_of("demo/chassis.proto", "Chassis", [
    ("header", FIELD.TYPE_MESSAGE, FIELD.LABEL_OPTIONAL, ".demo.Header"), ("speed", FIELD.TYPE_FLOAT, FIELD.LABEL_OPTIONAL, None),
    ("wheels", FIELD.TYPE_INT32, FIELD.LABEL_REPEATED, None), ("gear", FIELD.TYPE_ENUM, FIELD.LABEL_OPTIONAL, ".demo.Gear"),
], ["demo/header.proto"])
CHASSIS.enum_type.add(name="Gear").value.add(name="PARK", number=0)
CHASSIS.enum_type[0].value.add(name="DRIVE", number=1)


def chassis_class():
    pool = descriptor_pool.DescriptorPool()
    pool.Add(HEADER)
    pool.Add(CHASSIS)
    found = pool.FindMessageTypeByName("demo.Chassis")
    if hasattr(message_factory, "GetMessageClass"):
        return message_factory.GetMessageClass(found)
    return message_factory.MessageFactory(pool).GetPrototype(found)


def main():
    speed, kind = float(sys.argv[2]) if len(sys.argv) > 2 else 3.25, chassis_class()
    values = [
        {"header": {"frame": "map", "stamp": 2**64 - 1}, "speed": 1.5, "wheels": [1, -2], "gear": 1},
        {"header": {"frame": "größe"}},
        {"speed": speed},
    ]
    description = block(1, CHASSIS.SerializeToString()) + block(2, block(1, HEADER.SerializeToString()))
    tape = [(b"/chassis", 10 * k, kind(**value).SerializeToString()) for k, value in enumerate(values, 1)]
    tape += [(b"/bad", 40, b"x"), (b"/odd", 50, b""), (b"/whole", 60, content_of(-7)), (b"/raw", 70, b"\xff\x00")]
    forms = {b"/chassis": (b"demo.Chassis", description), b"/bad": (b"demo.Bad", b"\x0a\x02\xff\xff"), b"/odd": (b"demo.Odd", description)}
    with open(sys.argv[1], "wb") as out:
        out.write(record(tape, forms))
    if len(sys.argv) > 3:
        with open(sys.argv[3], "wb") as out:
            out.write(descriptor_pb2.FileDescriptorSet(file=[HEADER, CHASSIS]).SerializeToString())


main()
