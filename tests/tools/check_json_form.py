#!/usr/bin/env python3
"""Checks tools/json_form.py against the Protocol Buffers package: random messages have to become the same dictionaries, and the same bytes
again, and what the package refuses has to be refused.

    check_json_form.py COUNT SEED
"""
import json
import math
import os
import random
import sys
from functools import partial

from google.protobuf import descriptor_pb2, descriptor_pool, json_format, message_factory

sys.path.insert(0, os.path.join(os.path.dirname(os.path.abspath(__file__)), "..", "..", "tools"))
import json_form

FIELD = descriptor_pb2.FieldDescriptorProto
SCALARS = {
    "double": [0.0, -0.0, 1.5, 0.1, math.pi, 1e300, math.inf, -math.inf, math.nan],
    "float": [0.0, 0.1, 3.25, 1e-40, 3.4028234e38, math.inf],
    "int64": [0, 1, -1, 2**63 - 1, -(2**63)], "uint64": [0, 7, 2**64 - 1], "int32": [0, -1, 2**31 - 1], "fixed64": [0, 2**64 - 1],
    "fixed32": [0, 2**32 - 1], "bool": [True, False], "string": ["", "größe", '"\\\n\0'], "bytes": [b"", b"\0\xff", b"abc"],
    "uint32": [0, 2**32 - 1], "sfixed32": [-5], "sfixed64": [-(2**40)], "sint32": [-3], "sint64": [-(2**62)],
}  # fmt: skip
ODD = [None, True, 1, -1, 1.5, 2.0, 2**40, 2**70, "", "1", "x", "NaN", "1.5", "CAR", [], [1], [None], {}, {"name": 1}, "YWJj", "YW"]


def file_of(syntax):
    """A file with a type that has a field of each kind, one and repeated, and itself; and one that the package alone converts."""
    file = descriptor_pb2.FileDescriptorProto(name=f"{syntax}.proto", package=syntax, syntax=syntax)
    kind = file.enum_type.add(name="Kind")
    for number, name in enumerate(["NONE", "CAR", "BIKE"]):
        kind.value.add(name=name, number=number)
    every, union = file.message_type.add(name="Every"), file.message_type.add(name="Union")
    names = list(SCALARS) + ["enum", "message"]
    for number, name in enumerate(names, 1):
        of = {"enum": f".{syntax}.Kind", "message": f".{syntax}.Every"}.get(name)
        form = getattr(FIELD, f"TYPE_{name.upper()}")
        every.field.add(name=f"one_{name}", number=number, type=form, label=FIELD.LABEL_OPTIONAL, type_name=of)
        every.field.add(name=f"{name}s", number=100 + number, type=form, label=FIELD.LABEL_REPEATED, type_name=of)
    union.oneof_decl.add(name="either")
    for number, name in enumerate(["left", "right"], 1):
        union.field.add(name=name, number=number, type=FIELD.TYPE_INT64, label=FIELD.LABEL_OPTIONAL, oneof_index=0)
    union.field.add(name="every", number=3, type=FIELD.TYPE_MESSAGE, label=FIELD.LABEL_OPTIONAL, type_name=f".{syntax}.Every")
    return file


def classes():
    pool = descriptor_pool.DescriptorPool()
    for syntax in ("proto2", "proto3"):
        pool.Add(file_of(syntax))
    found = [pool.FindMessageTypeByName(f"{syntax}.{name}") for syntax in ("proto2", "proto3") for name in ("Every", "Union")]
    if hasattr(message_factory, "GetMessageClass"):
        return [message_factory.GetMessageClass(it) for it in found]
    return [message_factory.MessageFactory(pool).GetPrototype(it) for it in found]


def fill(message, chance, depth=0):
    """Sets some fields of a message of a type Every."""
    for name, values in [*SCALARS.items(), ("enum", [0, 1, 2]), ("message", None)]:
        if name == "message":
            if depth < 2 and chance.random() < 0.5:
                message.one_message.SetInParent()
                for inner in [message.one_message] + [message.messages.add() for _ in range(chance.randint(0, 2))]:
                    fill(inner, chance, depth + 1)
            continue
        if chance.random() < 0.4:
            setattr(message, f"one_{name}", chance.choice(values))
        if chance.random() < 0.4:
            getattr(message, f"{name}s").extend(chance.choices(values, k=chance.randint(0, 3)))


def result(function, given):
    """The bytes of the message that a function makes of a dictionary, or that it fails."""
    try:
        return function(given).SerializeToString(deterministic=True)
    except (json_format.Error, ValueError, TypeError, AttributeError):
        return "a fault"


def spoiled(given, chance):
    """A dictionary with an odd value somewhere."""
    found = dict(given)
    name = chance.choice(list(given) + ["none"])
    value = found.get(name)
    if isinstance(value, dict) and value and chance.random() < 0.7:
        found[name] = spoiled(value, chance)
    else:
        found[name] = [chance.choice(ODD)] if isinstance(value, list) and chance.random() < 0.7 else chance.choice(ODD)
    return found


def check(kind, chance):
    message = kind()
    fill(message.every if hasattr(message, "every") else message, chance)
    if hasattr(message, "left") and chance.random() < 0.5:
        message.left = 5
    want = json_format.MessageToDict(message, preserving_proto_field_name=True)
    found = json_form.dictionary_of(message)
    if json.dumps(found) != json.dumps(want):
        return f"{found}, and not {want}"
    for given in [want] + [spoiled(want, chance) for _ in range(4)]:
        ours = result(partial(json_form.message_from, kind), given)
        theirs = result(lambda it: json_format.ParseDict(it, kind()), given)
        if ours != theirs:
            return f"of {given} {ours}, and not {theirs}"
    return None


def main():
    chance = random.Random(sys.argv[2])
    for number in range(int(sys.argv[1])):
        for kind in KINDS:
            fault = check(kind, chance)
            if fault:
                sys.exit(f"check_json_form: {number}: {kind.DESCRIPTOR.full_name}: {fault}")


KINDS = classes()
main()
