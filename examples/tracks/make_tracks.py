#!/usr/bin/env python3
"""Writes the record of this example by the Protocol Buffers package: ten seconds of a camera and a radar.

    make_tracks.py OUT

A walker crosses the road, and a car comes nearer. From the fourth second on a truck stands beside the road; the radar sees it a second
later. The radar also sees a sign that the camera doesn't. The types are those of tracks.proto. The record is the same each time.
"""
import math
import os
import re
import sys

from google.protobuf import descriptor_pb2, descriptor_pool, message_factory

HERE = os.path.dirname(os.path.abspath(__file__))
sys.path.insert(0, os.path.join(HERE, "..", "..", "tools"))
from record import block, record

BEGIN = 1_700_000_000_000_000_000
MILLISECOND = 1_000_000
FIELD = descriptor_pb2.FieldDescriptorProto
TYPES = {kind: getattr(FIELD, f"TYPE_{kind.upper()}") for kind in ("bool", "uint32", "uint64", "float", "double", "string")}


def file_of(path):
    """The descriptor of a .proto file that has plain messages alone."""
    with open(path, encoding="utf-8") as source:
        text = re.sub(r"//.*", "", source.read())
    syntax, package = re.search(r'syntax = "(\w+)";', text)[1], re.search(r"package (\w+);", text)[1]
    file = descriptor_pb2.FileDescriptorProto(name=os.path.basename(path), package=package, syntax=syntax)
    for name, body in re.findall(r"message (\w+) \{([^}]*)\}", text):
        message = file.message_type.add(name=name)
        for repeated, kind, field, number in re.findall(r"(?:(repeated)|optional)? *(\w+) (\w+) = (\d+);", body):
            label = FIELD.LABEL_REPEATED if repeated else FIELD.LABEL_OPTIONAL
            of = None if kind in TYPES else f".{package}.{kind}"
            message.field.add(name=field, number=int(number), type=TYPES.get(kind, FIELD.TYPE_MESSAGE), label=label, type_name=of)
    return file


def class_in(pool, name):
    found = pool.FindMessageTypeByName(name)
    if hasattr(message_factory, "GetMessageClass"):
        return message_factory.GetMessageClass(found)
    return message_factory.MessageFactory(pool).GetPrototype(found)


def things(second):
    """What is there: an identity, a label, where it is ahead and to the left in metres, and its speeds."""
    found = [(1, "walker", 20.0, -7.0 + 1.4 * second, 0.0, 1.4), (2, "car", 62.0 - 5.5 * second, 1.5, -5.5, 0.0)]
    return found + ([(3, "truck", 35.0, 6.0, 0.0, 0.0)] if second >= 4 else [])


def image(second, header):
    """What the camera sees."""
    boxes = [
        {"id": number, "label": label, "bearing": round(math.atan2(y, x), 4), "width": round(2 / math.hypot(x, y), 4)}
        for number, label, x, y, _, _ in things(second)
    ]
    return {"header": header, "boxes": boxes}


def scan(second, header):
    """What the radar sees, a little beside the right place."""
    seen = [it for it in things(second) if it[1] != "truck" or second >= 5] + [(0, "sign", 50.0, -12.0, 0.0, 0.0)]
    points, noise = [], []
    for number, _, x, y, ahead, left in seen:
        away = math.hypot(x, y)
        error = ((7 * number + round(1000 * second)) % 5 - 2) / 500
        speed = round((x * ahead + y * left) / away, 2)
        points.append({"range": round(away + error, 3), "bearing": round(math.atan2(y, x) + error, 4), "speed": speed})
        noise.append(abs(error))
    return {"header": header, "points": points, "noise": noise}


def messages(image_class, scan_class):
    """The messages of both, each a time, a channel and a content. The camera leaves out the frames from 6.0 to 6.3 seconds."""
    for number in range(100):
        time = BEGIN + 100 * number * MILLISECOND
        if not 60 <= number < 63:
            value = image(number / 10, {"stamp": time, "frame": "camera"})
            yield time, b"/camera", image_class(**value).SerializeToString(deterministic=True)
    for number in range(200):
        time = BEGIN + (50 * number + 13) * MILLISECOND
        value = scan((50 * number + 13) / 1000, {"stamp": time, "frame": "radar"})
        yield time, b"/radar", scan_class(**value).SerializeToString(deterministic=True)


def main():
    file, pool = file_of(os.path.join(HERE, "tracks.proto")), descriptor_pool.DescriptorPool()
    pool.Add(file)
    tape = sorted(messages(class_in(pool, "tracks.Image"), class_in(pool, "tracks.Scan")))
    description = block(1, file.SerializeToString(deterministic=True))
    forms = {b"/camera": (b"tracks.Image", description), b"/radar": (b"tracks.Scan", description)}
    with open(sys.argv[1], "wb") as out:
        out.write(record([(channel, time, content) for time, channel, content in tape], forms))


if __name__ == "__main__":
    main()
