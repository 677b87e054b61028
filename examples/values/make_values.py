#!/usr/bin/env python3
"""Writes the record of this example by the Protocol Buffers package: twenty seconds of a car.

    make_values.py OUT

The car drives over a hill, slows down and goes faster again. Its engine starts after half a second; until then the chassis gives no speed.
Its two lidars lose some packets. The types are those of values.proto. The record is the same each time.
"""
import math
import os
import sys

from google.protobuf import descriptor_pool

HERE = os.path.dirname(os.path.abspath(__file__))
sys.path[:0] = [os.path.join(HERE, "..", "tracks"), os.path.join(HERE, "..", "..", "tools")]
from make_tracks import BEGIN, MILLISECOND, class_in, file_of
from record import block, record

SECONDS = 20
LIDARS = (("front", 7), ("rear", 4))  # each with the number of the status after which it loses packets again


def header(time, module, number):
    return {"timestamp_sec": time / 10**9, "module_name": module, "sequence_num": number}


def speed(second):
    """In metres a second."""
    return round(11 + 6.5 * math.sin(second * math.pi / 8), 2)


def poses():
    """Ten a second: the car drives along y."""
    way = 0.0
    for number in range(10 * SECONDS):
        second, time = number / 10, BEGIN + 100 * number * MILLISECOND
        way += speed(second) / 10
        position = {"x": 587_064.25, "y": round(4_141_627.5 + way, 3), "z": round(31 + 4.25 * math.sin(second * math.pi / 16), 3)}
        yield time, {"header": header(time, "localization", number + 1), "pose": {"position": position, "heading": round(math.pi / 2, 4)}}


def chassis():
    """Ten a second."""
    for number in range(10 * SECONDS):
        second, time = number / 10, BEGIN + (100 * number + 20) * MILLISECOND
        found = {"header": header(time, "canbus", number + 1), "engine_started": number >= 5}
        if number >= 5:
            found |= {"speed_mps": speed(second), "engine_rpm": round(90 * speed(second))}
        yield time, found


def statuses(name, rate):
    """Two a second."""
    for number in range(2 * SECONDS):
        time = BEGIN + (500 * number + 30 + 5 * (name == "rear")) * MILLISECOND
        yield time, {"header": header(time, f"lidar_{name}", number + 1), "lost": number % 3 + 1 if number % rate == rate - 1 else 0}


def main():
    file, pool = file_of(os.path.join(HERE, "values.proto")), descriptor_pool.DescriptorPool()
    pool.Add(file)
    channels = [("localization/pose", "LocalizationEstimate", poses()), ("canbus/chassis", "Chassis", chassis())]
    channels += [(f"lidar/{name}/status", "LidarStatus", statuses(name, rate)) for name, rate in LIDARS]
    description, forms, tape = block(1, file.SerializeToString(deterministic=True)), {}, []
    for name, kind, messages in channels:
        channel, made = b"/apollo/" + name.encode(), class_in(pool, f"trip.{kind}")
        forms[channel] = (f"trip.{kind}".encode(), description)
        tape += [(channel, time, made(**it).SerializeToString(deterministic=True)) for time, it in messages]
    with open(sys.argv[1], "wb") as out:
        out.write(record(sorted(tape, key=lambda it: it[1]), forms))


if __name__ == "__main__":
    main()
