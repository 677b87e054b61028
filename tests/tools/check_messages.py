#!/usr/bin/env python3
"""Checks what tools/messages.py prints of random messages, which the Protocol Buffers package encodes.

    check_messages.py COUNT SEED

writes records of COUNT messages a channel into the current folder. What has to be printed is worked out from the values that the messages
are made of: never from what was decoded. Prints nothing where all is well.
"""
import csv
import io
import json
import os
import random
import subprocess
import sys

from google.protobuf import descriptor_pb2, descriptor_pool, message_factory

TOP = os.path.join(os.path.dirname(os.path.abspath(__file__)), "..", "..")
sys.path.insert(0, os.path.join(TOP, "tools"))
from record import block, record

FIELD = descriptor_pb2.FieldDescriptorProto
ONE, MANY = FIELD.LABEL_OPTIONAL, FIELD.LABEL_REPEATED
POINT = [("x", FIELD.TYPE_DOUBLE, ONE, None), ("ok", FIELD.TYPE_BOOL, ONE, None), ("n", FIELD.TYPE_INT64, ONE, None),
         ("kind", FIELD.TYPE_ENUM, ONE, ".demo.Kind")]
SCAN = [("centre", FIELD.TYPE_MESSAGE, ONE, ".demo.Point"), ("points", FIELD.TYPE_MESSAGE, MANY, ".demo.Point"),
        ("speed", FIELD.TYPE_FLOAT, ONE, None), ("steps", FIELD.TYPE_SINT32, MANY, None), ("name", FIELD.TYPE_STRING, ONE, None),
        ("count", FIELD.TYPE_UINT32, ONE, None), ("data", FIELD.TYPE_BYTES, ONE, None)]
KINDS = ["NONE", "CAR", "BIKE"]


def fail(text):
    sys.exit(f"check_messages: {text}")


def file_of(name, package, syntax, message, fields, imports=()):
    """A file of one message."""
    file = descriptor_pb2.FileDescriptorProto(name=name, package=package, syntax=syntax, dependency=imports)
    kind = file.message_type.add(name=message)
    for number, (field, form, label, of) in enumerate(fields, 1):
        kind.field.add(name=field, number=number, type=form, label=label, type_name=of)
    return file


def files():
    """The files of the types: demo.Scan has demo.Point, of proto3, and old.Scan is the same of proto2."""
    point = file_of("demo/point.proto", "demo", "proto3", "Point", POINT)
    kind = point.enum_type.add(name="Kind")
    for number, name in enumerate(KINDS):
        kind.value.add(name=name, number=number)
    scan = file_of("demo/scan.proto", "demo", "proto3", "Scan", SCAN, ["demo/point.proto"])
    old = file_of("old/scan.proto", "old", "proto2", "Scan", SCAN[2:])
    return point, scan, old


POINT_FILE, SCAN_FILE, OLD_FILE = files()
POOL = descriptor_pool.DescriptorPool()
for it in (POINT_FILE, SCAN_FILE, OLD_FILE):
    POOL.Add(it)
SCAN_DESCRIPTION = block(1, SCAN_FILE.SerializeToString()) + block(2, block(1, POINT_FILE.SerializeToString()))
OLD_DESCRIPTION = block(1, OLD_FILE.SerializeToString())


def class_of(name):
    found = POOL.FindMessageTypeByName(name)
    if hasattr(message_factory, "GetMessageClass"):
        return message_factory.GetMessageClass(found)
    return message_factory.MessageFactory(POOL).GetPrototype(found)


def some_point(chance):
    """A point, each of whose fields may be left out, or be zero."""
    values = {"x": chance.choice([0.0, chance.uniform(-9, 9)]), "ok": chance.random() < 0.5, "n": chance.choice([0, -(2**62), 7]),
              "kind": chance.randrange(3)}
    return {key: value for key, value in values.items() if chance.random() < 0.7}


def some_scan(chance, fields):
    """The values of a message, as a dictionary."""
    values = {"centre": some_point(chance), "points": [some_point(chance) for _ in range(chance.randrange(4))],
              "speed": chance.randrange(-8, 9) / 4, "steps": [chance.randrange(-5, 5) for _ in range(chance.randrange(3))],
              "name": chance.choice(["", "größe", 'a,"b"']), "count": chance.choice([0, 1, 2**32 - 1]),
              "data": chance.choice([b"", b"\x00\xff"])}
    return {key: value for key, value in values.items() if key in fields and chance.random() < 0.8}


def text_of(value):
    """A single value as a cell."""
    return {True: "true", False: "false"}[value] if isinstance(value, bool) else str(value)


def point_cells(point):
    """The cells of a point that is there: a field of proto3 that is left out is zero."""
    values = {"x": 0.0, "ok": False, "n": 0, "kind": 0} | point
    return [text_of(values["x"]), text_of(values["ok"]), text_of(values["n"]), KINDS[values["kind"]]]


def point_json(point):
    """A point in JSON, with its zeros; 64 bits are a text."""
    values = {"x": 0.0, "ok": False, "n": 0, "kind": 0} | point
    return {"x": values["x"], "ok": values["ok"], "n": str(values["n"]), "kind": KINDS[values["kind"]]}


def base_64(values):
    """The bytes of a message as a cell, in base 64."""
    return "AP8=" if values.get("data") else ""


def scan_cells(values):
    """The cells of a message of demo.Scan."""
    cells = point_cells(values["centre"]) if "centre" in values else [""] * 4
    points, steps = [point_json(it) for it in values.get("points", [])], values.get("steps", [])
    cells += [json.dumps(points) if points else "", text_of(values.get("speed", 0.0)), json.dumps(steps) if steps else ""]
    return cells + [values.get("name", ""), text_of(values.get("count", 0)), base_64(values)]


def old_cells(values):
    """The cells of a message of old.Scan: a field of proto2 that is left out is no zero."""
    steps = values.get("steps", [])
    cells = [text_of(values.get("speed", "")), json.dumps(steps) if steps else ""]
    return cells + [values.get("name", ""), text_of(values.get("count", "")), base_64(values)]


def printed(*words, status=0):
    """What the tool prints, which has to end with a status."""
    done = subprocess.run([sys.executable, os.path.join(TOP, "tools", "messages.py"), *words], capture_output=True, text=True, check=False)
    if done.returncode != status or "Traceback" in done.stderr:
        fail(f"{' '.join(words)}: status {done.returncode}, not {status}: {done.stderr}{done.stdout[-300:]}")
    return done.stdout


def write(path, tape, forms):
    with open(path, "wb") as file:
        file.write(record(tape, forms))


def check_rows(chance, count):
    """The table of a channel that is described, of one that passed its messages on, and of one whose type a set has."""
    kinds = {"demo.Scan": [it[0] for it in SCAN], "old.Scan": [it[0] for it in SCAN[2:]]}
    values = {kind: [some_scan(chance, fields) for _ in range(count)] for kind, fields in kinds.items()}
    contents = {kind: [class_of(kind)(**it).SerializeToString() for it in found] for kind, found in values.items()}
    forms = {b"/scan": (b"demo.Scan", SCAN_DESCRIPTION), b"/copy": (b"demo.Scan", b""), b"/point": (b"demo.Point", b""),
             b"/old": (b"old.Scan", OLD_DESCRIPTION), b"/old/copy": (b"old.Scan", b"")}
    of = {b"/scan": "demo.Scan", b"/copy": "demo.Scan", b"/old": "old.Scan", b"/old/copy": "old.Scan"}
    tape = [(channel, 10 * k, contents[kind][k]) for k in range(count) for channel, kind in of.items()]
    # A number of four bytes that is cut, and a name that isn't UTF-8: the name is field 5 of demo.Scan and field 3 of old.Scan.
    bad = {"demo.Scan": [b"\x0d\x00", b"\x2a\x01\xff"], "old.Scan": [b"\x0d\x00", b"\x1a\x01\xff"]}
    tape += [(channel, 10 * count, content) for channel, kind in of.items() for content in bad[kind]]
    tape.append((b"/point", 10 * count, class_of("demo.Point")(n=3).SerializeToString()))
    write("scans.rec", tape, forms)
    write("none.rec", tape, {channel: (kind, b"") for channel, (kind, _) in forms.items()})
    # The one that imports another one comes first.
    with open("types", "wb") as file:
        file.write(descriptor_pb2.FileDescriptorSet(file=[SCAN_FILE, POINT_FILE, OLD_FILE]).SerializeToString())
    shared = "speed steps name count data"
    heads = {"demo.Scan": f"centre.x centre.ok centre.n centre.kind points {shared}", "old.Scan": shared}
    for channel, kind in of.items():
        cells = scan_cells if kind == "demo.Scan" else old_cells
        want = [["channel", "number", "time", *heads[kind].split(), "undecoded bytes"]]
        want += [[channel.decode(), str(k + 1), str(10 * k), *cells(it), ""] for k, it in enumerate(values[kind])]
        empty = [""] * len(heads[kind].split())
        want += [[channel.decode(), str(count + k), str(10 * count), *empty, f"0x{it.hex()}"] for k, it in enumerate(bad[kind], 1)]
        for words in (["scans.rec"], ["none.rec", "--types", "types"]):
            rows = list(csv.reader(io.StringIO(printed(*words, "--csv", "--channel", channel.decode()))))
            differs = next((pair for pair in zip(rows, want) if pair[0] != pair[1]), None)
            if differs or len(rows) != len(want):
                fail(f"{words} {channel.decode()}: {len(rows)} rows, not {len(want)}: {differs}")
    # A type that another channel's description has beside its own.
    if json.loads(printed("scans.rec", "--json", "--channel", "/point"))["message"] != {"n": "3"}:
        fail("/point isn't decoded")


def changes():
    """Messages and what is changed of them: the values before and behind, the name of the field that differs, and its two texts."""
    scan = {"centre": {"x": 1.5, "ok": True, "n": 5}, "points": [{"x": 1.0}, {"x": 2.0, "kind": 1}], "speed": 0.5, "steps": [1, 2], "count": 7}
    return [
        (scan, scan | {"speed": 0.75}, "speed 0.5 and 0.75", 0.25),
        (scan, scan | {"count": 9}, "count 7 and 9", 2),
        (scan, scan | {"steps": [1, 4]}, "steps[1] 2 and 4", 2),
        (scan, scan | {"steps": [1]}, "steps 2 entries and 1", None),
        (scan, scan | {"centre": {"x": 1.5, "ok": False, "n": 5}}, "centre.ok true and false", None),
        (scan, scan | {"centre": {"x": 1.5, "ok": True, "n": 2**53 + 5}}, f"centre.n 5 and {2**53 + 5}", 2**53),
        (scan, {key: value for key, value in scan.items() if key != "centre"}, "centre a message and nothing", None),
        (scan, scan | {"points": [{"x": 1.0}, {"x": 2.125, "kind": 1}]}, "points[1].x 2.0 and 2.125", 0.125),
        (scan, scan | {"points": [{"x": 1.0}, {"x": 2.0, "kind": 2}]}, "points[1].kind CAR and BIKE", None),
        (scan, scan | {"name": "b"}, 'name "" and "b"', None),
        (scan, scan | {"speed": 0.1}, "speed 0.5 and 0.1", 0.4),  # in four bytes 0.1 is a little more
        (scan, scan | {"centre": {"x": 3.0, "ok": True, "n": 6}}, "centre.x 1.5 and 3.0", 1.5),
    ]


def check_differences():
    """The field that differs is named, for a channel each; up to a tolerance there is none, and neither in a field that is ignored."""
    made, forms, tapes = class_of("demo.Scan"), {}, ([], [])
    for number, (before, behind, _, _) in enumerate(changes()):
        channel = b"/%d" % number
        forms[channel] = (b"demo.Scan", SCAN_DESCRIPTION)
        for tape, values in zip(tapes, (before, behind)):
            same, last = made(**before).SerializeToString(), made(**values).SerializeToString()
            tape += [(channel, 1, same), (channel, 2, last), (channel, 3, last)]
    for path, tape in zip(("one.rec", "other.rec"), tapes):
        write(path, tape, forms)
    count = len(changes())
    told = printed("--diff", "one.rec", "other.rec", status=1).splitlines()
    want = [f"/{number} 2 at 2: {text}; 2 of 3 differ" for number, (_, _, text, _) in enumerate(changes())]
    want.append(f"differ: {2 * count} of {3 * count} messages, on {count} of {count} channels")
    if told != want:
        fail(f"the differences are {told}, not {want}")
    for number, (_, _, _, apart) in enumerate(changes()):
        if apart is not None:
            words = ("--diff", "one.rec", "other.rec", "--channel", f"/{number}", "--tolerance")
            printed(*words, str(apart))
            printed(*words, str(apart - apart / 2**10), status=1)
    ignored = [f"--ignore={it}" for it in ("speed", "count", "steps", "centre.ok", "centre.n", "centre.x", "points", "name")]
    told = printed("--diff", "one.rec", "other.rec", *ignored, status=1).splitlines()
    want = ["/6 2 at 2: centre a message and nothing; 2 of 3 differ",
            f"differ: 2 of {3 * count} messages, on 1 of {count} channels; {2 * (count - 1)} pass by --tolerance or --ignore"]
    if told != want:
        fail(f"the differences are {told}, not {want}")
    printed("--diff", "one.rec", "other.rec", "--ignore", "centre.y", status=2)


def check_long_lines():
    """A line has at most 300 characters, whatever differs and however the channel is called."""
    made, name = class_of("demo.Scan"), b"/" + b"n" * 400
    for path, text in (("one.rec", "a" * 5000), ("other.rec", "b" * 5000)):
        forms = {channel: (b"demo.Scan", SCAN_DESCRIPTION) for channel in (b"/a", name)}
        content = made(name=text, points=[{"x": 1.0}] * 2000).SerializeToString()
        write(path, [(b"/a", 1, content), (name, 1, content), (b"/raw", 1, text.encode() * 100)], forms)
    told = printed("--diff", "one.rec", "other.rec", status=1).splitlines()
    if max(map(len, told)) != 300 or not told[0].startswith('/a 1 at 1: name "aaaa') or not all(it.endswith("; 1 of 1 differ") for it in told[:3]):
        fail(f"the lines are {told}")


def main():
    count, chance = int(sys.argv[1]), random.Random(int(sys.argv[2]))
    check_rows(chance, count)
    check_differences()
    check_long_lines()


main()
