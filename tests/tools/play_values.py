#!/usr/bin/env python3
"""Compares the values by which the program plays with the Protocol Buffers package: random messages of random types, by random paths.

    play_values.py PROGRAM PAIRS SEED

plays records of 64 channels, each with a type, a path and messages of its own, in which each message triggers a call of one component. The
trace has the value of each. Tries at least PAIRS pairs of a message and a path, prints the first difference and ends with status 1, or what
was tried. What is left out is what check_values.py leaves out.
"""
import os
import random
import subprocess
import sys
import tempfile
from collections import Counter

from google.protobuf.message import DecodeError

import check_values  # it finds the tools
from check_values import KINDS, fail, fill, kind_of, some_classes, some_path, twisted, wanted
from record import record
from strict import read_trace
from values import Way

CHANNELS, MESSAGES = 64, 40
LEAST, GREATEST = check_values.LEAST, check_values.GREATEST
PARAMETERS = {"Pass": "", "Sum": "", "Filter": f"lo: {LEAST} hi: {GREATEST}", "Window": "n: 1"}  # each puts out just the value that it has
WORDS = ["play", "--serial", "--dag", "d.dag", "--record", "in.rec", "--out", "out.rec", "--trace", "trace"]


def some_channel(chance):
    """A class of messages and a path in them, from a message that most often goes so far."""
    while True:
        made = chance.choice(some_classes(chance))
        message = made()
        fill(chance, message)
        path = some_path(chance, message)
        if path is not None:
            return made, path


def some_content(chance, made):
    message = made()
    fill(chance, message)
    content = twisted(chance, message.SerializeToString(), made.DESCRIPTOR)
    return content[: chance.randrange(len(content) + 1)] if chance.random() < 0.03 else content


def wanted_of(made, content, path, scale):
    """The value that the package reads, None where there is none."""
    try:
        return wanted(made.FromString(content), path, scale)
    except DecodeError:
        return None


def write_files(chance):
    """Writes the files of a play, and gives for each component its class, its way and the contents and values of its messages."""
    plays, tape, dag, values = [], [], [], []
    for place in range(CHANNELS):
        made, path = some_channel(chance)
        kind = kind_of(path[-1])
        scale = 10 ** chance.choice([0, 0, 1, 3, 19, chance.randrange(20)]) if kind in ("FLOAT", "DOUBLE") else 1
        contents = [some_content(chance, made) for _ in range(MESSAGES)]
        component = chance.choice(list(PARAMETERS))
        way = Way(tuple(it.number for it in path), kind, scale)
        plays.append((component, way, contents, [wanted_of(made, it, path, scale) for it in contents]))
        tape += [(b"/%d" % place, place + CHANNELS * number, it) for number, it in enumerate(contents)]
        values.append(f'value {{ channel: "/{place}" path: {list(way.path)} kind: {kind} scale: {scale} }}\n')
        config = f'name: "p{place}" config_file_path: "p{place}.conf" readers {{ channel: "/{place}" }}'
        dag.append(f'components {{ class_name: "{component}Component" config {{ {config} }} }}\n')
        with open(f"p{place}.conf", "w", encoding="utf-8") as file:
            file.write(f'out: "/o{place}" {PARAMETERS[component]}\n')
    with open(f"p{chance.randrange(CHANNELS)}.conf", "a", encoding="utf-8") as file:
        file.writelines(values)
    with open("d.dag", "w", encoding="utf-8") as file:
        file.write(f"module_config {{ {''.join(dag)} }}\n")
    with open("in.rec", "wb") as file:
        file.write(record(sorted(tape, key=lambda it: it[1])))
    return plays


def played_values(program):
    """Plays, and gives for each component its calls in the trace: whether there is an output, and its value."""
    done = subprocess.run([program, *WORDS], capture_output=True, text=True, check=False)
    if done.returncode:
        fail(f"status {done.returncode}: {done.stderr}")
    with open("trace", "rb") as file:
        trace = read_trace(file.read())
    return [[(call.out is not None, call.out and call.out.value) for call in part.calls] for part in trace.parts]


def main():
    program, pairs, chance, seen, count = os.path.abspath(sys.argv[1]), int(sys.argv[2]), random.Random(sys.argv[3]), Counter(), 0
    with tempfile.TemporaryDirectory() as folder:
        os.chdir(folder)
        while sum(seen.values()) < pairs:
            plays, count = write_files(chance), count + 1
            for (component, way, contents, values), calls in zip(plays, played_values(program)):
                want = [(value is not None or component == "Pass", value) for value in values]
                if calls != want:
                    place = next(k for k, it in enumerate(want) if calls[k : k + 1] != [it])
                    fail(f"{way} of {contents[place].hex()} is {calls[place : place + 1]} of {component}, not {want[place]}")
                seen.update((way.kind, value is not None) for value in values)
        os.chdir("/")
    if pairs >= 10000 and any(not seen[kind, True] for kind in KINDS):
        fail(f"some kinds have no value: {seen}")
    print(f"{sum(seen.values())} pairs in {count} plays, {sum(n for (_, is_there), n in seen.items() if is_there)} with a value")


if __name__ == "__main__":
    main()
