#!/usr/bin/env python3
"""Plays random records with components outside that are copies of built-in classes: tools/external.py has to write the record and the
trace that tests/replay.py makes of the built-in ones.

    externals.py PROGRAM COUNT SEED

A component that depends on its own output has to be refused by its name instead. Prints how many plays were compared and how many were
refused, and ends with status 1 at the first one that is wrong.
"""
import os
import random
import re
import subprocess
import sys
import tempfile
from collections import Counter

HERE = os.path.dirname(os.path.abspath(__file__))
TOP = os.path.join(HERE, "..", "..")
sys.path[:0] = [os.path.join(TOP, "tools"), os.path.join(TOP, "tests")]
from dag import read_entries
from replays import write_files

# Two do what no component outside can do: hold an output back, and end. One has its answers already.
INSIDE = {"HoldComponent", "TakeComponent", "ExternalComponent"}


def reaches_itself(components, it):
    """Whether a component reads, at whatever distance, what it writes."""
    writers = {other.out: other for other in components}
    seen, waiting = set(), list(it.readers)
    while waiting:
        writer = writers.get(waiting.pop())
        if writer and writer.name not in seen:
            seen.add(writer.name)
            waiting += writer.readers
    return it.name in seen


def move_outside(components, chance):
    """Makes some components external in a DAG file of its own, and gives them."""
    with open("m.dag", encoding="utf-8") as file:
        dag = file.read()
    chosen = [it for it in components if it.kind not in INSIDE and chance.random() < (0.1 if reaches_itself(components, it) else 0.8)]
    for it in chosen:
        name = it.name.decode()
        entry = rf'class_name: "\w+" (config {{ name: "{name}" config_file_path: "){name}.conf'
        dag = re.sub(entry, rf'class_name: "ExternalComponent" \1{name}.ext', dag)
        with open(f"{name}.conf", encoding="utf-8") as file, open(f"{name}.ext", "w", encoding="utf-8") as copy:
            copy.write(f'{file.read()} answers: "{name}.rec"')
    with open("outside.dag", "w", encoding="utf-8") as file:
        file.write(dag)
    return chosen


def fault_of(program, chance):
    """What is wrong with a play, or None; and whether it was compared, was refused or had no component outside."""
    words = write_files(chance, has_values=False)  # a message that is passed on has no value of its own where its copy is an answer
    components = read_entries("m.dag")
    chosen = move_outside(components, chance)
    if not chosen:
        return None, "without"
    others = words[words.index("--record") :]
    subprocess.run([sys.executable, f"{TOP}/tests/replay.py", "want.rec", "want.trace", "want.line", *words], check=True)
    runs = [f"--run={it.name.decode()}={sys.executable} {HERE}/copy_of.py {it.kind} {it.name.decode()}.conf" for it in chosen]
    asked = ["--dag", "outside.dag", *others, "--out", "out.rec", "--trace", "out.trace", "--program", program, *runs]
    done = subprocess.run([sys.executable, f"{TOP}/tools/external.py", *asked], capture_output=True, text=True)
    looped = [it.name.decode() for it in chosen if reaches_itself(components, it)]
    if looped:
        said = f"external: component {looped[0]} depends on its own output, so it can't be asked outside\n"
        is_refused = done.returncode == 1 and done.stderr == said
        return None if is_refused else f"not refused by its name: {looped[0]}: {done.stderr}", "refused"
    pairs = [("out.rec", "want.rec"), ("out.trace", "want.trace")]
    if done.returncode or any(open(a, "rb").read() != open(b, "rb").read() for a, b in pairs):
        return f"status {done.returncode}: {' '.join(asked)}: {done.stderr}", "compared"
    return None, "compared"


def main():
    program, count, seed = os.path.abspath(sys.argv[1]), int(sys.argv[2]), sys.argv[3]
    counts = Counter()
    for number in range(count):
        with tempfile.TemporaryDirectory() as folder:
            os.chdir(folder)
            fault, what = fault_of(program, random.Random(f"{seed} {number}"))
            os.chdir("/")
        counts[what] += 1
        if fault:
            print(f"play {number}: {fault}")
            return 1
    print(f"{count} plays: compared {counts['compared']}, refused {counts['refused']}, without a component outside {counts['without']}")
    return 0


sys.exit(main())
