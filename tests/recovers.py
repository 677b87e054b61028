#!/usr/bin/env python3
"""Recovers the fronts of a record, and compares what is written and told with what parted.py makes of the same bytes.

    recovers.py PROGRAM RECORD STEP

The fronts have 2,064 bytes, and STEP more each, up to the whole file. What is written of each has to be whole for `info`, with no number
that differs, and its messages have to be the first ones of the record. Prints how many fronts there were, and ends with status 1 where one
is amiss.
"""
import os
import subprocess
import sys
import tempfile

from parted import recovered
from record import HEADER_END, messages_of


def run(program, *words):
    return subprocess.run([program, *words], capture_output=True, timeout=60, check=False)


def read(path):
    with open(path, "rb") as file:
        return file.read()


def amiss(program, front, messages):
    """What is wrong with the recovery of a front, or None."""
    with open("front.rec", "wb") as file:
        file.write(front)
    record, line = recovered(front)
    ran = run(program, "recover", "front.rec", "whole.rec")
    if (ran.returncode, ran.stdout, ran.stderr) != (0, line.encode(), b""):
        return f"status {ran.returncode}, {ran.stdout + ran.stderr}, and not {line!r}"
    made = read("whole.rec")
    if made != record or read("front.rec") != front:
        return "another record is written, or what was read was changed"
    told = run(program, "info", "whole.rec")
    if told.returncode != 0 or b" complete yes " not in told.stdout or b"\ndiffers" in told.stdout:
        return f"info says {told.stdout + told.stderr}"
    found = messages_of(made)
    return None if found == messages[: len(found)] else "not the first messages of the record"


def main():
    program, data, step = os.path.abspath(sys.argv[1]), read(sys.argv[2]), int(sys.argv[3])
    messages, faults = messages_of(data), 0
    sizes = sorted({*range(HEADER_END, len(data), step), len(data)})
    with tempfile.TemporaryDirectory() as folder:
        os.chdir(folder)
        for size in sizes:
            wrong = amiss(program, data[:size], messages)
            if wrong:
                faults += 1
                print(f"{size} bytes: {wrong}")
            if faults == 10:
                break
        os.chdir("/")
    print(f"{len(sizes)} fronts, {faults or 'none'} amiss")
    return min(faults, 1)


if __name__ == "__main__":
    sys.exit(main())
