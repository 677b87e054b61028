#!/usr/bin/env python3
"""Writes what a batch of the drives of tests/tools/drives.py comes to, without the program: the summary, and the runs of three drives.

    summed_up.py TABLE DIR

The rows are as docs/BATCH.md says; the records and traces are by tests/replay.py, of the drives 1, 3 and 9. All others have counts alone.
"""
import csv
import json
import os
import subprocess
import sys

TOP = os.path.join(os.path.dirname(os.path.abspath(__file__)), "..", "..")
sys.path[:0] = [os.path.join(TOP, "batch"), os.path.join(TOP, "tools")]
from drives import read_table

HEADS = ["drive", "status", "played", "shadowed", "calls", "written", "seconds", "processor", "memory", "verify", "difference", "line"]
FAULTS = {"d7": (1, "cyber: 7.rec: at 2137: Cut"), "d11": (3, "cyber: 11.rec: the store failed")}
PLAYED = ("d1", "d3", "d9")


def play(folder, drive):
    """Plays a drive, and gives the line."""
    words = [word for key in ("dag", "record", "drop", "stop") if drive.get(key) for word in (f"--{key}", drive[key])]
    files = [os.path.join(folder, it) for it in ("out.rec", "out.trace", "line")]
    subprocess.run([sys.executable, os.path.join(TOP, "tests", "replay.py"), *files, *words], check=True)
    with open(files[2], encoding="utf-8") as file:
        return file.read().strip()


def main():
    table, folder = sys.argv[1:]
    rows = []
    for number, (name, drive) in enumerate(read_table(table).items(), 1):
        status, line = FAULTS.get(name, (0, "done: played 9, shadowed 0, calls 9, written 18"))
        if name in PLAYED:
            os.makedirs(os.path.join(folder, name))
            line = play(os.path.join(folder, name), drive)
        row = {"drive": name, "status": status, "line": line, "seconds": 0.01, "processor": 0.005, "memory": 14_000_000 + number}
        if status == 0:
            row |= dict(zip(("played", "shadowed", "calls", "written"), [int(it.split()[-1]) for it in line.split(",")]))
        rows.append(row)
        if name in PLAYED or status:
            os.makedirs(os.path.join(folder, name), exist_ok=True)
            with open(os.path.join(folder, name, "row.json"), "w", encoding="utf-8") as file:
                json.dump(row, file)
    with open(os.path.join(folder, "summary.csv"), "w", newline="", encoding="utf-8") as file:
        writer = csv.DictWriter(file, HEADS, lineterminator="\n")
        writer.writeheader()
        writer.writerows(rows)


main()
