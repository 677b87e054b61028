#!/usr/bin/env python3
"""Writes the trace and the record of a play of N messages through one component that passes each on.

    long_run.py N PREFIX

makes PREFIX.trace and PREFIX.rec, as `pass` of N messages on /in, a millisecond apart, to /out.
"""
import os
import sys

sys.path.insert(0, os.path.join(os.path.dirname(os.path.abspath(__file__)), "..", "..", "tools"))
from record import content_of, record

START = 1_700_000_000_000_000_000


def main():
    count, prefix = int(sys.argv[1]), sys.argv[2]
    with open(f"{prefix}.trace", "w", encoding="utf-8") as out:
        out.write(f'cyber-trace 1\nplayed {count} shadowed 0\ncomponent "pass"\nroles {"0" * count}\n')
        out.writelines(f"call {k}/{k} {k} {k}@{START + 1_000_000 * k}={k % 1000}\n" for k in range(1, count + 1))
        out.write(f"end DATA_WAIT next {count + 1}\n")
        out.writelines(f'tape "/in" {k}\ntape "/out" {k}\n' for k in range(1, count + 1))
    messages = ((k, content_of(k % 1000)) for k in range(1, count + 1))
    tape = [(channel, START + 1_000_000 * k, content) for k, content in messages for channel in (b"/in", b"/out")]
    with open(f"{prefix}.rec", "wb") as out:
        out.write(record(tape))


main()
