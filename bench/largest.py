#!/usr/bin/env python3
"""Writes a record of whole numbers on the channel a, as many as fit into 1,048,576 bytes."""
import os
import sys

sys.path.insert(0, os.path.join(os.path.dirname(os.path.abspath(__file__)), "..", "tools"))
from record import number, record

LONGEST = 1_048_576


def of_length(count):
    return record([(b"a", 100, number(1, k % 64)) for k in range(count)])


def main():
    low, high = 1, LONGEST
    while low < high:
        count = (low + high + 1) // 2
        if count <= LONGEST // 10 and len(of_length(count)) <= LONGEST:
            low = count
        else:
            high = count - 1
    data = of_length(low)
    with open(sys.argv[1], "wb") as out:
        out.write(data)
    print(f"{low} messages, {len(data)} bytes")


main()
