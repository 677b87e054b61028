#!/usr/bin/env python3
"""Writes a record of large messages, chunk by chunk: 64 chunks of 16 MiB, 256 messages of 64 KiB each, on one channel.

    large_record.py FILE [CHUNKS]

Its header is not complete and it has no index, as a writer that was cut off leaves it: neither is needed to read it.
"""
import os
import sys

sys.path.insert(0, os.path.join(os.path.dirname(os.path.abspath(__file__)), "..", "tools"))
from record import CHANNEL, CHUNK, HEADER_END, block, number, section

CHANNEL_NAME = b"/camera"
CONTENT = bytes(range(256)) * 256
MESSAGES = 256
# A chunk takes less than the 20 seconds at which the next one begins.
STEP = 80_000_000


def main():
    name, chunks = sys.argv[1], int(sys.argv[2]) if len(sys.argv) > 2 else 64
    with open(name, "wb") as out:
        out.write(section(0, number(1, 1)).ljust(HEADER_END, b"\0"))
        out.write(section(CHANNEL, block(1, CHANNEL_NAME)))
        for chunk in range(chunks):
            messages = range(MESSAGES * chunk, MESSAGES * (chunk + 1))
            out.write(section(CHUNK, b"".join(
                block(1, block(1, CHANNEL_NAME) + number(2, STEP * k) + block(3, CONTENT)) for k in messages)))


main()
