#!/usr/bin/env python3
"""Writes records that are large, though little is said of them. Each is one that is still being written, without an index.

    large.py FILE messages [CHANNEL COUNT TIME]..   COUNT messages of the value 1 on a channel at a time, for each three words
    large.py FILE answers CHANNEL COUNT             COUNT messages without content on a channel, at the times 1, 2 and so on
    large.py FILE content SIZE                      one message on /a at time 1, whose content is SIZE zeros
    large.py FILE channel SIZE                      the channel /a, whose name, type and description have SIZE bytes together
    large.py FILE sections TYPE COUNT               COUNT sections of a type's number, without a byte of their own
    large.py FILE chunks COUNT                      COUNT chunks, each of one message on /a at time 1
    large.py FILE lie TYPE SIZE                     a section of a type's number that says it has SIZE bytes, and 16 bytes of it

Where FILE has zeros alone it has a hole, as far as the file system allows.
"""
import os
import sys

sys.path.insert(0, os.path.join(os.path.dirname(os.path.abspath(__file__)), "..", "tools"))
from record import HEADER_END, block, number, section, varint


def opening(field, size):
    """What stands before the bytes of a field that has so many."""
    return varint(8 * field + 2) + varint(size)


def write_zeros(file, kind, front, size):
    """Writes a section of these bytes and so many zeros, with which the file ends."""
    file.write(kind.to_bytes(4, "little") + bytes(4) + (len(front) + size).to_bytes(8, "little") + front)
    file.truncate(file.tell() + size)


def write_messages(file, rows):
    """Writes a section for each channel, and then a chunk for each row."""
    for channel in dict.fromkeys(channel for channel, _, _ in rows):
        file.write(section(4, block(1, channel)))
    for channel, count, time in rows:
        file.write(section(2, block(1, block(1, channel) + number(2, time) + block(3, number(1, 2))) * count))


def write_answers(file, channel, count):
    """Writes the channel, and chunks of a thousand messages whose times rise by one."""
    file.write(section(4, block(1, channel)))
    front = block(1, channel)
    for first in range(1, count + 1, 1000):
        times = range(first, min(first + 1000, count + 1))
        file.write(section(2, b"".join(block(1, front + number(2, time)) for time in times)))


def main():
    name, what, *words = sys.argv[1:]
    with open(name, "wb") as file:
        file.write(section(0, number(13, 0)).ljust(HEADER_END, b"\0"))
        if what == "messages":
            numbers = zip(map(int, words[1::3]), map(int, words[2::3]))
            write_messages(file, [(os.fsencode(channel), *it) for channel, it in zip(words[::3], numbers)])
        elif what == "answers":
            write_answers(file, os.fsencode(words[0]), int(words[1]))
        elif what == "content":
            size = int(words[0])
            message = block(1, b"/a") + number(2, 1) + opening(3, size)
            write_zeros(file, 2, opening(1, len(message) + size) + message, size)
        elif what == "sections":
            file.write(section(int(words[0]), b"") * int(words[1]))
        elif what == "lie":
            file.write(int(words[0]).to_bytes(4, "little") + bytes(4) + int(words[1]).to_bytes(8, "little") + bytes(16))
        elif what == "chunks":
            file.write(section(2, block(1, block(1, b"/a") + number(2, 1))) * int(words[0]))
        else:
            size = int(words[0]) - 2
            write_zeros(file, 4, block(1, b"/a") + opening(3, size), size)


main()
