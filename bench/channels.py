#!/usr/bin/env python3
"""Writes a record of N messages that are spread over channels at random, and a component that passes on those of the first channel.

    channels.py N CHANNELS PREFIX   makes PREFIX.record, PREFIX.dag and PREFIX.conf
    channels.py --rename NAMES TRACE OUT   copies a trace, with the messages of its tape spread over so many names in turns

Message k from 1 to N stands at k microseconds and holds a number of one byte.
"""
import os
import random
import sys

sys.path.insert(0, os.path.join(os.path.dirname(os.path.abspath(__file__)), "..", "tools"))
from record import HEADER_END, block, number, section

CHUNK = 100_000  # messages of a chunk

COMPONENT = """module_config {{
  components {{
    class_name: "PassComponent"
    config {{
      name: "pass"
      config_file_path: "{}.conf"
      readers {{ channel: "/channel/0" }}
    }}
  }}
}}
"""


def write_record(file, count, channels):
    """Writes a record that is still being written: it has no index."""
    rng = random.Random(1)
    names = [block(1, b"/channel/%d" % n) for n in range(channels)]
    file.write(section(0, number(13, 0)).ljust(HEADER_END, b"\0"))
    for name in names:
        file.write(section(4, name))
    for first in range(1, count + 1, CHUNK):
        places = range(first, min(first + CHUNK, count + 1))
        file.write(section(2, b"".join(block(1, rng.choice(names) + number(2, 1_000 * k) + block(3, number(1, 2))) for k in places)))


def rename(trace, names, out):
    """Copies a trace whose tape names further channels."""
    place = 0
    for line in trace:
        if line.startswith(b"tape "):
            line = b'tape "/channel/%d" %d\n' % (place % names, place // names + 1)
            place += 1
        out.write(line)


def main():
    if sys.argv[1] == "--rename":
        with open(sys.argv[3], "rb") as trace, open(sys.argv[4], "wb") as out:
            rename(trace, int(sys.argv[2]), out)
        return
    count, channels, prefix = int(sys.argv[1]), int(sys.argv[2]), sys.argv[3]
    with open(f"{prefix}.record", "wb") as out:
        write_record(out, count, channels)
    with open(f"{prefix}.dag", "w") as out:
        out.write(COMPONENT.format(os.path.basename(prefix)))
    with open(f"{prefix}.conf", "w") as out:
        out.write('out: "/passed"\n')


main()
