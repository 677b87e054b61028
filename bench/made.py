#!/usr/bin/env python3
"""Writes a record of N messages of two channels and the configuration of four components that read them.

    made.py N PREFIX

makes PREFIX.record, PREFIX.dag and a component file for each of adder, band, last8 and late. Message k from 1 to N stands on
/b where k is divisible by 3 and else on /a, at k milliseconds, and holds the number (7 k k + 13 k) mod 2001 - 1000.
"""
import os
import sys

sys.path.insert(0, os.path.join(os.path.dirname(os.path.abspath(__file__)), "..", "tools"))
from record import number, record

COMPONENTS = [
    ("adder", "SumComponent", ["/a", "/b"], 'out: "/sum"\n'),
    ("band", "FilterComponent", ["/sum"], 'out: "/band"\nlo: -2000\nhi: 500\n'),
    ("last8", "WindowComponent", ["/band"], 'out: "/win"\nn: 8\n'),
    ("late", "HoldComponent", ["/a"], 'out: "/late"\ndelay: 5000000\n'),
]


def message(k):
    value = (7 * k * k + 13 * k) % 2001 - 1000
    zigzag = 2 * value if value >= 0 else -2 * value - 1
    return b"/b" if k % 3 == 0 else b"/a", 1_000_000 * k, number(1, zigzag)


def component(prefix, name, kind, channels):
    readers = "".join(f'      readers {{\n        channel: "{channel}"\n      }}\n' for channel in channels)
    config = f'      name: "{name}"\n      config_file_path: "{prefix}.{name}.conf"\n{readers}'
    return f'  components {{\n    class_name: "{kind}"\n    config {{\n{config}    }}\n  }}\n'


def main():
    count, prefix = int(sys.argv[1]), sys.argv[2]
    with open(f"{prefix}.record", "wb") as out:
        out.write(record([message(k) for k in range(1, count + 1)]))
    components = "".join(component(prefix, name, kind, channels) for name, kind, channels, _ in COMPONENTS)
    with open(f"{prefix}.dag", "w") as out:
        out.write(f'module_config {{\n  module_library: "own"\n{components}}}\n')
    for name, _, _, text in COMPONENTS:
        with open(f"{prefix}.{name}.conf", "w") as out:
            out.write(text)


main()
