#!/usr/bin/env python3
"""Writes a text like a scheduler file, of at least so many bytes."""
import sys

GROUP = """    groups: [
      { name: "group%d" processor_num: 16 affinity: "range"
        cpuset: "0-7,16-23" processor_policy: "SCHED_OTHER" processor_prio: 0 # all of them
        tasks: [ { name: "task_%d_a" prio: 0 }, { name: "task_%d_b" prio: 19 } ] }
    ]
"""


def main():
    name, least = sys.argv[1], int(sys.argv[2])
    with open(name, "w") as out:
        size = out.write("scheduler_conf {\n  policy: \"classic\"\n  classic_conf {\n")
        group = 0
        while size < least:
            size += out.write(GROUP % (group, group, group))
            group += 1
        out.write("  }\n}\n")


main()
