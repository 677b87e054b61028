#!/usr/bin/env python3
"""Writes a table of N small drives, the record of each, a DAG file and its component files, into a folder.

    drives.py N FOLDER

Drive 7 has a record that is cut off and drive 11 none at all, so these two fail. Drive 9 has a stop.
"""
import os
import sys

sys.path.insert(0, os.path.join(os.path.dirname(os.path.abspath(__file__)), "..", "..", "tools"))
from record import content_of, record


def write(name, data):
    with open(name, "wb") as file:
        file.write(data)


def main():
    count, folder = int(sys.argv[1]), sys.argv[2]
    os.makedirs(folder, exist_ok=True)
    os.chdir(folder)
    write("sum.conf", b'out: "/sum"\nn: 3\n')
    write("late.conf", b'out: "/late"\ndelay: 5\n')
    parts = [("sum", "WindowComponent", "/a"), ("late", "HoldComponent", "/sum")]
    dag = "".join(
        f'components {{ class_name: "{kind}" config {{ name: "{name}" config_file_path: "{name}.conf"'
        f' readers {{ channel: "{channel}" }} }} }}\n' for name, kind, channel in parts
    )
    write("d.dag", f'module_config {{ module_library: "x"\n{dag}}}\n'.encode())
    lines = ["drive,record,dag,sched,channels,drop,begin,end,stop,threads"]
    for drive in range(1, count + 1):
        data = record([(b"/b" if k % 4 == 0 else b"/a", 10 * k, content_of(drive * k % 100)) for k in range(1, 40 + drive % 10)])
        if drive != 11:
            write(f"{drive}.rec", data[:2150] if drive == 7 else data)
        lines.append(f"d{drive},{drive}.rec,d.dag,,,{'/b' if drive % 2 else ''},,,{'sum@100' if drive == 9 else ''},")
    write("drives.csv", ("\n".join(lines) + "\n").encode())


main()
