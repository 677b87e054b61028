#!/usr/bin/env python3
"""Runs a command, and writes to FILE what it took: seconds, processor seconds and the most memory in bytes.

    measure.py FILE COMMAND...

ends with the command's status.
"""
import resource
import subprocess
import sys
import time


def main():
    start = time.monotonic()
    status = subprocess.run(sys.argv[2:], check=False).returncode
    used = resource.getrusage(resource.RUSAGE_CHILDREN)
    with open(sys.argv[1], "w", encoding="utf-8") as out:
        out.write(f"seconds {time.monotonic() - start:.2f}\nprocessor {used.ru_utime + used.ru_stime:.2f}\n")
        out.write(f"memory {used.ru_maxrss * 1024}\n")
    return status


sys.exit(main())
