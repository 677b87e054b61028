#!/usr/bin/env python3
"""Runs a tool on damaged copies of a file: cut, with a byte changed, or with a piece left out.

    damaged.py COUNT FILE COMMAND...

FILE stands for the copy where it is a word of COMMAND. Whatever it is given, the tool has to end with a status from 0 to 2 and print at
most one line on standard error. Prints the first fault and ends with status 1, and leaves nothing behind. What is changed doesn't hang on
the day.
"""
import random
import subprocess
import sys
import tempfile


def damaged(data, chance):
    """A copy that is damaged by chance."""
    at = chance.randrange(len(data))
    way = chance.randrange(3)
    if way == 0:
        return data[:at]
    if way == 1:
        return data[:at] + bytes([chance.randrange(256)]) + data[at + 1 :]
    return data[:at] + data[at + chance.randrange(1, 40) :]


def main():
    count, path, *command = sys.argv[1:]
    with open(path, "rb") as file:
        data = file.read()
    chance = random.Random(1)
    with tempfile.NamedTemporaryFile() as copy:
        for number in range(int(count)):
            with open(copy.name, "wb") as file:
                file.write(damaged(data, chance))
            words = [copy.name if it == "FILE" else it for it in command]
            done = subprocess.run(words, stdout=subprocess.DEVNULL, stderr=subprocess.PIPE, check=False)
            if done.returncode not in (0, 1, 2) or done.stderr.count(b"\n") > 1 or b"Traceback" in done.stderr:
                print(f"damaged: copy {number} of {path}: status {done.returncode}: {done.stderr.decode('utf-8', 'replace')[-400:]}")
                return 1
    return 0


sys.exit(main())
