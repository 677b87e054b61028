#!/usr/bin/env python3
"""Plays one drive of a table, and leaves a row that tells what came of it.

    play.py --table F --drive NAME --program F --out DIR

writes DIR/NAME/row.json last and in one piece, so that a drive with a row is done. A play that ends with a status, whichever, is done; one
that a signal ended isn't, and then this ends with status 1. A drive with components of its own is played by tools/external.py; what that
and the components print is in DIR/NAME/run.log.
"""
import argparse
import hashlib
import os
import re
import sys

from drives import LONGEST_LINE, TOOLS, commands_of, drive_of, external_words_of, row_path, run, words_of, write_whole
from record import fault_of

EXTERNAL = os.path.join(TOOLS, "external.py")
BY_SIGNAL = range(129, 193)  # the statuses by which tools/external.py tells of a signal
COUNTS = re.compile(r"done: played (?P<played>\d+), shadowed (?P<shadowed>\d+), calls (?P<calls>\d+), written (?P<written>\d+)")


def digest_of(path):
    """A sum of a file; of those that can be trusted it takes least time."""
    found = hashlib.blake2b(digest_size=32)
    with open(path, "rb") as file:
        while piece := file.read(1 << 20):
            found.update(piece)
    return found.hexdigest()


def last_line(log, begin):
    """The last line of a log that begins in this way; where none does, the last line."""
    last = found = ""
    with open(log, encoding="utf-8", errors="replace") as file:
        while line := file.readline(LONGEST_LINE):
            last = line.strip() or last
            if line.startswith(begin):
                found = line.strip()
    return found or last


def ask_and_play(words, drive, folder, out, trace):
    """What came of a drive whose components are asked by tools/external.py."""
    log = os.path.join(folder, "run.log")
    ended = run([sys.executable, EXTERNAL, "--program", words.program, *external_words_of(drive, folder, out, trace)], log)
    ended["line"] = last_line(log, "done: " if ended["status"] == 0 else "external: ")
    if ended["status"] in BY_SIGNAL:
        raise ValueError(f"a signal ended the play of {words.drive}: {ended['line']}")
    return ended


def play(words):
    """The row of a drive."""
    drive, folder = drive_of(words.table, words.drive), os.path.join(words.out, words.drive)
    out, trace = os.path.join(folder, "out.rec"), os.path.join(folder, "out.trace")
    os.makedirs(folder, exist_ok=True)
    if commands_of(drive):
        row = {"drive": words.drive} | ask_and_play(words, drive, folder, out, trace)
    else:
        row = {"drive": words.drive} | run([words.program] + words_of(drive, out, trace))
    if row["status"] < 0:
        raise ValueError(f"a signal ended the play of {words.drive}")
    if row["status"] == 0:
        counts = COUNTS.match(row["line"])
        if not counts:
            raise ValueError(f"{words.program} prints no counts: {row['line'][:100]}")
        row |= {key: int(value) for key, value in counts.groupdict().items()}
        row |= {"digest": digest_of(out), "trace digest": digest_of(trace)}
    return row


def main():
    reader = argparse.ArgumentParser(description=__doc__.split("\n")[0])
    for name in ("--table", "--drive", "--program", "--out"):
        reader.add_argument(name, required=True)
    words = reader.parse_args()
    try:
        write_whole(row_path(words.out, words.drive), play(words))
    except (OSError, ValueError) as error:
        print(f"play.py: {fault_of(error)}", file=sys.stderr)
        return 1
    return 0


if __name__ == "__main__":
    sys.exit(main())
