#!/usr/bin/env python3
"""Compares a drive that was played with its good run, and has a further command of the program look at it.

    judge.py --table F --drive NAME --program F --out DIR [--good DIR] [--verify WORDS]

writes DIR/NAME/judged.json last and in one piece: the row of the drive, these two settings, and what came of them. GOOD is the folder of an
earlier batch. WORDS are those of a command of the program, with {record}, {dag}, {out} and {trace} in place of the files; `verify` alone
verifies the drive. Ends with status 1 where that can't be done, as where a signal ended the command.
"""
import argparse
import os
import re
import shlex
import sys
from itertools import zip_longest

sys.path.insert(0, os.path.join(os.path.dirname(os.path.abspath(__file__)), "..", "tools"))
from drives import as_played, drive_of, judged_path, row_of, run, verify_words_of, write_whole
from record import each_message, fault_of, opened

FILE = re.compile(r"\{(record|dag|out|trace)\}")


def first_difference(path, good):
    """The first message in which two records differ, or a text that says that only their files do, or why that can't be told."""
    try:
        with opened(path) as one, opened(good) as other:
            for at, (message, wanted) in enumerate(zip_longest(each_message(one), each_message(other)), 1):
                if message != wanted:
                    return f"message {at}: {text_of(message)}, was {text_of(wanted)}"
    except (OSError, ValueError) as error:
        return f"the records can't be compared: {fault_of(error)}"
    return "none of the messages, but the files"


def text_of(message):
    """A message as a text, with the beginning of its content."""
    return f"{message[0].decode('utf-8', 'replace')} at {message[1]} 0x{message[2][:32].hex()}" if message else "the end"


def compare(row, folder, good, name):
    """What differs from an earlier batch: nothing, `no good run`, or the first difference."""
    before = row_of(good, name) if good else None
    if not before or before["status"] != 0:
        return "no good run" if good else ""
    if row["status"] != 0:
        return f"status {row['status']}, was 0"
    if row["digest"] == before["digest"]:
        return "trace" if row["trace digest"] != before["trace digest"] else ""
    record = os.path.join(good, name, "out.rec")
    if not os.path.isfile(record):
        return "the record, whose good one isn't kept"
    return first_difference(os.path.join(folder, "out.rec"), record)


def verify(words, drive, folder):
    """What a further command says of a drive: `verified`, or its status and its line."""
    out, trace = os.path.join(folder, "out.rec"), os.path.join(folder, "out.trace")
    names = {"record": drive["record"], "dag": drive["dag"], "out": out, "trace": trace}
    further = [FILE.sub(lambda it: names[it[1]], word) for word in shlex.split(words.verify)]
    ended = run([words.program] + (verify_words_of(drive, out, trace) if further == ["verify"] else further))
    if ended["status"] < 0:
        raise ValueError(f"a signal ended '{words.verify}' of {words.drive}")
    return "verified" if ended["status"] == 0 else f"status {ended['status']}: {ended['line']}"


def judge(words):
    """What comes of a drive's comparison and of the further command."""
    folder, row = os.path.join(words.out, words.drive), row_of(words.out, words.drive)
    drive = as_played(drive_of(words.table, words.drive), folder)
    if row is None:
        raise ValueError(f"{words.drive} is not played")
    return {
        "row": row,
        "good": words.good,
        "command": words.verify,
        "verify": verify(words, drive, folder) if words.verify and row["status"] == 0 else "",
        "difference": compare(row, folder, words.good, words.drive),
    }


def main():
    reader = argparse.ArgumentParser(description=__doc__.split("\n")[0])
    for name in ("--table", "--drive", "--program", "--out"):
        reader.add_argument(name, required=True)
    reader.add_argument("--good", default="")
    reader.add_argument("--verify", default="")
    words = reader.parse_args()
    try:
        write_whole(judged_path(words.out, words.drive), judge(words))
    except (OSError, ValueError) as error:
        print(f"judge.py: {fault_of(error)}", file=sys.stderr)
        return 1
    return 0


if __name__ == "__main__":
    sys.exit(main())
