#!/usr/bin/env python3
"""Writes the summary of a batch: a row for each drive of the table.

    summary.py TABLE DIR [--good DIR] [--verify WORDS]

writes DIR/summary.csv, and prints how many drives are well, and what the others are. GOOD and WORDS are those of the batch. Ends with
status 0 where all drives are well and like the good run, and else with 1.
"""
import argparse
import csv
import os
import sys

from drives import judged_of, read_table, row_of
from record import fault_of

HEADS = ["drive", "status", "played", "shadowed", "calls", "written", "seconds", "processor", "memory", "verify", "difference", "line"]
NOT_DONE, WITHOUT = "not done", "no good run"
KINDS = ("well", "failed", "refused", NOT_DONE)


def row_with_verdict(folder, name, good, verify):
    """The row of a drive in the summary."""
    row = row_of(folder, name)
    if row is None or not (good or verify):
        return row or {"drive": name, "status": NOT_DONE}
    judged = judged_of(folder, name, row, good, verify)
    return row | {it: judged[it] if judged else NOT_DONE for it in ("verify", "difference")}


def write_summary(table, folder, good="", verify=""):
    """Writes the rows of a table's drives, and gives them."""
    rows = [row_with_verdict(folder, name, good, verify) for name in read_table(table)]
    path = os.path.join(folder, "summary.csv")
    os.makedirs(folder, exist_ok=True)
    with open(f"{path}.new", "w", newline="", encoding="utf-8") as file:
        writer = csv.DictWriter(file, HEADS, extrasaction="ignore", lineterminator="\n")
        writer.writeheader()
        writer.writerows(rows)
    os.replace(f"{path}.new", path)
    return rows


def kind_of(row):
    """What a drive is: well, failed, refused by the further command, or not done. Its row may be that of the summary's file, of texts."""
    if NOT_DONE in (row["status"], row.get("verify"), row.get("difference")):
        return NOT_DONE
    if str(row["status"]) != "0":
        return "failed"
    return "well" if row.get("verify") in (None, "", "verified") else "refused"


def is_unlike(row):
    """Whether a drive differs from its good run."""
    return row.get("difference") not in (None, "", WITHOUT, NOT_DONE)


def sum_up(rows, good="", verify=""):
    """The last line of a batch, and whether all is well. What wasn't asked for isn't mentioned."""
    kinds = [kind_of(row) for row in rows]
    counts = [(it, kinds.count(it)) for it in KINDS if it != "refused" or verify]
    if good:
        counts.append(("unlike the good run", sum(map(is_unlike, rows))))
        counts.append(("without a good run", sum(row.get("difference") == WITHOUT for row in rows)))
    line = f"{len(rows)} drives: {', '.join(f'{count} {what}' for what, count in counts)}"
    return line, kinds.count("well") == len(rows) and dict(counts).get("unlike the good run", 0) == 0


def main():
    reader = argparse.ArgumentParser(description=__doc__.split("\n")[0])
    reader.add_argument("table")
    reader.add_argument("folder", metavar="DIR")
    reader.add_argument("--good", default="")
    reader.add_argument("--verify", default="")
    words = reader.parse_args()
    try:
        line, is_well = sum_up(write_summary(words.table, words.folder, words.good, words.verify), words.good, words.verify)
    except (OSError, ValueError) as error:
        print(f"summary.py: {fault_of(error)}", file=sys.stderr)
        return 1
    print(line)
    return 0 if is_well else 1


if __name__ == "__main__":
    sys.exit(main())
