#!/usr/bin/env python3
"""Makes the page of a batch, or that of one of its drives; each is one HTML file that needs no network.

    pages.py --out DIR [--last DIR]
    pages.py --table F --drive NAME --out DIR [--program F] [--good DIR]

The first writes DIR/report.html, a table by DIR/summary.csv, in which each drive that has a page is linked to it; with --last the rows of
another batch are beside those of this one. The second writes DIR/NAME/report.html: for a drive whose play ended with status 0 the page of
tools/report.py, compared with the run in GOOD/NAME where there is one, and else a page that says what came of it.
"""
import argparse
import csv
import os
import sys

sys.path.insert(1, os.path.join(os.path.dirname(os.path.abspath(__file__)), "..", "tools"))
from drives import as_played, commands_of, drive_of, row_of
from record import fault_of
from summary import KINDS, is_unlike, kind_of

COUNTS, COSTS = ("played", "shadowed", "calls", "written"), ("seconds", "processor", "memory")
NOTABLE = 0.1  # by how much of it a cost has to be another one than in the last run to be shown
SIGNS = dict(zip(KINDS, "✓✗✗…"))


def page_path(folder, name=""):
    """The page of a batch, or that of a drive."""
    return os.path.join(folder, name, "report.html")


def read_summary(folder):
    """The rows of a batch by drive; none where there is no summary."""
    path = os.path.join(folder, "summary.csv")
    with open(path, newline="", encoding="utf-8") as file:
        rows = csv.DictReader(file)
        if "drive" not in (rows.fieldnames or []) or "status" not in rows.fieldnames:
            raise ValueError(f"{path}: not the summary of a batch")
        return {row["drive"]: row for row in rows}


def number_of(text):
    """The number in a cell, None in an empty one."""
    try:
        return float(text) if "." in text else int(text)
    except (TypeError, ValueError):
        return None


def is_notable(column, now, before):
    """Whether a number of the last run is shown beside that of this one: each other count, and costs that are quite different."""
    if before is None or now == before:
        return False
    return column in COUNTS or now is None or abs(now - before) > NOTABLE * before


def view_of_row(folder, row, last):
    """What the page shows of a drive."""
    kind, page = kind_of(row), page_path("", row["drive"])
    numbers = {it: (number_of(row.get(it)), number_of((last or {}).get(it))) for it in COUNTS + COSTS}
    is_changed = bool(last) and (last["status"] != row["status"] or any(now != before for now, before in map(numbers.get, COUNTS)))
    numbers = {it: (now, before if is_notable(it, now, before) else None) for it, (now, before) in numbers.items()}
    return {
        "row": row, "kind": kind, "sign": SIGNS[kind], "page": page if os.path.isfile(os.path.join(folder, page)) else None,
        "numbers": numbers, "is_unlike": is_unlike(row), "is_changed": is_changed, "last_status": last["status"] if last else None,
    }


def write_batch(folder, last_folder):
    """Writes the page of a batch."""
    from reporting import text
    from reporting.page import render, write_page  # it needs Jinja2

    rows, last = read_summary(folder), read_summary(last_folder) if last_folder else {}
    drives = [view_of_row(folder, row, last.get(name)) for name, row in rows.items()]
    counts = {kind: sum(it["kind"] == kind for it in drives) for kind in KINDS}
    view = {
        "title": f"Batch {os.path.basename(os.path.abspath(folder))}", "drives": drives, "counts": counts,
        "unlike": sum(it["is_unlike"] for it in drives), "last": last_folder,
        # What wasn't asked for isn't mentioned.
        "is_verified": any(row.get("verify") for row in rows.values()),
        "is_compared": bool(last_folder) or any(row.get("difference") for row in rows.values()),
        "processor": sum(it["numbers"]["processor"][0] or 0 for it in drives),
        "calls": sum(it["numbers"]["calls"][0] or 0 for it in drives),
        "gone": [name for name in last if name not in rows],
        "number": text.number, "rounded": text.rounded, "size": text.size,
    }
    path = page_path(folder)
    write_page(path, render("batch.html", ["tables.js"], view))
    return f"written: {path}: {len(drives)} drives"


def title_of(words):
    """The heading of a drive's page."""
    return f"Drive {words.drive}"


def words_of_drive(words, drive, folder):
    """The words of tools/report.py for a drive of the table."""
    good = os.path.join(words.good, words.drive) if words.good else None
    is_there = good and all(os.path.isfile(os.path.join(good, it)) for it in ("out.rec", "out.trace"))
    played = as_played(drive, folder)
    given = {it: played.get(it) or None for it in ("dag", "record", "sched", "channels", "drop", "begin", "end", "stop", "types")}
    files = {"out": os.path.join(folder, "out.rec"), "trace": os.path.join(folder, "out.trace"), "page": page_path(folder)}
    given |= {"good": good if is_there else None, "run": commands_of(drive), "program": words.program, "title": title_of(words)}
    return argparse.Namespace(**given, **files)


def write_drive(words):
    """Writes the page of a drive."""
    from reporting.asking import make_page
    from reporting.page import render, write_page

    drive, folder = drive_of(words.table, words.drive), os.path.join(words.out, words.drive)
    row, path = row_of(words.out, words.drive), page_path(folder)
    fault = "it is not done" if row is None else None if row["status"] == 0 else row.get("line") or f"status {row['status']}"
    if fault is None:
        try:
            verdict = make_page(words_of_drive(words, drive, folder))
            return f"written: {path}: {verdict.title.lower()}"
        except (OSError, ValueError) as error:
            fault = f"the files of its run can't be read: {fault_of(error)}"
    view = {"title": title_of(words), "drive": drive, "row": row, "fault": fault}
    os.makedirs(folder, exist_ok=True)
    write_page(path, render("failed.html", [], view))
    return f"written: {path}: no run"


def main():
    reader = argparse.ArgumentParser(description=__doc__.split("\n")[0])
    reader.add_argument("--out", required=True, metavar="DIR", help="the folder of the batch")
    reader.add_argument("--last", default="", metavar="DIR", help="the folder of another batch, to be shown beside")
    reader.add_argument("--table", help="with --drive: the table of drives")
    reader.add_argument("--drive", metavar="NAME", help="the drive whose page is made")
    reader.add_argument("--program", help="with --drive: the program that verifies")
    reader.add_argument("--good", default="", metavar="DIR", help="with --drive: the folder of an earlier batch, to compare with")
    words = reader.parse_args()
    if bool(words.drive) != bool(words.table):
        reader.error("--drive and --table go together")
    try:
        print(write_drive(words) if words.drive else write_batch(words.out, words.last))
    except ImportError as error:
        print(f"pages.py: {error}; pages are made by Jinja2 (python3-jinja2 of Debian)", file=sys.stderr)
        return 1
    except (OSError, ValueError) as error:
        print(f"pages.py: {fault_of(error)}", file=sys.stderr)
        return 1
    return 0


if __name__ == "__main__":
    sys.exit(main())
