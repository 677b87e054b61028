#!/usr/bin/env python3
"""Looks that front/refusals.txt is the table of docs/FORMATS.md, and that it has a row for each refusal that the crates can print.

What the crates can print is taken from crates/*/specs/FaultText.antt. Prints what is missing, and ends with
status 1 where something is.
"""
import pathlib
import re
import sys

TOP = pathlib.Path(__file__).resolve().parent.parent.parent
HEADING = "## What a refusal means\n"
# Texts without a file before them, with their statuses.
WITHOUT_FILE = {"the words are not of a known form": "2", "the output failed": "4", "out of memory": "6"}
LIMITS = re.compile(r"limit |.*: TooDeep$|.*: TooLong N$")


def rows_of(text):
    """The rows of a table in Markdown."""
    return [line for line in text.splitlines() if line.startswith("| `")]


def plain(form):
    """A form with N for each number and S for each text in quotes."""
    form = re.sub(r'"[A-Z]+"', '"S"', form)
    form = re.sub(r"\bCOMPONENTS\b", "N..", form)
    return re.sub(r"\b(?:COMPONENT|OTHER|TIMER|TIME|COUNT|LINE|COLUMN|PLACE|VALUE|KIND)\b", "N", form)


def numbers_of(text):
    """How many numbers a list of a definition has; one that is a name alone has any."""
    return " N" * text.count("∷") if "∷" in text else " N.." if re.fullmatch(r"[a-z]+", text) else ""


def printed_by(text):
    """The forms that the definitions of a FaultText.antt print."""
    text = re.sub(r"--.*", "", text)
    for what, value in re.findall(r'limit_text \(codes "(\w+)"\) (\w+)', text):
        yield f"limit {what} passed: N"
    for what, numbers in re.findall(r'numbers_text \(codes "(\w+)"\)\s+\(?([^)\n]*)', text):
        yield what + numbers_of(re.sub(r"\[\]", "", numbers).strip() if "∷" in numbers else numbers.strip())
    for what, numbers in re.findall(r'named_text \(codes "(\w+)"\)\s+(\[\]|\([^)]*\))', text):
        yield f'{what}{" N" * numbers.count("∷")} "S"'
    for kind, value in re.findall(r'place_text at \(codes "(\w+) ?"( \+\+ \w+ value)?\)', text):
        yield f"at N: {kind}" + (" N" if value else "")
    if 'codes " column "' in text:
        kinds = re.findall(r'kind_text bad\.\w+ = codes "(\w+)"', text) + re.findall(r'place_text line column \(codes "(\w+)"\)', text)
        yield from (f"line N column N: {kind}" for kind in kinds)
    for whole in re.findall(r'= codes "([^"]*)"(?: \+\+ decimal (\w+))?(?: \+\+ codes "([^"]*)")?\n', text):
        if "kind_text bad" not in text or whole[0] == "out of memory":
            yield whole[0] + ("N" if whole[1] else "") + whole[2]
    for front in re.findall(r'= codes "([^"]*)" \+\+ name\n', text):
        yield front + "N"


def printed():
    """The forms that all crates print, and those of the lines without a file."""
    found = set(WITHOUT_FILE)
    for path in sorted(TOP.glob("crates/*/specs/FaultText.antt")):
        found |= set(printed_by(path.read_text(encoding="utf-8")))
    return found


def status_of(form):
    """The status that comes with a form."""
    return WITHOUT_FILE.get(form) or ("3" if form == "the store failed" else "5" if LIMITS.match(form) else "1")


def class_faults():
    """What is wrong with the lists of classes, of which crates/cy_dag has the true one."""
    classes = re.findall(r'codes "(\w+Component)"', (TOP / "crates/cy_dag/specs/Classes.antt").read_text(encoding="utf-8"))
    for name, begin in (("refusals.txt", "| `UnknownClass"), ("advice.sh", "CLASSES=")):
        text = (TOP / "front" / name).read_text(encoding="utf-8").partition(begin)[2]
        text = text.partition(")" if name.endswith(".sh") else "\n")[0]
        if not classes or re.findall(r"\w+Component\b", text) != classes:
            yield f"front/{name} has other classes than crates/cy_dag"


def main():
    """Prints what is wrong, and answers the status."""
    rows = rows_of((TOP / "front" / "refusals.txt").read_text(encoding="utf-8"))
    page = (TOP / "docs" / "FORMATS.md").read_text(encoding="utf-8").partition(HEADING)[2].partition("\n## ")[0]
    faults = [f"not in docs/FORMATS.md: {row}" for row in rows if row not in rows_of(page)]
    faults += [f"only in docs/FORMATS.md: {row}" for row in rows_of(page) if row not in rows]
    known = {}
    for row in rows:
        form, status, *rest = [cell.strip() for cell in row.split("|")[1:-1]]
        known[plain(form.strip("`"))] = status
        if len(rest) != 3 or not rest[1] or not rest[2]:
            faults.append(f"a row that says too little: {row}")
    forms = printed()
    faults += [f"no row: {form}" for form in sorted(forms - known.keys())]
    faults += [f"nothing prints this: {form}" for form in sorted(known.keys() - forms)]
    faults += [f"status {status}, not {status_of(form)}: {form}" for form, status in known.items() if status != status_of(form)]
    faults += class_faults()
    for fault in faults:
        print(fault)
    print(f"{len(forms)} refusals, {len(rows)} rows, {len(faults)} faults")
    return 1 if faults or len(forms) < 50 else 0


sys.exit(main())
