"""Looks that each promise of docs/promises.txt names what is there, and that the tables of docs/PROMISES.md are made of it.

A promise is two lines: a sentence, and behind two spaces `CRATE | DEFINITIONS | CALLS | CLAUSES | MUTANTS`. A definition of another crate is
CRATE/NAME; so is a mutant. A mutant in brackets is one of tests/edits/, which the gate leaves out. In place of mutants a few words may
say why there are none, as `law`. Each mutant of the repository is named by some promise, and can still be applied.
Usage: python3 tests/promises.py [--write]. It prints what is missing, and ends with status 1 if something is. With --write it first writes
the tables into docs/PROMISES.md."""
import pathlib
import re
import sys

import edits_apply

TOP = pathlib.Path(__file__).resolve().parent.parent
CRATES = TOP / "crates"
LIST, PAGE = TOP / "docs" / "promises.txt", TOP / "docs" / "PROMISES.md"
BEGIN, END = "<!-- tables: tests/promises.py --write, of docs/promises.txt -->", "<!-- end -->"
COLUMNS = ("Crate", "Definition", "Call", "Clause", "Edit")


def rows_of(path):
    """The promises of the list, each a dictionary from a column's name to its text; `Part` is the heading that it is under."""
    found, part, sentence = [], "", ""
    for line in path.read_text(encoding="utf-8").splitlines():
        if line.startswith("= "):
            part = line[2:]
        elif line.startswith("  "):
            cells = [cell.strip() for cell in line.split("|")]
            found.append(dict(zip(COLUMNS, cells)) | {"Part": part, "Promise": sentence})
        elif line:
            sentence = line
    return found


def names_in(cell):
    """The names in a cell, between commas; `-` is none."""
    return [] if cell == "-" else [name.strip() for name in cell.split(",")]


def split_name(crate, name):
    """The crate of a name and the name itself: it may have its crate before it."""
    *other, name = name.split("/")
    return (other[0] if other else crate), name


def definition_file(crate, name):
    """The public file of the crate's definitions that has this one, below `specs/` and without its ending, or None."""
    form = rf"^ *(?:(?:abbrev|unfoldable) )?pub (?:(?:record|data) )?{name}\b"
    specs = CRATES / crate / "specs"
    paths = [path for path in sorted(specs.rglob("*.antt")) if "private" not in path.parts]
    return next((path.relative_to(specs).with_suffix("") for path in paths if re.search(form, path.read_text(encoding="utf-8"), re.M)), None)


def contracts_of(crate, call):
    """The contracts of the crate's functions of a call's name, as lines: those of `laws::` are in a file `laws.rt`."""
    name, found = call.split("::")[-1], []
    for path in sorted((CRATES / crate / "src").rglob("*.rt")):
        lines = path.read_text(encoding="utf-8").splitlines()
        for at, line in enumerate(lines):
            begin = re.match(rf"( *)(?:pub )?fn {name}\b", line)
            if begin and (not call.startswith("laws::") or path.name == "laws.rt"):
                ends = (k for k in range(at + 1, len(lines)) if re.match(rf"{begin[1]}(?:\{{|\}}|(?:pub )?fn )|\s*$", lines[k]))
                found.append(lines[at : next(ends, len(lines))])
    return found


def has_clause(contracts, clause):
    """Whether one of the contracts has a clause of this name."""
    form = clause if clause in ("ensures", "requires") else f"ensures {clause}"
    return any(re.match(rf"\s*{form}\b", line) for contract in contracts for line in contract)


def edits_in(row):
    """The mutants that a promise names, each a crate, a name and whether it is in brackets; none if the cell has words in place of them."""
    names = row["Edit"].split()
    if not all(re.fullmatch(r"\(?\w+(?:/\w+)?\)?", name) and "_" in name for name in names):
        return []
    return [(*split_name(row["Crate"], name.strip("()")), name.startswith("(")) for name in names]


def edits_there():
    """The mutants of the crates, each a crate, a name and whether the gate leaves it out."""
    tried = {(path.parent.parent.name, path.stem, False) for path in CRATES.glob("*/must-fail/*.edit")}
    return tried | {(path.parent.name, path.stem, True) for path in (TOP / "tests" / "edits").glob("*/*.edit")}


def faults_of(row):
    """What a promise names that is not there."""
    crate = row["Crate"]
    for name in names_in(row["Definition"]):
        if not definition_file(*split_name(crate, name)):
            yield f"no definition {name}"
    contracts = []
    for call in names_in(row["Call"]):
        of_call = contracts_of(crate, call)
        contracts += of_call
        if not of_call:
            yield f"no call {call}"
    for clause in names_in(row["Clause"]):
        if contracts and not has_clause(contracts, clause):
            yield f"no clause {clause}"


def quoted(names):
    """Names in backquotes, with commas between them."""
    return ", ".join(f"`{name}`" for name in names)


def definition_cell(row):
    """The definitions of a promise with their files; a file of another crate has that crate before it."""
    cells = []
    for name in names_in(row["Definition"]):
        crate, bare = split_name(row["Crate"], name)
        file = definition_file(crate, bare)
        cells.append(f"`{bare}` (`{file if crate == row['Crate'] else f'{crate}/specs/{file}'}`)")
    return ", ".join(cells)


def edit_cell(row):
    """The mutants of a promise in backquotes, or the words in place of them."""
    edits = edits_in(row)
    if not edits:
        return row["Edit"]
    names = [(f"{crate}/{name}" if crate != row["Crate"] else name, out) for crate, name, out in edits]
    return ", ".join(f"(`{name}`)" if out else f"`{name}`" for name, out in names)


def tables_of(rows):
    """The tables of the page, a heading and a table for each part."""
    lines, part = [], None
    for row in rows:
        if row["Part"] != part:
            part = row["Part"]
            lines += ["", f"### {part}", "", "| Promise | Crate | Definition | Call | Clause | Mutants |", "|---|---|---|---|---|---|"]
        cells = [row["Promise"], f"`{row['Crate']}`", definition_cell(row), quoted(names_in(row["Call"])), quoted(names_in(row["Clause"]))]
        lines.append("| " + " | ".join([*cells, edit_cell(row)]) + " |")
    return "\n".join([*lines[1:], ""])


def main():
    """Prints the faults of all promises, and answers the status."""
    rows = rows_of(LIST)
    named = {edit for row in rows for edit in edits_in(row)}
    faults = [f"{row['Crate']}: {row['Promise']}: {fault}" for row in rows for fault in faults_of(row)]
    faults += [f"{crate}: no edit {name}" for crate, name, _ in sorted(named - edits_there())]
    faults += [f"{crate}: no promise names the edit {name}, or not where it is" for crate, name, _ in sorted(edits_there() - named)]
    faults += edits_apply.faults_of(edits_apply.all_crates())
    before, rest = PAGE.read_text(encoding="utf-8").split(BEGIN)
    tables, after = rest.split(END)
    wanted = f"\n\n{tables_of(rows)}\n"
    if "--write" in sys.argv:
        PAGE.write_text(f"{before}{BEGIN}{wanted}{END}{after}", encoding="utf-8")
    elif tables != wanted:
        faults.append("the tables of docs/PROMISES.md are not of docs/promises.txt: run tests/promises.py --write")
    for fault in faults:
        print(fault)
    print(f"{len(rows)} promises, {len(faults)} faults")
    return 1 if faults or not rows else 0


sys.exit(main())
