"""Looks that each named refusal of the public calls is met by a test, with ample memory.

A refusal is a variant of what a public call answers as its error, or of an enum that stands in it; but for `Memory`, and for a variant
that hands on another error. tests/refusals.txt has a row for each, `CRATE ENUM VARIANT: TEST`. TEST is a test of tests/units/, as
`files::wire::reading::places_each_fault`, or a function of tests/program.sh, as `program.sh::refuses_files`; it has to name the variant
or its printed line.
Usage: python3 tests/refusals.py. It prints what is missing, and ends with status 1 where something is."""
import pathlib
import re
import sys

TOP = pathlib.Path(__file__).resolve().parent.parent
UNITS = TOP / "tests" / "units"
# The test of the program, and the parts that it reads.
PROGRAM = [TOP / "tests" / "program.sh", *sorted((TOP / "tests" / "program").glob("*.sh"))]
# How a call of the program ends is not the error of a `Result`.
STATUSES = ("cy_commands", "Status")
NO_REFUSALS = ("Memory", "Done")
# A printed line with fewer letters of its own says too little.
LETTERS = 5


def without_comments(text):
    """A text of Rust without the lines that are comments."""
    return re.sub(r"^ *//.*\n", "", text, flags=re.MULTILINE)


def types_of(crate):
    """The public types that a crate gives, each with its text, and the names of those that its calls answer as errors."""
    sources = [without_comments(path.read_text(encoding="utf-8")) for path in sorted((crate / "src").rglob("*.rt"))]
    lib = (crate / "src" / "lib.rt").read_text(encoding="utf-8")
    given = set(re.findall(r"\w+", " ".join(re.findall(r"^pub use [^;]+;", lib, re.MULTILINE))))
    form = r"^pub (?:enum|struct) (\w+)[^{;\n]*(\{\n.*?^\}|;)"
    types = {name: text for source in sources for name, text in re.findall(form, source, re.MULTILINE | re.DOTALL) if name in given}
    answered = {name for source in sources for name in re.findall(r"-> Result<.*, (\w+)>", source)}
    answered |= {name for name in types if name.endswith(("Error", "Fault", "Refusal"))}
    return types, answered | ({STATUSES[1]} if crate.name == STATUSES[0] else set())


def errors_of(crate):
    """The types that the crate's public calls answer as errors, and those that stand in them."""
    types, answered = types_of(crate)
    found, opened = {}, [name for name in answered if name in types]
    while opened:
        name = opened.pop()
        if name not in found:
            found[name] = types[name]
            opened += [held for held in re.findall(r"(?:: |\(|<)(\w+)", types[name]) if held in types]
    return found


def variants_of(name, text):
    """The variants of a type, each with its printed line and the one type that it holds; a type without a body is its own."""
    if text == ";":
        return [("", name, "")]
    form = r"(?:^    #\[error\(\"(.*)\"\)\]\n)?^    ([A-Z]\w*)(?:\((\w+)\))?(?:,| \{)"
    return re.findall(form, text, re.MULTILINE)


def refusals():
    """The refusals: from a crate, an enum and a variant to the printed line."""
    errors = {crate.name: errors_of(crate) for crate in sorted((TOP / "crates").iterdir()) if (crate / "src" / "lib.rt").exists()}
    names = {name for types in errors.values() for name in types}
    return {
        (crate, name, variant): line
        for crate, types in errors.items()
        for name, text in types.items()
        for line, variant, held in variants_of(name, text)
        if variant not in NO_REFUSALS and held not in names
    }


def rows():
    """The rows of the table: from a crate, an enum and a variant to the tests."""
    found = {}
    for line in (TOP / "tests" / "refusals.txt").read_text(encoding="utf-8").splitlines():
        if line and not line.startswith("#"):
            refusal, _, test = line.partition(": ")
            found.setdefault(tuple(refusal.split()), []).append(test)
    return found


def items_of(source):
    """The functions and constants of a text of Rust, by their names, and which of them are constants."""
    functions = re.findall(r"^(?:pub(?:\(crate\))? )?fn (\w+)(.*?^\})", source, re.MULTILINE | re.DOTALL)
    constants = re.findall(r"^(?:pub(?:\(crate\))? )?const (\w+)(.*?;)$", source, re.MULTILINE | re.DOTALL)
    return dict(functions + constants), {name for name, _ in constants}


def texts_of_unit(path, test, names_another):
    """The texts of a test and of what it uses in its file; but for functions that name another refusal, which tell it from others."""
    items, constants = items_of(without_comments(path.read_text(encoding="utf-8")))
    used, opened = set(), [test] if test in items else []
    while opened:
        name = opened.pop()
        if name not in used:
            used.add(name)
            opened += [word for word in re.findall(r"\w+", items[name]) if word in items]
    return [items[name] for name in used if name == test or name in constants or not names_another(items[name])]


def texts_of_program(test):
    """The texts of a function of tests/program.sh and of the commands that call it."""
    source = "".join(path.read_text(encoding="utf-8") for path in PROGRAM)
    source = re.sub(r"^ *#.*\n", "", source, flags=re.MULTILINE).replace("\\\n", " ")
    body = re.findall(rf"^{test}\(\) \{{.*?^\}}", source, re.MULTILINE | re.DOTALL)
    return body and body + re.findall(rf"^ *{test}(?: .*)?$", source, re.MULTILINE)


def is_printed(line, text):
    """Whether a text has the printed line of a refusal, with anything in the place of its values."""
    parts = re.split(r"\{[^}]*\}", line)
    return len(re.findall(r"\w", "".join(parts))) >= LETTERS and re.search(".+".join(map(re.escape, parts)), text) is not None


def names_in_rust(text, name, variant, line):
    """Whether a text of Rust names a refusal, by itself or in a string."""
    strings = re.findall(r"\"((?:[^\"\\]|\\.)*)\"", text, re.DOTALL)
    whole = rf"\b{variant}\b" if name == variant else rf"\b{name}::{variant}\b"
    return re.search(whole, text) is not None or any(re.search(rf"\b{variant}\b", it) or is_printed(line, it) for it in strings)


def fault_of(refusal, line, test, others):
    """What is wrong with the test that a row names for a refusal, or None."""
    _, name, variant = refusal
    *place, function = test.split("::")
    if place == [PROGRAM[0].name]:
        texts = texts_of_program(function)
        is_met = any(re.search(rf"\b{variant}\b", text) or is_printed(line, text) for text in texts)
    else:
        path = UNITS.joinpath(*place).with_suffix(".rs")
        is_there = path.exists() and re.search(rf"#\[test\]\nfn {function}\b", path.read_text(encoding="utf-8"))
        texts = texts_of_unit(path, function, lambda text: any(f"{name}::{it}" in text for it in others)) if is_there else []
        is_met = any(names_in_rust(text, name, variant, line) for text in texts)
    if not texts:
        return f"no test {test}"
    return None if is_met else f"{test} does not name it"


def main():
    """Tells of each refusal without a row, each row without a refusal and each test that is missing, and answers the status."""
    named, table = refusals(), rows()
    faults = [f"{' '.join(refusal)}: no row" for refusal in named if refusal not in table]
    faults += [f"{' '.join(refusal)}: no such refusal" for refusal in table if refusal not in named]
    for refusal in named.keys() & table.keys():
        others = [it[2] for it in named if it[:2] == refusal[:2] and it != refusal]
        found = [fault_of(refusal, named[refusal], test, others) for test in table[refusal]]
        faults += [f"{' '.join(refusal)}: {fault}" for fault in found if fault]
    for fault in sorted(faults):
        print(fault)
    tests = {test for found in table.values() for test in found}
    print(f"{len(named)} refusals, {len(tests)} tests, {len(faults)} faults")
    return 1 if faults or not named else 0


sys.exit(main())
