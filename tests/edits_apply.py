"""Looks that each edit can be applied, in the files of its crate as they are: those of crates/CRATE/must-fail/, and those of tests/edits/CRATE/.
Usage: python3 tests/edits_apply.py [CRATE..]; without a crate it looks at all. It prints what can't be, and ends with status 1 where something
can't. An edit names a file, and has pairs of lines `old:` and `new:`; each old text has to be in that file exactly once."""
import pathlib
import sys

TOP = pathlib.Path(__file__).resolve().parent.parent


def edits_of(crate, top=TOP):
    """The edits of a crate, in their order."""
    return sorted((top / "crates" / crate / "must-fail").glob("*.edit")) + sorted((top / "tests" / "edits" / crate).glob("*.edit"))


def apply(edit, folder):
    """Applies an edit to texts in memory; a ValueError says why it can't be applied to the crate in a folder."""
    name, old, texts, is_changed = None, None, {}, False
    for line in edit.read_text(encoding="utf-8").splitlines():
        word, _, rest = line.partition(":")
        rest = rest.removeprefix(" ")
        if word == "file":
            name = rest.strip()
        elif word == "old":
            old = rest
        elif word == "new":
            if not name or not old:
                raise ValueError("a line new: before a line file: or old:")
            if name not in texts:
                texts[name] = (folder / name).read_text(encoding="utf-8")
            if (count := texts[name].count(old)) != 1:
                raise ValueError(f"{name} has {count} times the text {old.strip()}")
            is_changed = is_changed or old != rest
            texts[name], old = texts[name].replace(old, rest), None
    if old or not is_changed:
        raise ValueError("it changes nothing" if not old else "a line old: without a line new:")


def faults_of(crates, top=TOP):
    """What is wrong with the edits of these crates."""
    for crate in crates:
        for edit in edits_of(crate, top):
            try:
                apply(edit, top / "crates" / crate)
            except (OSError, ValueError) as error:
                yield f"{crate}: the edit {edit.stem} can't be applied: {error}"


def all_crates(top=TOP):
    """The crates that have edits."""
    tried = {path.parent.name for path in (top / "crates").glob("*/must-fail")}
    return sorted(tried | {path.name for path in (top / "tests" / "edits").glob("*")})


def main():
    """Prints the faults, and answers the status."""
    faults = list(faults_of(sys.argv[1:] or all_crates()))
    for fault in faults:
        print(fault)
    return 1 if faults else 0


if __name__ == "__main__":
    sys.exit(main())
