#!/usr/bin/env python3
"""Checks some functions of a crate, though crates below it aren't proved yet.

usage: only.py CRATE PATH..

PATH is a function or a module of the crate, as `values::valued_config`. A crate below is taken as it was built, if `rt check` or `rt ci`
left it in crates/NAME/out/rlib here and it uses no other source; else it is read as source, and of its functions those are checked that
PATH calls. So begin with laws and with functions that call little. What was checked is kept in crates/CRATE/out/only. Ends with the status of
`rattle check`; it says nothing of the rest of the crate.
"""
import os
import shutil
import sys

TOP = os.path.dirname(os.path.dirname(os.path.abspath(__file__)))


def uses_of_crates():
    """Returns the crates of crates.txt, each with those that it uses."""
    with open(f"{TOP}/crates.txt", encoding="utf-8") as it:
        lines = [line.split("#")[0].strip() for line in it]
    return {line.split(":")[0].split()[0]: line.split(":")[1].split() for line in lines if line}


def below(uses, crate, found):
    """Adds the crates below one to a list, lowest first, those of the kit among them."""
    for name in uses.get(crate, []):
        below(uses, name, found)
        if name not in found:
            found.append(name)
    return found


def main():
    if len(sys.argv) < 3:
        sys.exit(__doc__)
    crate, paths, uses = sys.argv[1], sys.argv[2:], uses_of_crates()
    rattle = os.path.realpath(shutil.which("rattle") or f"{kit()}/bin/rattle")
    libraries, logic = f"{kit()}/rlibs", f"{kit()}/rattle/logic/antt-project.json"
    words = ["check", "--crate-name", crate, "src/lib.rt", "--extern", f"std={libraries}/std.rlib", "-L", f"dependency={libraries}"]
    sources = set()
    for name in below(uses, crate, []):
        built = f"{TOP}/crates/{name}/out/rlib/{name}.rlib"
        if name not in uses:
            words += ["--extern", f"{name}={libraries}/{name}.rlib"]
        elif os.path.isdir(built) and not sources.intersection(uses[name]):
            words += ["--extern", f"{name}={built}", "-L", f"dependency={os.path.dirname(built)}"]
        else:
            sources.add(name)
            words += ["--lib", f"{name}:{','.join(['std', *uses[name]])}={TOP}/crates/{name}/src/lib.rt"]
    os.chdir(f"{TOP}/crates/{crate}")
    os.makedirs("out/only", exist_ok=True)
    words += ["--antt-project", logic, "--logic-built", f"{kit()}/logic_built", "--incremental", "out/only"]
    print("read as source:", *(sorted(sources) or ["none"]), flush=True)
    os.execv(rattle, ["rattle", *words, *(word for path in paths for word in ("--only", path))])


def kit():
    """Returns the folder of the kit: that of the page that `rt doc` names."""
    return os.path.dirname(os.popen("rt doc").read().strip())


if __name__ == "__main__":
    main()
