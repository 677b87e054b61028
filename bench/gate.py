#!/usr/bin/env python3
"""Runs `rt ci` from nothing in a repository, and prints what each crate takes.

usage: gate.py REPOSITORY
A table in Markdown: for each crate its lines of code, definitions and proofs (without comments), the number of its must-fail edits, the processor minutes of
its proof, of the second proof that its edits begin with, of these and of its tests, and the most memory that a check took, in GB. Then the
lines of front/weights.txt: for each crate the processor seconds of its proof. The processes of the prover are looked at twice a second, so
the last half second of each is not counted.
"""
import os, resource, subprocess, sys, threading, time

TICKS = os.sysconf("SC_CLK_TCK")
PARTS = ("proof", "second", "edits", "tests")
PROOF = 4  # the place of the minutes of the proof in a row


def part_of(words, folder):
    """Says which part of the gate a process of the prover is, by its words and the folder that it runs in."""
    if "--test" in words:
        return "tests"
    if not os.path.basename(folder).startswith("rt-edit-"):
        return "proof"
    kept = words[words.index("--incremental") + 1] if "--incremental" in words else ""
    return "second" if os.path.basename(kept) == "seed" else "edits"


def look_at(process):
    """Reads of a process of the prover: its key, its crate, its part, its processor seconds and the most memory in kB; None of others."""
    with open(f"/proc/{process}/cmdline", "rb") as it:
        words = it.read().decode(errors="replace").split("\0")
    if not words[0].endswith("/rattle") or "--crate-name" not in words:
        return None
    with open(f"/proc/{process}/stat") as it:
        numbers = it.read().rsplit(")", 1)[1].split()
    with open(f"/proc/{process}/status") as it:
        most = next((int(line.split()[1]) for line in it if line.startswith("VmHWM")), 0)
    name = words[words.index("--crate-name") + 1]
    part = part_of(words, os.readlink(f"/proc/{process}/cwd"))
    return (process, numbers[19]), name, part, sum(map(int, numbers[11:15])) / TICKS, most


def watch(seen, is_over):
    """Keeps the last that was seen of each process of the prover, until the run is over."""
    while not is_over.wait(0.5):
        for process in filter(str.isdigit, os.listdir("/proc")):
            try:
                found = look_at(process)
            except (OSError, ValueError, IndexError):
                continue
            if found:
                seen[found[0]] = found[1:]


def lines_in(folder, ending):
    """Counts the lines of the files below a folder whose names end so, without empty lines and comments."""
    files = [f"{at}/{name}" for at, _, names in os.walk(folder) for name in names if name.endswith(ending)]
    lines = [line.strip() for it in files for line in open(it, encoding="utf-8")]
    return sum(1 for it in lines if it and not it.startswith(("//", "--")))


def row_of(crate, folder, seen):
    """Returns the numbers of a crate: lines of code, definitions and proofs, edits, minutes a part and together, and memory."""
    own = [it for it in seen.values() if it[0] == crate]
    minutes = [sum(it[2] for it in own if it[1] == part) / 60 for part in PARTS]
    edits = len([it for it in os.listdir(f"{folder}/must-fail") if it.endswith(".edit")]) if os.path.isdir(f"{folder}/must-fail") else 0
    lines = [lines_in(f"{folder}/{part}", ending) for part, ending in (("src", ".rt"), ("specs", ".antt"), ("proofs", ".antt"))]
    return [*lines, edits, *minutes, sum(minutes), max((it[3] for it in own), default=0) / 1048576]


def printed(name, row):
    """Returns a row of the table."""
    return f"| {name} | " + " | ".join([*(f"{it:,}" for it in row[:4]), *(f"{it:.1f}" for it in row[4:])]) + " |"


def gate_from_nothing():
    """Returns the words of a gate that takes nothing from earlier ones: where a kit keeps what passed, `--anew` has it begin from nothing."""
    said = subprocess.run(["rt", "help"], capture_output=True, text=True)
    return ["rt", "ci", "--anew"] if "--anew" in said.stdout + said.stderr else ["rt", "ci"]


def main(repository):
    os.chdir(repository)
    words = gate_from_nothing()
    seen, is_over, begun = {}, threading.Event(), time.monotonic()
    watcher = threading.Thread(target=watch, args=(seen, is_over))
    watcher.start()
    status = subprocess.run(words, stdout=sys.stderr).returncode
    is_over.set()
    watcher.join()
    used = resource.getrusage(resource.RUSAGE_CHILDREN)
    with open("crates.txt") as it:
        crates = [line.split(":")[0].split()[0] for line in it if line.strip() and not line.startswith("#")]
    rows = {it: row_of(it, f"crates/{it}", seen) for it in crates}
    print("| Crate | Code | Definitions | Proofs | Edits | Proof | Second proof | Edits tried | Tests | Together | GB |")
    print("|---|" + "---:|" * 10)
    for name, row in sorted(rows.items(), key=lambda it: -it[1][8]):
        print(printed(name, row))
    columns = list(zip(*rows.values()))
    print(printed("all", [*map(sum, columns[:-1]), max(columns[-1])]))
    print("\nLines of front/weights.txt:\n")
    for name, row in rows.items():
        print(f"{name} {round(row[PROOF] * 60)}")
    minutes = (used.ru_utime + used.ru_stime) / 60
    print(f"\n`{' '.join(words)}` ended with status {status} after {(time.monotonic() - begun) / 60:.0f} minutes and {minutes:.0f} processor minutes.")
    return status


if __name__ == "__main__":
    sys.exit(main(sys.argv[1]))
