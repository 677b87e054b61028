#!/usr/bin/env python3
"""Refuses the built program each of its requests for memory in turn, and looks that each run ends with Memory, or Done where it did without.

usage: no_memory.py PROGRAM [MOST]
A row is a command over small files. It is run once to count its requests, and then once for each of them: the request alone is refused, or it
and all behind it. MOST bounds how many requests of a row are tried, spread evenly (all, if it isn't given). After Done the files and streams
are those of the first run. After Memory standard error has the line of Memory or a front of it, what was read is as it was, no other name is
there than the command's own, and each file that it writes is at a place where its writing may have stopped. A command that writes a record
alone never ends with Memory behind a whole record, since it takes the room for its line first. Needs a C compiler.
"""
import os, shutil, struct, subprocess, sys, tempfile

TOP = os.path.dirname(os.path.dirname(os.path.abspath(__file__)))
LINE = b"cyber: out of memory\n"
HEADER_END = 2064
DRIVE = ["--dag", "examples/drive/drive.dag", "--record", "examples/drive/drive.rec", "--end", "1700000000300000000"]
VALUES = ["--dag", "examples/values/values.dag", "--record", "examples/values/values.rec", "--end", "1700000000700000000"]
FILES = ["--out", "out.rec", "--trace", "out.trace"]
# What a row shows, its words, the records that it writes, and the other files that it writes.
ROWS = [
    ("pass", ["pass", "one.rec", "out.rec", "out.trace", "/in", "/out"], ["out.rec"], ["out.trace"]),
    ("make", ["make", "4", "m"], ["m.record", "m.out"],
     ["m.adder.conf", "m.band.conf", "m.last8.conf", "m.late.conf", "m.dag", "m.trace"]),
    ("serial play", ["play", "--serial", *DRIVE, *FILES], ["out.rec"], ["out.trace"]),
    ("play on threads", ["play", *DRIVE, *FILES], ["out.rec"], ["out.trace"]),
    ("check", ["check", "--dag", "examples/drive/drive.dag", "--sched", "examples/drive/drive.sched"], [], []),
    ("play by values", ["play", "--serial", *VALUES, *FILES], ["out.rec"], ["out.trace"]),
    ("check of values", ["check", *VALUES[:2]], [], []),
    ("info", ["info", "one.rec"], [], []),
    ("recover", ["recover", "one.rec", "out.rec"], ["out.rec"], []),
    ("split", ["split", "one.rec", "out.rec", "--channels", "/in,/none", "--drop", "/x"], ["out.rec"], []),
    ("merge", ["merge", "one.rec,one.rec", "out.rec"], ["out.rec"], []),
]
MADE = ("verify", ["verify", *DRIVE, *FILES], [], [])


def built_refuser(folder):
    """Compiles the library that refuses requests, and returns its path."""
    made = os.path.join(folder, "refuse_memory.so")
    subprocess.run(["cc", "-shared", "-fPIC", "-O1", "-o", made, os.path.join(TOP, "tests", "refuse_memory.c")], check=True)
    return made


def laid(folder, files):
    """Lays the files that the commands read into a folder."""
    shutil.copytree(os.path.join(TOP, "examples"), os.path.join(folder, "examples"))
    shutil.copyfile(os.path.join(TOP, "examples", "pass", "one.rec"), os.path.join(folder, "one.rec"))
    for name, data in files.items():
        with open(os.path.join(folder, name), "wb") as it:
            it.write(data)


def contents(folder):
    """Returns the bytes of each file below a folder, by its path there."""
    found = {}
    for at, _, names in os.walk(folder):
        for name in names:
            path = os.path.join(at, name)
            with open(path, "rb") as it:
                found[os.path.relpath(path, folder)] = it.read()
    return found


def run(program, refuser, words, files, at, all_behind):
    """Runs the program in a new folder; returns its status, both streams, the files before and after, and the number of requests."""
    with tempfile.TemporaryDirectory() as room:
        folder, count = os.path.join(room, "files"), os.path.join(room, "count")
        os.mkdir(folder)
        laid(folder, files)
        with open(count, "wb") as it:
            it.write(bytes(8))
        before = contents(folder)
        told = {"LD_PRELOAD": refuser, "REFUSE_AT": str(at), "REFUSE_COUNT": count, **({"REFUSE_ALL": "1"} if all_behind else {})}
        ran = subprocess.run([program, *words], cwd=folder, env=told, stdin=subprocess.DEVNULL, capture_output=True, timeout=60)
        with open(count, "rb") as it:
            (requests,) = struct.unpack("<q", it.read())
        return ran.returncode, ran.stdout, ran.stderr, before, contents(folder), requests


def is_record_so_far(found, whole):
    """Whether a record's file is as far as its writing had come: without sections from its end on, and with the header of either kind."""
    if found in (b"", whole):
        return True
    return len(found) >= HEADER_END and whole[HEADER_END:].startswith(found[HEADER_END:])


def amiss(row, good, ran):
    """Says what is wrong with a run, or None."""
    _, _, records, others = row
    status, out, err, before, after, _ = ran
    if status == 0:
        same = (out, err, after) == (good[1], good[2], good[4]) if row[0] != "play on threads" else out[:5] == good[1][:5]
        return None if same else "ended Done, but not as with memory"
    if status != 6:
        return f"ended with status {status} and {err[:80]!r}"
    if not LINE.startswith(err) or not good[1].startswith(out):
        return f"told {out[:80]!r} and {err[:80]!r}"
    for name, data in before.items():
        if name not in (*records, *others) and after.get(name) != data:
            return f"changed {name}"
    for name, data in after.items():
        if name in before and name not in (*records, *others):
            continue
        if name in records:
            if row[0] != "play on threads" and not is_record_so_far(data, good[4][name]):
                return f"left {name} as no writing of it stops"
            if len(records) == 1 and not others and data == good[4][name]:
                return f"had no memory left behind {name}, which is whole"
        elif name not in others:
            return f"made {name}"
        elif row[0] != "play on threads" and data not in (b"", good[4][name]):
            return f"left a part of {name}"
    return None


def numbers(count, most):
    """The numbers of the requests that are tried."""
    if most is None or count <= most:
        return range(1, count + 1)
    return sorted({1 + k * (count - 1) // (most - 1) for k in range(most)})


def tried(program, refuser, row, files, most):
    """Tries a row, and returns how many runs it had, how many ended with Memory, and what was amiss."""
    good = run(program, refuser, row[1], files, 0, False)
    if good[0] != 0:
        return 1, 0, [f"{row[0]}: with memory it ended with status {good[0]}"], good
    runs, starved, faults = 0, 0, []
    for at in numbers(good[5], most):
        for all_behind in (False, True):
            ran = run(program, refuser, row[1], files, at, all_behind)
            why = amiss(row, good, ran)
            runs, starved = runs + 1, starved + (ran[0] == 6)
            if why:
                faults.append(f"{row[0]}: without request {at}{' and all behind it' if all_behind else ''} it {why}")
    return runs, starved, faults, good


def main(program, most=None):
    program, most = os.path.abspath(program), most and int(most)
    if not shutil.which("cc"):
        print("skipped: there is no cc")
        return 0
    faults, files = [], {}
    with tempfile.TemporaryDirectory() as folder:
        refuser = built_refuser(folder)
        for row in [*ROWS, MADE]:
            runs, starved, found, good = tried(program, refuser, row, files if row is MADE else {}, most)
            faults += found
            if row[0] == "serial play":
                files = {name: good[4][name] for name in ("out.rec", "out.trace")}
            print(f"{row[0]}: {good[5]} requests, {runs} runs, of which {starved} ended with Memory, {len(found)} amiss")
    for it in faults[:20]:
        print(f"FAILED: {it}")
    return 1 if faults else 0


if __name__ == "__main__":
    sys.exit(main(*sys.argv[1:]))
