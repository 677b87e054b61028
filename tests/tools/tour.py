#!/usr/bin/env python3
"""Types the lines of examples/README.md, and looks that each prints what the page says.

    tour.py PAGE FOLDER COMMAND...

The lines of PAGE that call `./cyber` are run in FOLDER, with COMMAND in place of `./cyber`, and so are those of `sed` and `head` that write a
file; a backslash continues a line. What a line of `./cyber` prints has to stand on the page: one line in backquotes, more of them indented. A line
on standard error goes with a status other than 0; what the front explains below it doesn't have to stand on the page. Of a play on threads the numbers of calls and of written messages may be others, but
`verify` prints those of the play before it. Ends with status 1 at the first line that fails.
"""
import re
import shlex
import subprocess
import sys

COUNTS = re.compile(r"calls \d+, written \d+")


def is_told(text, page):
    """Whether what a line printed stands on a page."""
    lines = text.splitlines()
    return "".join(f"    {line}\n" for line in lines) in page or len(lines) == 1 and f"`{lines[0]}`" in page


def fault_of(call, done, played, page):
    """What is wrong with what a line printed, or None; `played` is what the play before it printed."""
    printed = done.stdout + done.stderr.partition("\n")[0]
    if not printed or (done.returncode != 0) != bool(done.stderr):
        return "a status without its line"
    if call.startswith("verify") and done.returncode == 0 and printed != played.replace("done: ", "lawful: "):
        return f"not the numbers of the play: {played}"
    if call.startswith("verify") or call.startswith("play") and "--serial" not in call:
        printed, page = (COUNTS.sub("calls, written", it) for it in (printed, page))
    return None if is_told(printed, page) else "not what the page says"


def main():
    page, folder, *command = sys.argv[1:]
    with open(page, encoding="utf-8") as file:
        text = file.read().replace("\\\n", "")
    lines, played, count = re.findall(r"^    (\./cyber .*|(?:sed|head) .*>.*)$", text, re.M), "", 0
    for line in lines:
        if not line.startswith("./cyber"):
            subprocess.run(line, shell=True, cwd=folder, check=True)
            continue
        call, count = line.removeprefix("./cyber "), count + 1
        done = subprocess.run(command + shlex.split(call), cwd=folder, env={}, capture_output=True, text=True, check=False)
        fault = fault_of(call, done, played, text)
        if fault:
            print(f"tour: {call}: {fault}: status {done.returncode}: {done.stdout[:300]}{done.stderr[:300]}")
            return 1
        played = done.stdout if done.stdout.startswith("done: ") else played
    print(f"{count} lines typed")
    return 0 if count >= 6 else 1


sys.exit(main())
