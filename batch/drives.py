"""The table of drives of a batch, the program's words for each, and the files that say what came of it."""
import csv
import functools
import json
import os
import re
import shlex
import subprocess
import sys
import time

TOOLS = os.path.join(os.path.dirname(os.path.abspath(__file__)), "..", "tools")
sys.path.insert(1, TOOLS)
from dag import read_entries

NAME = re.compile(r"[A-Za-z0-9][A-Za-z0-9._-]*")
COLUMNS = ["drive", "record", "dag", "sched", "channels", "drop", "begin", "end", "stop", "threads", "run", "types"]
OPTIONS = ["dag", "record", "sched", "channels", "drop", "begin", "end", "stop"]
ANSWERS, ANSWERED = "answers", "answered.dag"  # the folder of a drive's answers, and the DAG file in it that has them
LONGEST_LINE = 2000
COMPONENT_FILE = re.compile(rb"""config_file_path\s*:\s*["']([^"']+)["']""")


def read_table(path):
    """The drives of a table by their names, each a dictionary of the columns that it gives; a ValueError tells of a bad one.

    The table has a line of heads. `drive`, `record` and `dag` have to be given; `threads` is the number of processors that the
    scheduler file asks for, or 0 or nothing for a serial play. `run` has the commands of components of one's own; such a play is
    serial.
    """
    found = {}
    # Spreadsheets put a mark before the first head, which utf-8-sig leaves out.
    with open(path, newline="", encoding="utf-8-sig") as file:
        rows = csv.DictReader(file)
        strange = [it for it in rows.fieldnames or [] if it not in COLUMNS]
        if strange:
            raise ValueError(f"{path}: no such columns: {', '.join(map(repr, strange))}")
        for row in rows:
            drive = {key: (value or "").strip() for key, value in row.items() if key}
            name = drive.get("drive", "")
            if not NAME.fullmatch(name) or name in found or not drive.get("record") or not drive.get("dag"):
                raise ValueError(f"{path}: line {rows.line_num}: drive {name!r} has no name of its own, no record or no DAG file")
            if None in row or not re.fullmatch(r"[0-9]{0,4}", drive.get("threads", "")):
                raise ValueError(f"{path}: line {rows.line_num}: drive {name} has more cells than heads, or threads that are no number")
            fault = fault_of_commands(drive)
            if fault:
                raise ValueError(f"{path}: line {rows.line_num}: drive {name}: {fault}")
            found[name] = drive
    if not found:
        raise ValueError(f"{path}: no drives")
    return found


def fault_of_commands(drive):
    """What is wrong with the commands of a drive's own components, or None."""
    try:
        commands = commands_of(drive)
    except ValueError as error:
        return f"run is {drive['run']}: {error}"
    for it in commands:
        name, _, command = it.partition("=")
        if not name or not command.strip():
            return f"run has {it!r}, and not NAME='COMMAND'"
    if commands and int(drive.get("threads") or 0):
        return "a play that asks the components of run is serial, and threads has to be 0 or empty"
    return None


def drive_of(table, name):
    """The drive of a name in a table."""
    drives = read_table(table)
    if name not in drives:
        raise ValueError(f"{table}: no drive {name}")
    return drives[name]


def threads_of(drive):
    """How many processors a drive's play uses."""
    return max(int(drive.get("threads") or 0), 1)


def commands_of(drive):
    """The commands of a drive's own components, each NAME=COMMAND; in the table they are quoted as for a shell."""
    return shlex.split(drive.get("run") or "")


def options_of(drive, options, out, trace):
    """These options of a drive, where it has them, and the files that are written."""
    words = [word for option in options if drive.get(option) for word in (f"--{option}", drive[option])]
    return words + ["--out", out, "--trace", trace]


def words_of(drive, out, trace):
    """The words of the program for a drive."""
    words = ["play"] if int(drive.get("threads") or 0) else ["play", "--serial"]
    return words + options_of(drive, OPTIONS, out, trace)


def external_words_of(drive, folder, out, trace):
    """The words of tools/external.py for a drive with components of its own. Their answers are written into the drive's folder."""
    options = [f"--{it}={drive[it]}" for it in OPTIONS + ["types"] if drive.get(it)]
    files = ["--out", out, "--trace", trace, "--answers", os.path.join(folder, ANSWERS)]
    return options + files + [f"--run={it}" for it in commands_of(drive)]


def as_played(drive, folder):
    """The drive with the DAG file by which its run was made: with components of its own the one that has their answers."""
    return drive | {"dag": os.path.join(folder, ANSWERS, ANSWERED)} if commands_of(drive) else drive


def verify_words_of(drive, out, trace):
    """The words that verify what the program wrote of a drive, as it was played."""
    return ["verify"] + options_of(drive, [it for it in OPTIONS if it != "sched"], out, trace)


@functools.cache
def named_in(dag):
    """The component files that a DAG file names, and the records of answers that these name, by the names of their components."""
    if not os.path.isfile(dag):
        return [], {}
    with open(dag, "rb") as file:
        files = [os.fsdecode(it) for it in COMPONENT_FILE.findall(file.read())]
    try:
        return files, {os.fsdecode(it.name): os.fsdecode(it.answers_file) for it in read_entries(dag) if it.answers_file}
    except (OSError, TypeError, ValueError):
        return files, {}  # the play says what is wrong


def files_of(drive):
    """The files of a drive that are there: when one of them changes, or comes, the drive is played again.

    Of what `run` asks these are the files that its commands name; the answers of other components are files of the drive, too.
    """
    (files, answers), asked = named_in(drive["dag"]), [it.partition("=") for it in commands_of(drive)]
    files = [drive[it] for it in ("record", "dag", "sched") + ("types",) * bool(asked) if drive.get(it)] + files
    files += [path for name, path in answers.items() if name not in {it[0] for it in asked}]
    # Snakemake warns of names that begin with `./`.
    files += [os.path.normpath(word) for _, _, command in asked for word in words_in(command)]
    return [it for it in dict.fromkeys(files) if os.path.isfile(it)]


def words_in(command):
    """The words of a command; none where it isn't one, which the play says."""
    try:
        return shlex.split(command)
    except ValueError:
        return []


def run(command, log=None):
    """Runs a command: its status, its line, the seconds, the processor's seconds, and its most memory in bytes.

    The last two are also those of what it started. With `log` all that is printed goes into this file, and there is no line.
    """
    start, kept = time.monotonic(), b""
    with open(log or os.devnull, "wb") as file:
        printed = file if log else subprocess.PIPE
        with subprocess.Popen(command, stdin=subprocess.DEVNULL, stdout=printed, stderr=subprocess.STDOUT) as process:
            if process.stdout:
                kept = process.stdout.read(LONGEST_LINE)
                while process.stdout.read(1 << 20):
                    pass
            _, ended, used = os.wait4(process.pid, 0)
            process.returncode = os.waitstatus_to_exitcode(ended)
    return {
        "status": process.returncode,
        "line": kept.decode("utf-8", "replace").strip(),
        "seconds": round(time.monotonic() - start, 3),
        "processor": round(used.ru_utime + used.ru_stime, 3),
        "memory": used.ru_maxrss * 1024,
    }


def row_path(folder, name):
    """The file that says what came of a drive's play."""
    return os.path.join(folder, name, "row.json")


def judged_path(folder, name):
    """The file that says what came of its comparison and of the further command."""
    return os.path.join(folder, name, "judged.json")


def write_whole(path, content):
    """Writes a file of JSON in one piece: it is there whole, or not at all."""
    with open(f"{path}.new", "w", encoding="utf-8") as file:
        json.dump(content, file, indent=1)
    os.replace(f"{path}.new", path)


def read_object(path):
    """What a file of JSON has, or None where it isn't there or is no object."""
    try:
        with open(path, encoding="utf-8") as file:
            content = json.load(file)
    except (OSError, ValueError):
        return None
    return content if isinstance(content, dict) else None


def row_of(folder, name):
    """What came of a drive's play, or None where it isn't done."""
    row = read_object(row_path(folder, name))
    return row if row is not None and "status" in row else None


def judged_of(folder, name, row, good, verify):
    """What came of the comparison of this row with a good batch and of a further command, or None where that isn't done."""
    judged = read_object(judged_path(folder, name))
    return judged if judged is not None and [judged.get(it) for it in ("row", "good", "command")] == [row, good, verify] else None
