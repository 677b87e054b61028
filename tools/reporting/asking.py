"""Asks the program about a replay, and makes the page of it."""
import shlex
import subprocess

from reporting.differences import compare
from reporting.fields import Describer
from reporting.page import render, write_page
from reporting.reading import parts_checked, parts_read, read_replay, ways_checked, ways_read
from reporting.view import OPTIONS, verdict_of, view_of
from wiring import program_here

SCRIPTS = ["tables.js", "timeline_run.js", "timeline_drawing.js", "timeline_marks.js", "timeline_hands.js"]


class Question:
    """A command of the program, which runs while files are read."""

    def __init__(self, program, command):
        self.text = " ".join(map(shlex.quote, ["cyber", *command]))
        self.process, self.fault = None, "it is neither built here nor installed, and --program names none"
        if program:
            try:
                self.process = subprocess.Popen(
                    [program, *command], stdin=subprocess.DEVNULL, stdout=subprocess.PIPE, stderr=subprocess.PIPE
                )
            except OSError as error:
                self.fault = f"{program}: {error.strerror}"

    def answer(self):
        """Its status, None where it couldn't be asked, and what it printed in bytes, or why it couldn't."""
        if self.process is None:
            return None, self.fault.encode("utf-8", "surrogateescape")
        out, err = self.process.communicate()
        return self.process.returncode, out if self.process.returncode == 0 else err

    def end(self):
        """Ends the command, where it still runs."""
        if self.process and self.process.poll() is None:
            self.process.kill()
            self.process.communicate()


def options_given(words, names):
    return [word for name in names if getattr(words, name) for word in (f"--{name}", getattr(words, name))]


def verify_command(words):
    """The words that verify the run."""
    return ["verify", *options_given(words, ("dag", "record", "out", "trace", *OPTIONS))]


def check_command(words):
    return ["check", *options_given(words, ("dag", "sched"))]


def wiring_of(words, question):
    """The components, the ways to values, and what `check` printed. Where it can't be asked or refuses, both are read from the DAG file."""
    status, printed = question.answer()
    wiring = {"status": status, "text": printed.decode("utf-8", "replace").strip(), "command": question.text}
    parts = parts_checked(printed) if status == 0 else []
    return (parts, ways_checked(printed), wiring) if parts else (parts_read(words.dag), ways_read(words.dag), wiring)


def make_page(words):
    """Writes the page of a replay, and gives its verdict. A ValueError or an OSError tells of files that make no replay."""
    program, describer = words.program or program_here(), Describer(words.types)
    verify, check = Question(program, verify_command(words)), Question(program, check_command(words))
    try:
        parts, ways, wiring = wiring_of(words, check)
        replay = read_replay(words.trace, words.out, parts, ways, describer, has_digests=bool(words.good))
        comparison = compare(replay, words.out, words.good) if words.good else None
        status, printed = verify.answer()
    finally:
        verify.end()
        check.end()
    verdict = verdict_of((status, printed.decode("utf-8", "replace").strip()), verify.text)
    view = view_of(replay, words, verdict, wiring, comparison)
    write_page(words.page, render("run.html", SCRIPTS, view))
    return verdict
