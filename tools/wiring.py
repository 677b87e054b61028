"""Which channels the components of a trace read and write: as `cyber check` prints it, or as far as a run itself shows it."""
import os
import re
import shutil
import subprocess

from trace import QUOTED, unquoted

BUILT = os.path.join(os.path.dirname(os.path.abspath(__file__)), "..", "crates", "cyber", "out", "cyber")

COMPONENT = re.compile(
    rb'component (?P<name>"(?:[^"\\]|\\.)*") class \S+ reads (?P<reads>"(?:[^"\\]|\\.)*"(?: "(?:[^"\\]|\\.)*")*)'
    rb' queue \d+ writes (?P<writes>"(?:[^"\\]|\\.)*")'
)
TIMER = re.compile(rb'timer (?P<name>"(?:[^"\\]|\\.)*") class \S+ every \d+ ms writes (?P<writes>"(?:[^"\\]|\\.)*")')


def reads_of(match):
    """The channels that the component of a line reads: of a timer component the one of its ticks."""
    if match.re is TIMER:
        return ["@timer/" + unquoted(match["name"][1:-1])]
    return [unquoted(text) for text in QUOTED.findall(match["reads"])]


def wiring_in(lines, path):
    """By the name of each component in the lines of `check`: the list of the channels that it reads, and the one that it writes."""
    found = [match for line in lines if (match := COMPONENT.match(line) or TIMER.match(line))]
    if not found:
        raise ValueError(f"{path}: no component; this has to be what `cyber check` prints")
    return {unquoted(it["name"][1:-1]): (reads_of(it), unquoted(it["writes"][1:-1])) for it in found}


def read_wiring(path):
    """The wiring in a file that has what `check` printed."""
    with open(path, "rb") as file:
        return wiring_in(file, path)


def program_here():
    """The program that is built here, or else the one that is installed, or None.

    The launcher `cyber` of the repository isn't called, since it would build a program that is missing, which takes half an hour.
    """
    return BUILT if os.access(BUILT, os.X_OK) else shutil.which("cyber")


def find_program(program=None):
    """The program that is named, or else the one that is here. A ValueError tells where there is none."""
    program = program_here() if program is None else program
    if program is None:
        raise ValueError("no program is built here, and none is installed: name one by --program, or a file with what `check` prints by --wiring")
    return program


def check_wiring(dag, program=None):
    """The wiring of a DAG file, by `check` of the program. Its component files are found from the current folder, as by `play`."""
    command = [find_program(program), "check", "--dag", dag]
    done = subprocess.run(command, stdin=subprocess.DEVNULL, capture_output=True, check=False)
    if done.returncode != 0:
        said = done.stderr.decode("utf-8", "replace").strip().splitlines()
        raise ValueError(f"`{' '.join(command)}` ended with status {done.returncode}{': ' + said[0] if said else ''}")
    return wiring_in(done.stdout.splitlines(), f"`{' '.join(command)}`")


class Deduction:
    """Finds the channels that fit the calls of a component: by counts, times and values, and since causes stand first on the tape."""

    def __init__(self, trace, times, values):
        """`times` has, by channel, the times of its messages in their order, and `values` the whole numbers of the first ones."""
        self.trace, self.times, self.values = trace, times, values
        self.places = {channel: [] for channel in times}
        for place, number in enumerate(trace.tape_channels):
            self.places[trace.channels[number]].append(place)

    def writes(self, component, channel):
        """Whether the messages of a channel may be the outputs of a component: as many, with the same times and values."""
        calls = [call for call, output in enumerate(component.outputs) if output]
        if not calls or [component.times[call] for call in calls] != list(self.times[channel]):
            return False
        values = [component.values[call] if component.valued[call] else None for call in calls[: len(self.values[channel])]]
        return values == self.values[channel]

    def reads(self, component, role, channel, out):
        """Whether a reader of a component that writes `out` may have been filled with a channel."""
        times, width, places = self.times[channel], component.width, self.places[channel]
        if channel == out or component.roles.count(b"%d" % role) != len(times):
            return False
        made = self.places.get(out, [])
        for call, sequence in enumerate(component.sequences[role::width] if width else []):
            output = component.outputs[call]
            if sequence > len(times) or (output and role == 0 and times[sequence - 1] > component.times[call]):
                return False
            if output and made and places[sequence - 1] > made[output - 1]:
                return False
        return True

    def fits(self, component):
        """Each channel that a component may write, with the channels that each of its readers may then read."""
        found = []
        for out in [it for it in self.times if self.writes(component, it)] or [None]:
            readers = [[it for it in self.times if self.reads(component, role, it, out)] for role in range(component.readers)]
            if all(readers):
                found.append((out, readers))
        return found

    def wiring(self):
        """As `read_wiring`; a channel is None where none or more than one fits. And the names of the components with such a one."""
        found, doubts = {}, []
        for it in self.trace.components:
            fits = self.fits(it)
            out, readers = fits[0] if len(fits) == 1 else (None, [[]] * it.readers)
            found[it.name] = ([channels[0] if len(channels) == 1 else None for channels in readers], out)
            if it.width and (out is None and any(it.outputs) or None in found[it.name][0]):
                doubts.append(it.name)
        return found, doubts
