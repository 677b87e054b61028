#!/usr/bin/env python3
"""Gives the program files that are damaged, or at limits, and looks that it answers each as docs/COMMANDS.md says, and takes little for it.

    hostile.py PROGRAM COUNT SEED [FIRST]

Each of COUNT cases has the files of a replay as replays.py makes them, of which one or two are changed by damage.py: the record, a
configuration file, or what a play wrote. They are given to the commands that read them. Of each run is looked at:

- it ends with status 0, 1, 3 or 5, which are all that files can bring about, and not by a signal; 3 only where a file is none. A queue takes
  its room before the first message, so 6 may come where the DAG file has a number of seven digits or more;
- its line or text stands on the stream where it belongs, in its form, and the other stream got nothing;
- no file is made or changed unless it is Done, and then only those that are written: a record and a trace of the numbers that the line has,
  which `verify` finds lawful, or a record with as many messages as the line says, which for `recover` is the one that parted.py makes;
- it takes at most a second of processor time, and at most 64 MB above what a run on a small record takes and the size of its files;
- made once more, it says and writes the same (one run in eight, and none on threads).

Prints what was run and what most was taken. Where a run isn't as it has to be, its files stay in a folder, which is printed with the case's
number; the case comes again with COUNT 1 and that number as FIRST. Ends with status 1 where there is such a run.

A process begins as large as the one that starts it, so what a run takes is seen from what Python takes on, about 20 MB.
"""
import glob
import os
import random
import re
import resource
import shutil
import signal
import sys
import tempfile
import time
from collections import Counter
from dataclasses import dataclass
from multiprocessing import Pipe, Process

HERE = os.path.dirname(os.path.abspath(__file__))
sys.path.insert(0, os.path.join(HERE, "..", "tools"))
from damage import spoiled_record, spoiled_text, spoiled_trace
from mutations import changed_record, read, write
from parted import recovered
from record import messages_of
from replays import CHANNELS, make_for, verify_words, without, write_files
from strict import Bad, read_trace

MB = 2**20
LONGEST_TIME = 1.0  # seconds of a processor
TRIES = 3  # of which the shortest counts: where the machine is a guest of another one, the time for which that stops it is counted too
LONGEST_WAIT = 60  # seconds of the clock
MOST_MEMORY = 64 * MB
ROOM = {False: 2**30, True: 2**34}  # bytes of addresses: a run that asks for more is told that there is no memory. Threads reserve much
MOST_FAULTS = 20
SUMMARY = rb"played (\d+), shadowed (\d+), calls (\d+), written (\d+)\n"
# By status the form of what is printed, beginning with a file's name in a refusal.
LINES = {
    1: re.compile(rb"cyber: (.+): (?!the store failed)[^\n]+\n", re.DOTALL),
    3: re.compile(rb"cyber: (.+): the store failed\n", re.DOTALL),
    5: re.compile(rb"cyber: (.+): (?:limit \w+ passed: \d+|line \d+ column \d+: TooDeep|at \d+: TooLong \d+)\n", re.DOTALL),
    6: re.compile(rb"cyber: (out of memory)\n"),
}
MEMORY = 6
LONG_QUEUE = re.compile(rb"[1-9a-fA-F][0-9a-fA-F]{6}")
TEXTS = {
    "play": re.compile(b"done: " + SUMMARY),
    "pass": re.compile(b"done: " + SUMMARY),
    "verify": re.compile(b"lawful: " + SUMMARY),
    "recover": re.compile(rb"done: messages (\d+), dropped \d+\n"),
    "split": re.compile(rb"done: messages (\d+) of \d+\n"),
    "merge": re.compile(rb"done: messages (\d+), records \d+\n"),
    "info": re.compile(rb"file in\.rec bytes \d+\nversion \d+\.\d+ complete (?:yes|no) compress 0\n(?:[^\n]+\n)+"),
    "check": re.compile(rb"(?:[^\n]+\n)*ok\n"),
}
WRITTEN = ("out.rec", "out.trace")
WRITES = {"play": WRITTEN, "pass": WRITTEN, "recover": WRITTEN[:1], "split": WRITTEN[:1], "merge": WRITTEN[:1]}
TOLD = {0: "Done", 1: "Refused", 3: "StoreFault", 5: "Limit", MEMORY: "Memory"}  # the statuses that files can bring about


@dataclass
class Run:
    """What came of a run: its status, negative where a signal ended it, both streams, and what it took in seconds and bytes."""

    words: list
    status: int
    out: bytes
    err: bytes
    seconds: float
    memory: int

    @property
    def is_done(self):
        return self.status == 0

    def answer(self):
        return self.status, self.out, self.err


def end_late(_, __):
    raise TimeoutError


def ended(child):
    """The status of a child and what it took; one that doesn't end is killed."""
    signal.alarm(LONGEST_WAIT)
    try:
        _, status, used = os.wait4(child, 0)
    except TimeoutError:
        os.kill(child, signal.SIGKILL)
        _, status, used = os.wait4(child, 0)
    signal.alarm(0)
    return os.waitstatus_to_exitcode(status), used


def taken(program, words, streams):
    """Runs the program itself, without its launcher, with both streams in files and with the signals as they are by default: its status,
    and what it took in seconds and bytes."""
    actions = [(os.POSIX_SPAWN_OPEN, 0, os.devnull, os.O_RDONLY, 0)]
    for number, path in enumerate(streams, 1):
        actions.append((os.POSIX_SPAWN_OPEN, number, path, os.O_WRONLY | os.O_CREAT | os.O_TRUNC, 0o600))
    is_threaded = words[0] == "play" and "--serial" not in words
    resource.setrlimit(resource.RLIMIT_AS, (ROOM[is_threaded], resource.RLIM_INFINITY))
    child = os.posix_spawn(program, [program, *words], os.environ, file_actions=actions, setsigdef=[signal.SIGPIPE, signal.SIGXFSZ])
    status, used = ended(child)
    return status, used.ru_utime + used.ru_stime, used.ru_maxrss * 1024


def serve(asked):
    """Runs what is asked for. A process begins as large as the one that starts it, so that one does nothing else, and stays small."""
    signal.signal(signal.SIGALRM, end_late)
    resource.setrlimit(resource.RLIMIT_CORE, (0, 0))
    while True:
        folder, *words = asked.recv()
        os.chdir(folder)
        asked.send(taken(*words))


def stamped():
    """All files of the folder, each with its size and a time of long ago, which a write would change."""
    found = {}
    with os.scandir(b".") as entries:
        for entry in entries:
            os.utime(entry.path, ns=(0, 0))
            found[entry.name] = entry.stat().st_size
    return found


def changed_since(before):
    """The names of the files that were made or changed since they were stamped, or are gone."""
    with os.scandir(b".") as entries:
        now = {entry.name: entry.stat() for entry in entries}
    return {name for name in before.keys() | now.keys() if name not in now or name not in before or now[name].st_mtime_ns != 0}


class Fault(Exception):
    """What is wrong with a run."""


def require(is_well, what):
    if not is_well:
        raise Fault(what)


def looks_as_promised(ran, changed):
    """Looks at the status, at both streams, and at the files that changed."""
    require(ran.status >= 0, f"signal {-ran.status}")
    require(ran.status in TOLD, f"status {ran.status}: {ran.err[:200]}")
    if ran.is_done:
        require(TEXTS[ran.words[0]].fullmatch(ran.out), f"standard output got {ran.out[:200]}")
        require(not ran.err, f"Done, and standard error got {ran.err[:200]}")
        must = {it.encode() for it in WRITES.get(ran.words[0], ())}
        require(changed == must, f"Done, and there changed {changed}")
        return
    require(ran.status != MEMORY or LONG_QUEUE.search(read("m.dag")), "there is no memory")
    found = LINES[ran.status].fullmatch(ran.err)
    require(found, f"status {ran.status}, and standard error got {ran.err[:200]}")
    require(not ran.out, f"status {ran.status}, and standard output got {ran.out[:200]}")
    require(not changed, f"status {ran.status}, and there changed {changed}")
    # A file's name stands as it was given, so a newline in a name that a DAG file has stands in the line.
    require(ran.err.count(b"\n") == 1 + found[1].count(b"\n"), f"standard error got {ran.err[:200]}")
    require(ran.status != 3 or not os.path.isfile(found[1]), f"a file that is there failed: {ran.err[:200]}")


def written_as_told(ran):
    """Looks that a reader of the tests' own finds in what was written the numbers that the line has."""
    played, shadowed, calls, written = map(int, TEXTS[ran.words[0]].fullmatch(ran.out).groups())
    try:
        messages, trace = messages_of(read("out.rec")), read_trace(read("out.trace"))
    except (Bad, ValueError) as error:
        raise Fault(f"what was written can't be read: {error!r}") from None
    told = trace.played, trace.shadowed, sum(len(it.calls) for it in trace.parts), len(trace.tape)
    require(told == (played, shadowed, calls, written), f"the trace tells of {told}, the line of {ran.out}")
    require(len(messages) == written, f"the record has {len(messages)} messages, and not {written}")
    require([it[0] for it in messages] == [channel for channel, _ in trace.tape], "the record has other channels than the tape")


def parted_as_told(ran):
    """Looks that a reader of the tests' own finds as many messages in what was recovered, split or merged as the line has."""
    count = int(TEXTS[ran.words[0]].fullmatch(ran.out)[1])
    try:
        messages = messages_of(read("out.rec"))
    except ValueError as error:
        raise Fault(f"what was written can't be read: {error!r}") from None
    require(len(messages) == count, f"the record has {len(messages)} messages, and not {count}")
    if ran.words[0] == "recover":
        record, line = recovered(read(ran.words[1]))
        require((read("out.rec"), ran.out) == (record, line.encode()), f"not what parted.py makes, which tells {line!r}")


class Suite:
    def __init__(self, program, folder):
        self.program, self.folder = program, folder
        self.runner, runner = Pipe()
        Process(target=serve, args=(runner,), daemon=True).start()
        self.streams = [os.path.join(folder, it) for it in ("stdout", "stderr")]
        self.counts, self.base = Counter(), 0
        self.seconds, self.memory = (0, ""), (0, "")

    def run(self, words):
        self.runner.send((os.getcwd(), self.program, words, self.streams))
        status, seconds, memory = self.runner.recv()
        return Run(words, status, *map(read, self.streams), seconds, memory)

    def measure_base(self):
        """What runs on a small record take, which others may take too."""
        words = write_files(random.Random("base"))
        self.base = max(self.run(it).memory for it in (["info", "in.rec"], play_words(words, ["--serial"])))

    def takes_little(self, ran, before):
        above = ran.memory - self.base - sum(before.values())
        self.seconds = max(self.seconds, (ran.seconds, " ".join(ran.words)))
        self.memory = max(self.memory, (above, " ".join(ran.words)))
        require(ran.seconds <= LONGEST_TIME, f"it took {ran.seconds:.2f} seconds")
        require(above <= MOST_MEMORY, f"it took {above / MB:.0f} MB above {self.base / MB:.0f} MB and its files")

    def looked_at(self, words):
        """Runs the program on the folder's files, and looks at all that is promised of it."""
        before = stamped()
        ran = self.run(words)
        looks_as_promised(ran, changed_since(before))
        for _ in range(TRIES - 1):
            if ran.seconds > LONGEST_TIME:
                ran.seconds = min(ran.seconds, self.run(words).seconds)
        if ran.is_done and words[0] in ("play", "pass"):
            written_as_told(ran)
        if ran.is_done and words[0] in ("recover", "split", "merge"):
            parted_as_told(ran)
        self.takes_little(ran, before)
        self.counts[words[0], ran.status] += 1
        return ran

    def same_again(self, ran):
        """Makes a run once more."""
        files = [read(it) for it in WRITTEN if os.path.exists(it)]
        again = self.looked_at(ran.words)
        require(again.answer() == ran.answer(), f"once more it answers {again.answer()}, and not {ran.answer()}")
        require(files == [read(it) for it in WRITTEN if os.path.exists(it)], "once more it writes other files")

    def try_words(self, words, chance):
        """Makes a run, and maybe a second one of the same words; of a play that ends well what it wrote is verified."""
        ran = self.looked_at(words)
        if chance.random() < 1 / 8 and (words[0] != "play" or "--serial" in words):
            self.same_again(ran)
        if ran.is_done and words[0] == "play":
            asked = ["verify", *without(words[1:], "--sched")]
            asked = [it for it in asked if it != "--serial"]
            verified = self.looked_at(asked)
            require(verified.out == ran.out.replace(b"done", b"lawful"), f"verify says {verified.answer()} of what was written")


def play_words(words, mode):
    return ["play", *mode, "--out", WRITTEN[0], "--trace", WRITTEN[1], *words]


def leave_old_files(chance):
    """In half of the cases there are older files where new ones are to be written."""
    for name in WRITTEN:
        if chance.random() < 0.5:
            write(name, b"old")


def plays(words, chance):
    """The words of a serial play, and of one in four on threads."""
    return [play_words(words, mode) for mode in [["--serial"], []][: 1 + (chance.random() < 0.25)]]


def a_record(words, chance, _):
    """The record that is played is damaged."""
    write("in.rec", spoiled_record(read("in.rec"), chance))
    leave_old_files(chance)
    passing = ["pass", "in.rec", *WRITTEN, *chance.sample(CHANNELS + ["/x"], 2)]
    parting = ["split", "in.rec", WRITTEN[0], chance.choice(["--channels", "--drop"]), ",".join(chance.sample(CHANNELS, 2))]
    merging = ["merge", ",".join(["in.rec"] * chance.randint(1, 3)), WRITTEN[0]]
    return [["info", "in.rec"], passing, ["recover", "in.rec", WRITTEN[0]], parting, merging, *plays(words, chance)]


def a_text(words, chance, _):
    """A DAG file, a component file or a scheduler file is damaged, or two are."""
    names = sorted(glob.glob("*.dag") + glob.glob("*.conf") + glob.glob("*.sched"))
    for _ in range(chance.choice([1, 1, 1, 2])):
        name = chance.choice(names + ["m.dag", *(it for it in names if it == "m.sched")])
        write(name, spoiled_text(read(name), chance))
    leave_old_files(chance)
    asked = ["check", "--dag", "m.dag"] + (["--sched", "m.sched"] if "m.sched" in names else [])
    return [asked, *plays(words, chance)]


def what_was_written(words, chance, suite):
    """The trace or the record of a play is damaged, or both are."""
    suite.looked_at(play_words(words, ["--serial"]))
    ways = chance.choice([(True, False), (True, False), (False, True), (True, True)])
    if ways[0]:
        write("out.trace", spoiled_trace(read("out.trace"), chance))
    if ways[1]:
        write("out.rec", chance.choice([changed_record, spoiled_record])(read("out.rec"), chance))
    return [["verify", *verify_words(words, *WRITTEN)]]


def wrong_files(words, chance, _):
    """A file stands where another one is asked for, or is a folder, or isn't there."""
    names = sorted(os.listdir("."))
    name, other = chance.choice(names), chance.choice(names)
    data = read(other)
    os.remove(name)
    way = chance.random()
    if way < 0.6:
        write(name, data)
    elif way < 0.8:
        os.mkdir(name)
    return [["info", "in.rec"], ["check", "--dag", "m.dag"], ["recover", "in.rec", WRITTEN[0]], *plays(words, chance)]


KINDS = [a_record, a_record, a_record, a_text, a_text, a_text, what_was_written, what_was_written, wrong_files]


def keep(number, folder):
    """A copy of the files as they are."""
    kept = tempfile.mkdtemp(prefix=f"hostile-{number}-")
    shutil.copytree(".", kept, dirs_exist_ok=True, symlinks=True)
    return kept


def try_case(suite, seed, number):
    """Makes the files of a case and gives them to the program. Answers what went wrong, or nothing."""
    folder = tempfile.mkdtemp(dir=suite.folder)
    os.chdir(folder)
    chance = random.Random(f"{seed} {number}")
    words, kind, asked = write_files(chance), chance.choice(KINDS), None
    try:
        for asked in kind(words, chance, suite):
            suite.try_words(asked, chance)
    except Fault as fault:
        return f"case {number} of seed {seed}, {kind.__name__}: {fault}: {' '.join(asked or words)} in {keep(number, folder)}"
    finally:
        os.chdir("/")
        shutil.rmtree(folder)
    return None


def report(suite, count, faults, seconds):
    commands, statuses = Counter(), Counter()
    for (command, status), number in suite.counts.items():
        commands[command] += number
        statuses[TOLD[status]] += number
    told = "; ".join(", ".join(f"{name} {number}" for name, number in it.most_common()) for it in (commands, statuses))
    print(f"{count} hostile cases, {sum(commands.values())} runs ({told}) in {seconds:.0f} s, {faults or 'none'} amiss")
    above, words = suite.memory
    print(f"a run on a small record takes {suite.base / MB:.1f} MB; at most {above / MB:.1f} MB above that and the files: {words}")
    print(f"at most {suite.seconds[0]:.3f} seconds of a processor: {suite.seconds[1]}")


def main():
    program, count, seed = os.path.abspath(sys.argv[1]), int(sys.argv[2]), int(sys.argv[3])
    make_for(program)
    first = int(sys.argv[4]) if len(sys.argv) > 4 else 0
    begun, faults = time.monotonic(), 0
    with tempfile.TemporaryDirectory() as folder:
        suite = Suite(program, folder)
        os.chdir(tempfile.mkdtemp(dir=folder))
        suite.measure_base()
        for number in range(first, first + count):
            wrong = try_case(suite, seed, number)
            if wrong:
                faults += 1
                print(wrong, flush=True)
            if faults == MOST_FAULTS:
                break
        os.chdir("/")
        report(suite, count, faults, time.monotonic() - begun)
    return min(faults, 1)


if __name__ == "__main__":
    sys.exit(main())
