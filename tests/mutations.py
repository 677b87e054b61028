#!/usr/bin/env python3
"""Changes traces and records of random plays, and compares what `verify` says of each with what judge.py says.

    mutations.py PROGRAM COUNT SEED

Each of COUNT plays is made as replays.py makes them. It is played by PROGRAM, serially and on threads, and by any_run.py, as threads and
freely; and of one of these a fifth lawful run is made by one change after another that leaves it lawful. Each is verified as it is, and
with a file or a word changed in many ways, of which some leave it lawful. The status and the line have to be those of the judge. Prints how many were compared, and ends with status 1 at the first that differs, whose files stay
in a folder.
"""
import glob
import os
import random
import re
import shutil
import subprocess
import sys
import tempfile
from collections import Counter

HERE = os.path.dirname(os.path.abspath(__file__))
sys.path.insert(0, os.path.join(HERE, "..", "tools"))
from judge import judge, record_of, task_of
from judging import Told, first_fault
from playlist import Filter, names_of, stop_of
from record import content_of, forms_of, messages_of, record
from replays import make_for, verify_words, without, write_files
from strict import Bad, read_trace

TRACES, RECORDS, STEPS = 14, 3, 150  # how many changed ones there are of each run, and how many changes are tried in turn


def beginning(lines, *words):
    """The numbers of the lines that begin with one of these words."""
    return [k for k, line in enumerate(lines) if line.startswith(words)]


def picked(lines, chance, *words):
    """The number of a line that begins with one of these words, or None."""
    found = beginning(lines, *words)
    return chance.choice(found) if found else None


def moved(lines, chance, at, least, most):
    """The line at a place moved to another one in a range."""
    line = lines.pop(at)
    lines.insert(chance.randint(least, max(least, most - 1)), line)


def near(number, chance):
    """Another number that isn't far off, and seldom one that is."""
    return chance.choice([number + 1, number - 1, number + 1, number - 1, number + 2, 0, 1, 2**32 - 1, 2**64 - 1])


def change_number(lines, chance, at, pattern):
    """One of the numbers of a line that a pattern finds, in its group, is changed."""
    found = list(re.finditer(pattern, lines[at]))
    if found:
        begin, end = chance.choice(found).span(1)
        lines[at] = lines[at][:begin] + b"%d" % near(int(lines[at][begin:end]), chance) + lines[at][end:]


def on_line(word, pattern):
    """A change of a number on a line that begins with a word."""
    def change(lines, chance):
        at = picked(lines, chance, word)
        if at is not None:
            change_number(lines, chance, at, pattern)

    return change


def part_of(lines, at):
    """Where the calls of the component begin and end that has a line."""
    begin = max(k for k in beginning(lines, b"roles") if k <= at) + 1
    return begin, min(k for k in beginning(lines, b"end") if k >= begin)


def move_call(lines, chance):
    at = picked(lines, chance, b"call")
    if at is not None:
        moved(lines, chance, at, *(part_of(lines, at) if chance.random() < 0.7 else (2, len(lines))))


def raise_tails(lines, chance):
    """The tail of a call, and of those behind it that have less, is raised or lowered."""
    at = picked(lines, chance, b"call")
    if at is None:
        return
    tail = max(0, int(lines[at].split()[1].split(b"/")[1]) + chance.choice([-2, -1, 1, 2, 5]))
    for k in range(at, part_of(lines, at)[1]):
        position, old = lines[k].split()[1].split(b"/")
        if k == at or int(old) < tail:
            lines[k] = lines[k].replace(b"%s/%s " % (position, old), b"%s/%d " % (position, tail), 1)


def drop_last_call(lines, chance):
    """A component's last call is left out, with what follows from that but for the tape."""
    at = picked(lines, chance, b"end")
    if at is not None and lines[at - 1].startswith(b"call"):
        before = lines[at - 2].split() if lines[at - 2].startswith(b"call") else [b"", b"-1/0"]
        lines[at] = b"%s next %d" % (lines[at].rsplit(b" ", 2)[0], int(before[1].split(b"/")[0]) + 1)
        del lines[at - 1]


def change_value(lines, chance):
    at = picked(lines, chance, b"call")
    if at is None:
        return
    head, _, value = lines[at].partition(b"=")
    if value and chance.random() < 0.2:
        lines[at] = head
    elif b"@" in head:
        lines[at] = head + b"=%d" % chance.choice([int(value or 0) + 1, int(value or 0) - 1, 0, -(2**63), 2**63])


def change_output(lines, chance):
    at = picked(lines, chance, b"call")
    if at is not None:
        lines[at] = lines[at].rsplit(b" ", 1)[0] + chance.choice([b" -", b" 1@1=1", b" 1@100"])


def swap(lines, chance):
    """Two lines of the tape change their places, mostly neighbours."""
    tape = beginning(lines, b"tape")
    if len(tape) > 1:
        one = chance.choice(tape[:-1])
        other = one + 1 if chance.random() < 0.6 else chance.choice(tape)
        lines[one], lines[other] = lines[other], lines[one]


def move_output(lines, chance):
    """An output's line of the tape is moved, mostly to an earlier place."""
    tape = beginning(lines, b"tape")
    at = picked(lines, chance, b'tape "/o')
    if at is not None:
        least, most = chance.choice([(tape[0], at), (max(tape[0], at - 3), at), (tape[0], tape[-1] + 1)])
        moved(lines, chance, at, least, most)


def move_tape(lines, chance):
    at = picked(lines, chance, b"tape")
    if at is not None:
        moved(lines, chance, at, max(beginning(lines, b"tape")[0], at - 3), min(len(lines), at + 4))


def drop_line(lines, chance):
    del lines[picked(lines, chance, *chance.choice([(b"tape",), (b"call",), (b"",)])) or 0]


def double_line(lines, chance):
    at = picked(lines, chance, *chance.choice([(b"tape",), (b"call",), (b"",)])) or 0
    lines.insert(at, lines[at])


def change_end(lines, chance):
    at = picked(lines, chance, b"end")
    if at is not None:
        pair = (b"FINISHED", b"DATA_WAIT")
        lines[at] = lines[at].replace(*pair) if pair[0] in lines[at] else lines[at].replace(*pair[::-1])


def change_roles(lines, chance):
    """Two roles are exchanged, or one is changed, left out or put in."""
    at = picked(lines, chance, b"roles")
    roles = bytearray(lines[at][6:]) if at is not None else b"-"
    if roles == b"-":
        return
    way, one = chance.random(), chance.randrange(len(roles))
    if way < 0.6:
        other = min(one + 1, len(roles) - 1) if chance.random() < 0.5 else chance.randrange(len(roles))
        roles[one], roles[other] = roles[other], roles[one]
    elif way < 0.8:
        roles[one] = chance.choice(b"01234")
    elif way < 0.9:
        del roles[one]
    else:
        roles.insert(one, chance.choice(b"01239"))
    lines[at] = b"roles " + (bytes(roles) or b"-")


def change_overflow(lines, chance):
    at = picked(lines, chance, b"component", b"cyber")
    if at is None:
        return
    words = [(b"NEWEST", b"OLDEST"), (b"OLDEST", b"NEWEST"), (b" overflow NEWEST", b""), (b"trace 1", b"trace 2"), (b"trace 2", b"trace 1")]
    lines[at] = lines[at].replace(*chance.choice(words))


def second_version(lines, chance):
    """A trace of the first version in the form of the second."""
    if lines[0] == b"cyber-trace 1":
        lines[0] = b"cyber-trace 2"
        for at in beginning(lines, b"component"):
            lines[at] += b" overflow NEWEST"


def change_name(lines, chance):
    at = picked(lines, chance, b"component", b"tape")
    if at is not None:
        name = chance.choice([b'"c0"', b'"/a"', b'"/o0"', b'"/none"', b'"\\012"'])
        lines[at] = re.sub(rb'"[^"]*"', lambda _: name, lines[at])


def move_part(lines, chance):
    """A component's lines are doubled, left out, or moved behind the others."""
    at = picked(lines, chance, b"component")
    if at is not None:
        end = part_of(lines, at + 1)[1] + 1
        part, way = lines[at:end], chance.random()
        if way < 0.6:
            del lines[at:end]
        if way > 0.3:
            last = (beginning(lines, b"end") or [1])[-1] + 1
            lines[last:last] = part


def spoil(lines, chance):
    """Something is put into a line, or taken out of it, that mostly makes it ill-formed."""
    at = chance.randrange(len(lines))
    place, way = chance.randint(0, len(lines[at])), chance.random()
    if way < 0.5:
        mark = chance.choice([b"0", b" ", b"+", b"-", b'"', b"\\", b"x", b"\r", b"\0", b"\xff", b"\n"])
        lines[at] = lines[at][:place] + mark + lines[at][place:]
    elif way < 0.8:
        lines[at] = lines[at][:place] + lines[at][place + 1 :]
    else:
        lines[at] = chance.choice([b"", b"end", b"tape", b"call 1/1 -", b"roles", b"cyber-trace 3"])


CALLS = [
    move_call, raise_tails, drop_last_call, change_value, change_output,
    on_line(b"call", rb"call \d+/(\d+) "), on_line(b"call", rb"call (\d+)/"), on_line(b"call", rb" (\d+)(?= )"),
    on_line(b"call", rb" (\d+)@"), on_line(b"call", rb"@(\d+)"),
]  # fmt: skip
TAPES = [swap, move_output, move_tape, swap, move_output, on_line(b"tape", rb" (\d+)$")]
OTHERS = [
    drop_line, double_line, change_end, on_line(b"end", rb"next (\d+)"), change_roles, change_roles, on_line(b"played", rb"(\d+)"),
    change_overflow, second_version, change_name, move_part, spoil, spoil,
]  # fmt: skip


def changed_trace(trace, chance):
    """A trace that is changed in one way, or seldom in two; and sometimes cut at a byte."""
    text = trace
    for _ in range(10):
        lines = text.split(b"\n")[:-1]
        try:
            chance.choice(chance.choice([CALLS, TAPES, OTHERS]))(lines, chance)
        except (IndexError, ValueError):
            continue  # an earlier change left nothing to which this one could be made
        text = b"".join(line + b"\n" for line in lines)
        if not lines or text != trace and chance.random() < 0.8:
            break
    return text[: chance.randint(0, len(text))] if chance.random() < 0.03 else text


def changed_record(record, chance):
    """A record of which a byte is changed, that is cut, or behind which something stands."""
    place, way = chance.randrange(len(record)), chance.random()
    if way < 0.5:
        return record[:place] + bytes([record[place] ^ 1 << chance.randrange(8)]) + record[place + 1 :]
    if way < 0.7:
        return record[:place]
    return record + chance.choice([b"\0", record[:place], b"x" * 70000])


def changed_words(words, chance):
    """The words with another stop, with none, or with another range of times."""
    kept, way = without(words, "--stop"), chance.random()
    if way < 0.6:
        return kept + ["--stop", f"c{chance.randrange(3)}@{chance.randint(0, 40)}"]
    if way < 0.8 and kept != words:
        return kept
    return without(kept, "--end") + ["--end", str(chance.randint(0, 60))]


def changed_input(data, chance):
    """A record of other messages than were played: one has another value or time, is left out, or comes at another place."""
    messages, way = messages_of(data), chance.random()
    if not messages:
        return record([(b"/a", 1, content_of(1))])
    at = chance.randrange(len(messages))
    channel, time, _ = messages[at]
    if way < 0.4:
        messages[at] = (channel, time, content_of(chance.randint(-20, 20)))
    elif way < 0.6:
        messages[at] = (channel, max(0, time + chance.choice([-1, 1, 5])), messages[at][2])
    elif way < 0.8:
        messages.insert(chance.randrange(len(messages)), messages.pop(at))
    else:
        del messages[at]
    return record(messages, forms_of(data))


def changed_files(chance):
    """The name of a DAG file or a component file, and another text for it, which is accepted too."""
    name = chance.choice(["m.dag"] + glob.glob("c*.conf"))
    text = read(name).decode()
    if name == "m.dag":
        plain = "|".join(["Pass", "Count", "Sum", "Max", "Change"])
        changes = [(r"pending_queue_size: \d+", [f"pending_queue_size: {k}" for k in range(1, 5)])]
        changes += [(rf"\b({plain})Component", [f"{it}Component" for it in plain.split("|")])]
    else:
        changes = [(r"on_overflow: \w+", ["", "on_overflow: OLDEST"]), (r"\b(n|delay): \d+", [r"\1: 1", r"\1: 2", r"\1: 4"])]
        changes += [(r"\bkind: U?S?INT\d+", ["kind: INT64", "kind: SINT32", "kind: BOOL"]), (r"\bpath: \d", ["path: 1", "path: 2"])]
        changes += [(r"\b(lo|hi): -?\d+", [r"\1: -3", r"\1: 5"]), (r'out_type: "\w+"', ["", 'out_type: "u"'])]
    pattern, others = chance.choice([it for it in changes if re.search(it[0], text)] or [("$", [" "])])
    match = chance.choice(list(re.finditer(pattern, text)))
    return name, (text[: match.start()] + match.expand(chance.choice(others)) + text[match.end() :]).encode()


def value_of(words, name, default):
    """The value of an option of one word or two."""
    for word, following in zip(words, words[1:] + [""]):
        if word == name or word.startswith(f"{name}="):
            return following if word == name else word[len(name) + 1 :]
    return default


def choice_in(words):
    """The filter and the stop that words ask for."""
    only, drop = (value_of(words, name, "") for name in ("--channels", "--drop"))
    times = int(value_of(words, "--begin", 0)), int(value_of(words, "--end", 2**64 - 1))
    stop = value_of(words, "--stop", "")
    chosen = Filter(names_of(only) if only else frozenset(), names_of(drop) if drop else frozenset(), *times)
    return chosen, stop_of(stop) if stop else None


def judged(words):
    """What the judge says of the files that words name."""
    files = [value_of(words, name, "") for name in ("--dag", "--record", "--out", "--trace")]
    return judge(*files, *choice_in(words))


def verified(program, words):
    """What `verify` says of them: its status, and its line from the stream on which it has to stand."""
    done = subprocess.run([program, "verify", *words], capture_output=True, timeout=60, check=False)
    line, other = (done.stdout, done.stderr) if done.returncode == 0 else (done.stderr, done.stdout)
    return done.returncode, (line + other).decode("utf-8", "replace").removesuffix("\n")


def lawful(task, text):
    """The run that a trace tells, or None where it isn't lawful."""
    try:
        told = Told(task, read_trace(text))
    except Bad:
        return None
    return None if first_fault(told) else told


def walk(words, run, chance):
    """Makes the files of a lawful run, to which changes lead from another run that each leave it lawful."""
    task, forms = task_of("m.dag", "in.rec", *choice_in(words))
    trace = read(f"{run}.trace")
    told = lawful(task, trace)
    for _ in range(STEPS):
        text = changed_trace(trace, chance)
        further = lawful(task, text)
        trace, told = (text, further) if further else (trace, told)
    write("walked.trace", trace)
    write("walked.rec", record_of(told, forms))


def played(program, words, seed):
    """Makes the files of four runs, and gives their names: serial, on threads, as threads at random, and freely."""
    plain = without(words, "--sched")
    for run, mode in (("serial", ["--serial"]), ("threads", [])):
        asked = [program, "play", *mode, "--out", f"{run}.rec", "--trace", f"{run}.trace", *words]
        subprocess.run(asked, check=True, capture_output=True, timeout=60)
    for run, mode in (("any", []), ("free", ["--free"])):
        asked = [sys.executable, f"{HERE}/any_run.py", f"{run}.rec", f"{run}.trace", f"{run}.line", str(seed), *mode, *plain]
        subprocess.run(asked, check=True)
    return ["serial", "threads", "any", "free"]


def write(path, data):
    with open(path, "wb") as file:
        file.write(data)


def read(path):
    with open(path, "rb") as file:
        return file.read()


def cases(runs, words, chance):
    """Writes the changed files one after another: for each what it is, the words, and whether it has to be lawful."""
    walk(words, chance.choice(runs), chance)
    for run in runs + ["walked"]:
        trace, written = read(f"{run}.trace"), read(f"{run}.rec")
        yield run, verify_words(words, f"{run}.rec", f"{run}.trace"), True
        for number in range(TRACES):
            write("changed.trace", changed_trace(trace, chance))
            yield f"trace {number} of {run}", verify_words(words, f"{run}.rec", "changed.trace"), False
        for number in range(RECORDS):
            write("changed.rec", changed_record(written, chance))
            yield f"record {number} of {run}", verify_words(words, "changed.rec", f"{run}.trace"), False
        yield f"words of {run}", changed_words(verify_words(words, f"{run}.rec", f"{run}.trace"), chance), False
        write("changed.in", changed_input(read("in.rec"), chance))
        yield f"input of {run}", without(verify_words(words, f"{run}.rec", f"{run}.trace"), "--record") + ["--record", "changed.in"], False
        name, text = changed_files(chance)
        kept = read(name)
        write(name, text)
        yield f"{name} of {run}", verify_words(words, f"{run}.rec", f"{run}.trace"), False
        write(name, kept)
        yield f"the record of another than {run}", verify_words(words, f"{chance.choice(runs)}.rec", f"{run}.trace"), False


def kind_of(line):
    """What a line says, without its numbers and names."""
    return re.sub(r"\d+", "N", line.split(": ")[-1] if line.startswith("cyber") else line.split(":")[0])


def main():
    program, count, seed = os.path.abspath(sys.argv[1]), int(sys.argv[2]), int(sys.argv[3])
    make_for(program)
    counts = Counter()
    for number in range(count):
        folder = tempfile.mkdtemp()
        os.chdir(folder)
        chance = random.Random(f"{seed} {number}")
        words = write_files(chance)
        for name, asked, is_lawful in cases(played(program, words, f"{seed} {number}"), words, chance):
            want, has = judged(asked), verified(program, asked)
            if has != want or is_lawful and has[0] != 0:
                print(f"play {number}, {name} differs: verify says {has}, and the judge {want}: {' '.join(asked)} in {folder}")
                return 1
            counts[kind_of(want[1])] += 1
        os.chdir("/")
        shutil.rmtree(folder)
    print(f"{count} plays, {sum(counts.values())} verified, none differs: {', '.join(f'{n} {it}' for it, n in counts.most_common())}")
    return 0


if __name__ == "__main__":
    sys.exit(main())
