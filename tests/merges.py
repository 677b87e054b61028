#!/usr/bin/env python3
"""Merges records at random, and compares each record, line and status with what docs/RULES.md says. A record that is split by time is merged
again, too: then it has the same messages in the order of time.

    merges.py PROGRAM ROUNDS [SEED]
"""
import os
import random
import subprocess
import sys
import tempfile

TOP = os.path.join(os.path.dirname(os.path.abspath(__file__)), "..")
sys.path[:0] = [os.path.join(TOP, "tools"), os.path.join(TOP, "tests")]
from parted import merged
from record import content_of, forms_of, messages_of, record

NAMES = [b"/a", b"/b", b"/c", b"/d"]
PARTS = [b"", b"", b"x", b"y"]


def made_at_random(chance):
    """A record of a few messages at few times, so that many times are equal."""
    names = chance.sample(NAMES, chance.randint(1, len(NAMES)))
    messages = [(chance.choice(names), chance.randint(0, 6), content_of(chance.randint(-9, 9))) for _ in range(chance.randint(0, 12))]
    parts = PARTS if chance.random() < 0.3 else PARTS[:3]
    return record(messages, {name: (chance.choice(parts), chance.choice(parts)) for name in names})


def first_difference(kept, later, part):
    """The first channel of a later record whose type or description differs from what is kept."""
    for name in channels_of(later):
        ours, theirs = (forms.get(name, (b"", b""))[part] for forms in (kept, forms_of(later)))
        if ours and theirs and ours != theirs:
            return name
    return None


def channels_of(data):
    """The channels of a record in the order of their first mention."""
    return list(dict.fromkeys([*forms_of(data), *(it[0] for it in messages_of(data))]))


def refusal_of(names, records):
    """The line with which records are refused, if they are."""
    kept = {}
    for name, data in zip(names, records):
        for part, fault in enumerate(["TypesDiffer", "DescriptionsDiffer"]):
            channel = first_difference(kept, data, part)
            if channel:
                return f'cyber: {name}: {fault} "{channel.decode()}"\n'
        for channel, form in forms_of(data).items():
            kept[channel] = tuple(first or later for first, later in zip(kept.get(channel, (b"", b"")), form))
    return None


def run(program, *words):
    return subprocess.run([program, *words], capture_output=True, text=True, check=False)


def written(name, data):
    with open(name, "wb") as file:
        file.write(data)


def read(name):
    with open(name, "rb") as file:
        return file.read()


def merge_some(program, chance):
    """Merges some records, of which one may be named twice."""
    files = {f"{k}.rec": made_at_random(chance) for k in range(chance.randint(1, 4))}
    for name, data in files.items():
        written(name, data)
    names = [chance.choice(list(files)) for _ in range(chance.randint(1, 5))]
    records = [files[name] for name in names]
    if os.path.exists("out"):
        os.remove("out")
    ran = run(program, "merge", ",".join(names), "out")
    line = refusal_of(names, records)
    if line:
        return (ran.returncode, ran.stdout, ran.stderr) == (1, "", line) and not os.path.exists("out")
    made, said = merged(records)
    return (ran.returncode, ran.stdout, ran.stderr) == (0, said, "") and read("out") == made


def split_and_merge(program, chance):
    """Splits a record by time and merges the parts."""
    whole = made_at_random(chance)
    written("whole.rec", whole)
    middle = chance.randint(0, 6)
    front = run(program, "split", "whole.rec", "front.rec", "--end", str(middle))
    back = run(program, "split", "whole.rec", "back.rec", "--begin", str(middle + 1))
    ran = run(program, "merge", "front.rec,back.rec", "again.rec")
    sorted_messages = sorted(messages_of(whole), key=lambda it: it[1])
    done = front.returncode == back.returncode == ran.returncode == 0
    return done and [it[:3] for it in messages_of(read("again.rec"))] == [it[:3] for it in sorted_messages]


def main():
    program, rounds = os.path.abspath(sys.argv[1]), int(sys.argv[2])
    seed = int(sys.argv[3]) if len(sys.argv) > 3 else random.SystemRandom().randrange(1 << 32)
    chance = random.Random(seed)
    with tempfile.TemporaryDirectory() as folder:
        os.chdir(folder)
        for k in range(rounds):
            if not merge_some(program, chance) or not split_and_merge(program, chance):
                os.chdir("/")
                print(f"merges.py: round {k} of seed {seed} differs")
                return 1
        os.chdir("/")
    print(f"merges.py: {rounds} rounds, seed {seed}")
    return 0


if __name__ == "__main__":
    sys.exit(main())
