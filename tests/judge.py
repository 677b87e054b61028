#!/usr/bin/env python3
"""What `verify` has to answer, by a second reading of the rules: that of tools/judging.py.

    judge.py --dag F --record F --out F --trace F [--channels LIST] [--drop LIST] [--begin N] [--end N] [--stop NAME@N]

prints the line and ends with the status. DAG files, component files and records have to be ones that the program accepts, or not to be
there.
"""
import argparse
import os
import sys

sys.path.insert(0, os.path.join(os.path.dirname(os.path.abspath(__file__)), "..", "tools"))
from dag import forms_of_outs, read_components
from judging import Task, Told, first_fault, tape_of
from playlist import MOST_PLANNED, MOST_PLAYED, Filter, add_choice, choice_of, list_recorded, planned_entries, ticks_of, with_ticks
from record import forms_of, messages_of, record
from strict import Bad, quoted, read_trace

DONE, REFUSED, STORE_FAULT, LIMIT = 0, 1, 3, 5
MOST_BYTES = 1_073_741_824


class Refusal(Exception):
    """A status and a line that isn't `lawful`."""

    def __init__(self, status, line):
        super().__init__(status, f"cyber: {line}")


def bytes_of(path):
    with open(path, "rb") as file:
        return file.read()


def task_of(dag, path, chosen, stop):
    """What the run was to be, and the types and descriptions of the channels."""
    components = read_components(dag)
    data = bytes_of(path)
    recorded, shadowed = list_recorded(messages_of(data), components, chosen)
    numbers = {it.name: number for number, it in enumerate(components)}
    if stop and stop[0] not in numbers:
        raise Refusal(REFUSED, f"{dag}: StopUnknown {quoted(stop[0]).decode()}")
    ticks = sum(map(len, ticks_of(components, recorded).values()))
    for count in (len(recorded), len(recorded) + ticks):
        if count > MOST_PLAYED:
            raise Refusal(LIMIT, f"{path}: limit TooManyPlayed passed: {count}")
    played = with_ticks(components, recorded)
    if planned_entries(components, played) > MOST_PLANNED:
        raise Refusal(LIMIT, f"{path}: limit TooMany passed: {planned_entries(components, played)}")
    raised = stop and (numbers[stop[0]], sum(it.time <= stop[1] for it in played))
    return Task(components, played, shadowed, raised), forms_of(data) | forms_of_outs(components)


def lawful_run(path, task):
    """The run that a trace tells, which is lawful."""
    if os.path.getsize(path) > MOST_BYTES:
        raise Refusal(LIMIT, f"{path}: limit TraceTooLarge passed: {os.path.getsize(path)}")
    try:
        told = Told(task, read_trace(bytes_of(path)))
    except Bad as bad:
        raise Refusal(REFUSED, f"{path}: line {bad}: Bad") from None
    if first_fault(told):
        raise Refusal(REFUSED, f"{path}: not a lawful run")
    return told


def record_of(told, forms):
    """The record of the tape of a lawful run."""
    return record([(it.channel, it.time, it.content) for it in tape_of(told)], forms)


def first_difference(one, other):
    """The first place in which two texts differ, or the lesser length; None where they are equal."""
    least = min(len(one), len(other))
    if one[:least] == other[:least]:
        return None if len(one) == len(other) else least
    return next(place for place in range(least) if one[place] != other[place])


def judge(dag, path, out, trace, chosen=Filter(), stop=None):
    """The status and the line of `verify` for these files, this filter and this stop, a name and a time."""
    try:
        task, forms = task_of(dag, path, chosen, stop)
        told = lawful_run(trace, task)
        place = first_difference(bytes_of(out), record_of(told, forms))
        if place is not None:
            raise Refusal(REFUSED, f"{out}: differs at {place}")
    except Refusal as refusal:
        return refusal.args
    except OSError as error:
        return STORE_FAULT, f"cyber: {os.fsdecode(error.filename)}: the store failed"
    calls = sum(len(it.calls) for it in told.trace.parts)
    return DONE, f"lawful: played {len(task.played)}, shadowed {task.shadowed}, calls {calls}, written {len(told.trace.tape)}"


def main():
    reader = argparse.ArgumentParser()
    for name in ("--dag", "--record", "--out", "--trace"):
        reader.add_argument(name, required=True)
    add_choice(reader)
    words = reader.parse_args()
    status, line = judge(words.dag, words.record, words.out, words.trace, choice_of(words), words.stop)
    print(line)
    return status


if __name__ == "__main__":
    sys.exit(main())
