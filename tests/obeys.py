#!/usr/bin/env python3
"""Looks whether a component obeyed its stop in a play, on threads or not, and how all components end.

    obeys.py TRACE RECORD WIRING NAME@N

RECORD is the one that was written with TRACE, and WIRING what `cyber check` prints for the DAG file. A message is late that stands on the
tape at or behind the first played one with a time above N. Of the calls of NAME at most one has a late message in its tuple; where a late
message came to its first reader, it has ended. Each other component waits for data, and has fetched its last tuple.
What is wrong is printed, and the status is 1 then; else it prints how many calls have a late message: 0 or 1.
"""
import os
import sys

sys.path.insert(0, os.path.join(os.path.dirname(os.path.abspath(__file__)), "..", "tools"))
from record import messages_of
from trace import read_trace
from wiring import read_wiring


def late_places(trace, record, wiring, until):
    """From each late message, as its channel and its number, to its place on the tape."""
    names = [trace.channels[it].encode() for it in trace.tape_channels]
    with open(record, "rb") as file:
        messages = messages_of(file.read())
    if names != [channel for channel, _, _ in messages]:
        raise ValueError("the record has other messages than the tape")
    written = {out.encode() for _, out in wiring.values()}
    first = next((k for k, it in enumerate(messages) if it[0] not in written and it[1] > until), len(messages))
    places = range(first, len(messages))
    return {(names[k].decode(), trace.tape_sequences[k]): k for k in places}


def late_calls(component, channels, late):
    """How many of its calls have a late message in their tuple."""
    tuples = [component.tuple_of(call) for call in range(len(component.positions))]
    return sum(any(message in late for message in zip(channels, it)) for it in tuples)


def tuple_count(component, width):
    """How many tuples were made of what came to it."""
    seen, found = set(), 0
    for role in component.roles:
        seen.add(role)
        found += role == ord("0") and len(seen) == width
    return found


def faults_of(component, name, channels, late):
    """What is wrong with the end and the calls of a component."""
    behind = component.positions[-1] + 1 if component.positions else 0
    if component.following != behind:
        yield f"its next fetch is at {component.following}, not {behind}"
    if component.name == name:
        if component.state != "FINISHED" and any(channel == channels[0] for channel, _ in late):
            yield f"{component.state}, though a late message came to its first reader"
        if late_calls(component, channels, late) > 1:
            yield f"{late_calls(component, channels, late)} calls have a late message"
    else:
        made = tuple_count(component, len(channels))
        if component.state != "DATA_WAIT" or behind != (made + 1 if made else 0):
            yield f"{component.state} at {behind}, with {made} tuples"


def main():
    trace, record, wiring, stop = sys.argv[1:]
    name, _, until = stop.rpartition("@")
    trace, wiring = read_trace(trace), read_wiring(wiring)
    late = late_places(trace, record, wiring, int(until))
    faults = [f"{it.name}: {fault}" for it in trace.components for fault in faults_of(it, name, wiring[it.name][0], late)]
    if faults or name not in wiring:
        print("\n".join(faults) or f"no component {name}")
        return 1
    print(sum(late_calls(it, wiring[name][0], late) for it in trace.components if it.name == name))
    return 0


sys.exit(main())
