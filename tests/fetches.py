#!/usr/bin/env python3
"""Looks that the calls of a trace go by the fetch rule of docs/RULES.md, whichever overflow a component has.

    fetches.py TRACE CHECK

CHECK is what `cyber check` prints for the DAG file: it has the queue of each component, and its overflow where that is OLDEST. A timer
component has a queue of 1. What is wrong is printed, and the status is 1 then.
"""
import os
import re
import sys

sys.path.insert(0, os.path.join(os.path.dirname(os.path.abspath(__file__)), "..", "tools"))
from trace import read_trace, unquoted

COMPONENT = re.compile(rb'component "((?:[^"\\]|\\.)*)" .* queue (\d+) writes "(?:[^"\\]|\\.)*"( overflow OLDEST)?\n')
TIMER = re.compile(rb'timer "((?:[^"\\]|\\.)*)" .* every \d+ ms writes "(?:[^"\\]|\\.)*"\n')


def queues_of(path):
    """By the name of each component, its queue and its overflow."""
    with open(path, "rb") as file:
        lines = list(file)
    found = [match for match in map(COMPONENT.fullmatch, lines) if match]
    queues = {unquoted(it[1]): (int(it[2]), "OLDEST" if it[3] else "NEWEST") for it in found}
    return queues | {unquoted(it[1]): (1, "NEWEST") for it in map(TIMER.fullmatch, lines) if it}


def fetched(index, tail, queue, overflow):
    """The position that a fetch at an index finds, where so many tuples were made."""
    if tail == 0 or index > tail:
        return None
    if index == 0:
        return tail
    if index + queue <= tail:
        return tail if overflow == "NEWEST" else tail - queue + 1
    return index


def faults_of(component, queue, overflow):
    if component.overflow != overflow:
        yield f"overflow {component.overflow}, not {overflow}"
    index = 0
    for position, tail in zip(component.positions, component.tails):
        if position != fetched(index, tail, queue, overflow):
            yield f"a fetch at {index} of {tail} found {position}"
        index = position + 1


def main():
    trace, queues = read_trace(sys.argv[1]), queues_of(sys.argv[2])
    faults = [f"{it.name}: {fault}" for it in trace.components for fault in faults_of(it, *queues[it.name])]
    print("\n".join(faults[:5]))
    return min(len(faults), 1)


sys.exit(main())
