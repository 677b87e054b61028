#!/usr/bin/env python3
"""Says in a sentence why a trace or a record is not that of a lawful run, or that all is lawful.

    why_not.py --dag F --record F --out F --trace F [--channels LIST] [--drop LIST] [--begin N] [--end N] [--stop NAME@N]

takes the files and options of `cyber verify`, and looks at the rules of docs/RULES.md one by one. It is not proved: what counts is what
`cyber verify` says. Ends with status 0 where all is lawful, 1 with a sentence where it isn't, and 2 where a file can't be read.
"""
import argparse
import sys
from itertools import zip_longest

from dag import forms_of_outs, read_components
from judging import Task, Told, first_fault, message_text, tape_of
from playlist import add_choice, choice_of, list_messages
from record import CHANNEL, CHUNK, HEADER_END, fault_of, forms_of, header_of, messages_of, opened, read_varint, record, sections_of
from strict import Bad, read_trace


def task_of(words):
    """What the run was to be, and the types and descriptions of the channels."""
    components = read_components(words.dag)
    with opened(words.record) as data:
        try:
            header_of(data)
            messages, forms = messages_of(data), forms_of(data)
        except ValueError as error:
            raise ValueError(f"{words.record}: {error}") from None
    played, shadowed = list_messages(messages, components, choice_of(words))
    stop = None
    if words.stop:
        names = [it.name for it in components]
        if words.stop[0] not in names:
            raise ValueError(f"{words.dag}: no component {words.stop[0].decode('utf-8', 'replace')} that could be stopped")
        stop = (names.index(words.stop[0]), sum(it.time <= words.stop[1] for it in played))
    return Task(components, played, shadowed, stop), forms | forms_of_outs(components)


def section_at(data, tape, place):
    """What stands at a place of the record of a tape."""
    if place < HEADER_END:
        return "in the header"
    before = 0  # how many messages stand in the chunks before
    for kind, begin, end in sections_of(data):
        messages = messages_of_body(data[begin:end]) if kind == CHUNK else []
        if place < end:
            if place < begin or kind not in (CHANNEL, CHUNK):
                return "in a head or in the counts of a chunk"
            if kind == CHANNEL:
                return "in the section of a channel"
            number = before + sum(begin + it <= place for it in messages)
            return f"in message {number} of the tape, {message_text(tape[number - 1])}"
        before += len(messages)
    return "in the index, or behind it"


def messages_of_body(body):
    """Where the messages of a chunk's body begin, as this writer of records writes them."""
    found, at = [], 0
    while at < len(body):
        found.append(at)
        size, start = read_varint(body, at + 1)
        at = start + size
    return found


def first_difference(one, other, step=1 << 16):
    """The first place in which two texts differ, or the lesser length; None where they are equal."""
    if one == other:
        return None
    least = min(len(one), len(other))
    piece = next((it for it in range(0, least, step) if one[it : it + step] != other[it : it + step]), least)
    return next((it for it in range(piece, least) if one[it] != other[it]), least)


def first_message(data, tape):
    """Which message of a record is the first that differs from its tape, as a text; empty where none does, or where it can't be read."""
    try:
        header_of(data)
        messages = messages_of(data)
    except ValueError:
        return ""
    for number, (found, wanted) in enumerate(zip_longest(messages, tape), 1):
        if wanted is None:
            return f"; it has {len(messages)} messages, and the tape {len(tape)}"
        if found != (wanted.channel, wanted.time, wanted.content):
            return f"; the first message that differs is message {number} of the tape, {message_text(wanted)}"
    return ""


def why_not(words):
    """The sentence that says what is wrong, or None."""
    task, forms = task_of(words)
    with opened(words.trace) as data:
        try:
            trace = read_trace(bytes(data))
        except Bad as bad:
            return f"{words.trace}: line {bad}: this is no line of a trace, or not the one that may come next (docs/FORMATS.md, Trace)"
    told = Told(task, trace)
    fault = first_fault(told)
    if fault:
        return f"{words.trace}: line {fault.line}: {fault.text}. The rule: {fault.rule}"
    tape = tape_of(told)
    want = record([(it.channel, it.time, it.content) for it in tape], forms)
    with opened(words.out) as data:
        place = first_difference(want, bytes(data))
        # Another number of bytes stands in the header, too, which comes before all messages.
        message = first_message(data, tape) if place is not None and place < HEADER_END else ""
    if place is not None:
        where = "where it ends or goes on too long" if place == len(want) else section_at(want, tape, place)
        return f"{words.out}: the trace is lawful, but the record differs from that of its tape at byte {place}, {where}{message}"
    return None


def main():
    reader = argparse.ArgumentParser(description=__doc__.split("\n")[0])
    reader.add_argument("--dag", required=True, help="the DAG file")
    reader.add_argument("--record", required=True, help="the record that was played")
    reader.add_argument("--out", required=True, help="the record that was written")
    reader.add_argument("--trace", required=True, help="the trace that was written")
    add_choice(reader)
    words = reader.parse_args()
    try:
        sentence = why_not(words)
    except (OSError, ValueError) as error:
        print(f"why_not: {fault_of(error)}", file=sys.stderr)
        return 2
    print(sentence or "lawful: a lawful run has this trace and this record")
    return 1 if sentence else 0


if __name__ == "__main__":
    sys.exit(main())
