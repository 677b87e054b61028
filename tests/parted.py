#!/usr/bin/env python3
"""Writes what `recover`, `split` and `merge` must make of files, as docs/RULES.md and docs/FORMATS.md say.

    parted.py OUT LINE recover IN
    parted.py OUT LINE split IN [--channels LIST] [--drop LIST] [--begin N] [--end N]
    parted.py OUT LINE merge INPUTS

OUT and LINE are the files that get the record and the line. Nothing here is taken from the program; only files that it accepts can be read.
"""
import argparse
import os
import sys

sys.path.insert(0, os.path.join(os.path.dirname(os.path.abspath(__file__)), "..", "tools"))
from playlist import add_choice, choice_of
from record import CHANNEL, CHUNK, HEADER_END, INDEX, fields_of, form_in, forms_of, message_of, messages_of, record

LONGEST_SECTION = 536_870_912


def add_section(kind, body, messages, forms):
    """Adds what a section says. A ValueError where its fields can't be read, or a name or a type is no text: then nothing is added."""
    fields = fields_of(body)
    if kind == CHUNK:
        found = [message_of(value) for field, value in fields if field == 1 and isinstance(value, bytes)]
        for channel, _, _ in found:
            channel.decode()
        messages += found
    elif kind == CHANNEL:
        name, form = form_in(body)
        name.decode(), form[0].decode()
        forms.setdefault(name, form)


def salvaged(data):
    """The messages of the sections before the first fault, the types and descriptions of channels there, and how many bytes are dropped."""
    messages, forms, at = [], {}, HEADER_END
    while at < len(data):
        kind, size = int.from_bytes(data[at : at + 4], "little"), int.from_bytes(data[at + 8 : at + 16], "little", signed=True)
        start, end = at + 16, at + 16 + size
        if start > len(data) or not 0 < kind <= CHANNEL or size < 0:
            break
        if kind == INDEX:
            return messages, forms, 0
        if size > LONGEST_SECTION or end > len(data):
            break
        try:
            add_section(kind, data[start:end], messages, forms)
        except ValueError:
            break
        at = end
    return messages, forms, len(data) - at


def recovered(data):
    """The record and the line of `recover`."""
    messages, forms, dropped = salvaged(data)
    return record(messages, forms), f"done: messages {len(messages)}, dropped {dropped}\n"


def split(data, chosen):
    """The record and the line of `split`."""
    messages = messages_of(data)
    kept = [it for it in messages if chosen.lets_through(it[0], it[1])]
    return record(kept, forms_of(data)), f"done: messages {len(kept)} of {len(messages)}\n"


def merged(records):
    """The record and the line of `merge`, for records whose types and descriptions don't differ."""
    messages, forms = [], {}
    for data in records:
        messages += messages_of(data)
        for name, form in forms_of(data).items():
            kept = forms.get(name, (b"", b""))
            forms[name] = tuple(first or later for first, later in zip(kept, form))
    messages.sort(key=lambda it: it[1])
    return record(messages, forms), f"done: messages {len(messages)}, records {len(records)}\n"


def read(name):
    with open(name, "rb") as file:
        return file.read()


def made_by(words):
    """The record and the line of a command."""
    if words.command == "merge":
        return merged([read(name) for name in words.input.split(",")])
    data = read(words.input)
    return recovered(data) if words.command == "recover" else split(data, choice_of(words))


def main():
    reader = argparse.ArgumentParser()
    for name in ("out", "line"):
        reader.add_argument(name)
    reader.add_argument("command", choices=("recover", "split", "merge"))
    reader.add_argument("input")
    add_choice(reader)
    words = reader.parse_args()
    made, line = made_by(words)
    with open(words.out, "wb") as file:
        file.write(made)
    with open(words.line, "w", encoding="utf-8") as file:
        file.write(line)


if __name__ == "__main__":
    sys.exit(main())
