#!/usr/bin/env python3
"""Writes what `play --serial` and `pass` must make of a record, as docs/RULES.md and docs/FORMATS.md say.

    replay.py OUT TRACE LINE --dag F --record F [--sched F] [--channels LIST] [--drop LIST] [--begin N] [--end N] [--stop NAME@N]
    replay.py OUT TRACE LINE --record F --pass FROM TO

OUT, TRACE and LINE are the files that get the record, the trace and the line. File names are looked for where they are given.
Nothing here is taken from the program; only files that it accepts can be read.
"""
import argparse
import os
import sys

sys.path.insert(0, os.path.join(os.path.dirname(os.path.abspath(__file__)), "..", "tools"))
from classes import LAST_TIME, Answers
from dag import Component, every, forms_of_outs, last, read_components, read_text
from playlist import Message, add_choice, choice_of, list_messages
from record import forms_of, messages_of, record


class Running:
    """A component in a run: what came to it, and what it made of that."""

    def __init__(self, component):
        self.component, self.answers = component, Answers(component)
        self.roles, self.latest, self.tuples = "", {}, []
        self.index, self.calls, self.sent, self.held = 0, [], 0, None
        self.finished = self.stopped = self.roused = False

    def arrive(self, role, message):
        self.roles += str(role)
        self.latest[role] = message
        self.roused |= self.stopped and role == 0
        if role == 0 and len(self.latest) == len(self.component.readers):
            self.tuples.append([self.latest[k] for k in range(len(self.component.readers))])

    def fetch(self):
        """The number of the tuple that a fetch finds, or None."""
        tail, queue = len(self.tuples), self.component.queue
        if tail == 0 or self.index > tail:
            return None
        if self.index and self.index + queue > tail:
            return self.index
        return tail - queue + 1 if self.index and self.component.overflow == b"OLDEST" else tail

    def is_runnable(self, clock):
        if self.finished:
            return False
        if self.held:
            return self.held.time < clock
        return self.roused if self.stopped else self.fetch() is not None

    def stop(self, after):
        """Its stop is raised when so many messages were played: what comes to its first reader from now on rouses it, and it is
        roused at once where nothing was played."""
        self.stopped, self.roused = True, after == 0

    def message_of(self, out):
        """An output as the next message of its channel."""
        if out is None:
            return None
        return Message(self.component.out, self.sent + 1, out.time, out.value, out.content(lambda it: it.content))

    def call(self):
        """Makes the next call, and gives what it sends at once."""
        position, tail = self.fetch(), len(self.tuples)
        messages = self.tuples[position - 1]
        outcome = self.answers.answer(messages)
        out = self.message_of(outcome.out)
        self.calls.append((position, tail, messages, out))
        self.index = position + 1
        self.sent += out is not None
        self.finished = outcome.is_last
        if outcome.is_held:
            self.held = out
            return None
        return out


def passing(source, target, forms):
    """The component of `pass`, whose messages have the type of those that it reads."""
    config = [("out_type", forms.get(source, (b"", b""))[0])]
    return Component(b"pass", "PassComponent", [source], 1, config, target)


def groups_of(conf):
    """The groups of a classic file or of none: each has the priorities of the names that it gives."""
    groups = every(last(conf, "classic_conf", []), "groups") or [[]]
    return [{last(task, "name"): last(task, "prio", 1) for task in every(group, "tasks")} for group in groups]


def scan_of(components, sched):
    """The components in the order in which they are scanned."""
    conf = last(read_text(sched), "scheduler_conf", []) if sched else []
    if last(conf, "policy", b"classic") == b"classic":
        groups = groups_of(conf)
        homes = [max((k for k, group in enumerate(groups) if it.name in group), default=0) for it in components]
        ranks = [min(groups[home].get(it.name, 0), 19) for home, it in zip(homes, components)]
    else:
        choreography = last(conf, "choreography_conf", [])
        count = last(choreography, "choreography_processor_num", 0)
        tasks = {last(task, "name"): task for task in every(choreography, "tasks")}
        homes, ranks = [], []
        for it in components:
            task = tasks.get(it.name, [("prio", 0)])
            processor, rank = last(task, "processor", -1), last(task, "prio", 1)
            pinned = 0 <= processor < count
            homes.append(processor if pinned else count)
            ranks.append(rank if pinned else min(rank, 19))
    return sorted(range(len(components)), key=lambda c: (homes[c], -ranks[c], c))


class Run:
    def __init__(self, components, scan):
        self.components, self.scan = [Running(it) for it in components], scan
        self.tape, self.clock = [], 0

    def put(self, message):
        self.tape.append(message)
        for component in self.components:
            readers = component.component.readers
            if message.channel in readers:
                component.arrive(readers.index(message.channel), message)

    def resume(self, component):
        if component.held:
            out, component.held = component.held, None
        else:
            out = None if component.stopped else component.call()
        component.finished |= component.stopped
        if out:
            self.put(out)

    def settle(self):
        while True:
            component = next((c for c in self.scan if self.components[c].is_runnable(self.clock)), None)
            if component is None:
                return
            self.resume(self.components[component])

    def play(self, messages):
        for message in messages:
            self.clock = message.time
            self.put(message)
            self.settle()

    def play_all(self, messages, stop):
        """Plays all messages; a stop is raised behind those that are played up to its time, which come first."""
        after = 0
        if stop:
            name, time = stop
            after = sum(it.time <= time for it in messages)
            self.play(messages[:after])
            next(it for it in self.components if it.component.name == name).stop(after)
        self.play(messages[after:])
        self.clock = LAST_TIME
        self.settle()


def quoted(name):
    text = name.decode().replace("\\", "\\\\").replace('"', '\\"')
    return '"' + text.replace("\n", "\\n").replace("\t", "\\t").replace("\r", "\\r") + '"'


def output_text(out):
    if out is None:
        return "-"
    return f"{out.seq}@{out.time}" + ("" if out.value is None else f"={out.value}")


def trace_of(run, played, shadowed):
    version = 2 if any(it.component.overflow == b"OLDEST" for it in run.components) else 1
    lines = [f"cyber-trace {version}", f"played {played} shadowed {shadowed}"]
    for it in run.components:
        told = f" overflow {it.component.overflow.decode()}" if version == 2 else ""
        lines += [f"component {quoted(it.component.name)}{told}", f"roles {it.roles or '-'}"]
        for position, tail, messages, out in it.calls:
            seqs = " ".join(str(message.seq) for message in messages)
            lines.append(f"call {position}/{tail} {seqs} {output_text(out)}")
        lines.append(f"end {'FINISHED' if it.finished else 'DATA_WAIT'} next {it.index}")
    return lines + [f"tape {quoted(it.channel)} {it.seq}" for it in run.tape]


def write_run(run, played, shadowed, forms, words):
    """Writes the three files of a run."""
    with open(words.out, "wb") as file:
        file.write(record([(it.channel, it.time, it.content) for it in run.tape], forms))
    with open(words.trace, "w", encoding="utf-8") as file:
        file.write("".join(f"{line}\n" for line in trace_of(run, played, shadowed)))
    calls = sum(len(it.calls) for it in run.components)
    with open(words.line, "w", encoding="utf-8") as file:
        file.write(f"done: played {played}, shadowed {shadowed}, calls {calls}, written {len(run.tape)}\n")


def main():
    reader = argparse.ArgumentParser()
    for name in ("out", "trace", "line"):
        reader.add_argument(name)
    for name in ("--dag", "--record", "--sched"):
        reader.add_argument(name)
    add_choice(reader)
    reader.add_argument("--pass", nargs=2, dest="passed", type=os.fsencode)
    words = reader.parse_args()
    with open(words.record, "rb") as file:
        data = file.read()
    components = [passing(*words.passed, forms_of(data))] if words.passed else read_components(words.dag)
    played, shadowed = list_messages(messages_of(data), components, choice_of(words))
    run = Run(components, scan_of(components, words.sched))
    run.play_all(played, words.stop)
    write_run(run, len(played), shadowed, forms_of(data) | forms_of_outs(components), words)


if __name__ == "__main__":
    sys.exit(main())
