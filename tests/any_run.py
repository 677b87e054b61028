#!/usr/bin/env python3
"""Writes what some lawful run makes of a record: its steps are taken at random, as threads might take them, but seldom do.

    any_run.py OUT TRACE LINE SEED [--free] --dag F --record F [--channels LIST] [--drop LIST] [--begin N] [--end N] [--stop NAME@N]

The player and each component are on a thread of their own. A step is one of: the clock is set, a message is put on the tape, it comes to
one reader, a component looks for the stop, or it fetches a tuple and is called. With --free nobody waits for a message to come to its
readers, so it comes to each of them at any time behind those of its channel: such a run is lawful too, though threads have none.
"""
import argparse
import os
import random
import sys
from functools import partial

sys.path.insert(0, os.path.join(os.path.dirname(os.path.abspath(__file__)), "..", "tools"))
from dag import forms_of_outs, read_components
from classes import LAST_TIME
from playlist import add_choice, choice_of, list_messages
from record import forms_of, messages_of
from replay import Running, write_run

PLAYER = -1


class AnyRun:
    def __init__(self, components, played, stop, chance, is_free=False):
        self.components = [Running(it) for it in components]
        self.played, self.stop, self.chance = played, stop, chance
        self.tape, self.clock, self.count, self.is_raised = [], 0, 0, False
        # What each thread still has to bring, or what is still to come to each reader.
        self.fills, self.is_free = {who: [] for who in range(PLAYER, len(components))}, is_free
        self.readers = [(it, role) for it in range(len(components)) for role in range(len(components[it].readers))] if is_free else []
        self.fills |= {reader: [] for reader in self.readers}
        self.looked, self.unsent = set(), {}
        # Some threads, or readers, are much slower than others.
        self.paces = [chance.choice([1, 1, 10, 100]) for _ in self.fills]

    def put(self, who, message):
        self.tape.append(message)
        for number, it in enumerate(self.components):
            if message.channel in it.component.readers:
                role = it.component.readers.index(message.channel)
                self.fills[(number, role) if self.is_free else who].append((it, role, message))

    def fill(self, who):
        it, role, message = self.fills[who].pop(0)
        it.arrive(role, message)

    def player_step(self):
        """The next step of the player, or None."""
        if self.fills[PLAYER]:
            return lambda: self.fill(PLAYER)
        if self.stop and not self.is_raised and self.count == self.stop[1]:
            return self.raise_stop
        time = self.played[self.count].time if self.count < len(self.played) else LAST_TIME
        if self.clock < time:
            return lambda: setattr(self, "clock", time)
        return self.play if self.count < len(self.played) else None

    def raise_stop(self):
        self.is_raised = True

    def play(self):
        self.put(PLAYER, self.played[self.count])
        self.count += 1

    def component_step(self, who):
        """The next step of a component, or None where it has nothing to do."""
        it = self.components[who]
        if self.fills[who]:
            return lambda: self.fill(who)
        if who in self.unsent:
            return lambda: self.put(who, self.unsent.pop(who))
        if it.finished:
            return None
        if who in self.looked:
            return lambda: self.resume(who)
        is_ready = it.held.time < self.clock if it.held else it.fetch() is not None
        return (lambda: self.look(who)) if is_ready else None

    def look(self, who):
        """It looks for the stop, and ends by it; else it is called, or sends what it holds, in another step."""
        it = self.components[who]
        if not self.is_raised or self.stop[0] != who:
            self.looked.add(who)
            return
        it.finished = True
        if it.held:
            self.unsent[who], it.held = it.held, None

    def resume(self, who):
        it = self.components[who]
        self.looked.remove(who)
        out, it.held = (it.held, None) if it.held else (it.call(), it.held)
        if out:
            self.unsent[who] = out

    def step(self):
        """Takes a step; answers whether there was one."""
        steps = [self.player_step()] + [self.component_step(who) for who in range(len(self.components))]
        steps += [self.fills[it] and partial(self.fill, it) for it in self.readers]
        rows = [(step, pace) for step, pace in zip(steps, self.paces) if step]
        if rows:
            self.chance.choices([it for it, _ in rows], [it for _, it in rows])[0]()
        return bool(rows)

    def run(self):
        while self.step():
            pass
        if self.stop and self.chance.random() < 0.5:
            self.components[self.stop[0]].finished = True


def main():
    reader = argparse.ArgumentParser()
    for name in ("out", "trace", "line", "seed"):
        reader.add_argument(name)
    for name in ("--dag", "--record", "--sched"):
        reader.add_argument(name)
    reader.add_argument("--free", action="store_true")
    add_choice(reader)
    words = reader.parse_args()
    with open(words.record, "rb") as file:
        data = file.read()
    components = read_components(words.dag)
    played, shadowed = list_messages(messages_of(data), components, choice_of(words))
    names = [it.name for it in components]
    stop = words.stop and (names.index(words.stop[0]), sum(it.time <= words.stop[1] for it in played))
    run = AnyRun(components, played, stop, random.Random(words.seed), words.free)
    run.run()
    write_run(run, len(played), shadowed, forms_of(data) | forms_of_outs(components), words)


if __name__ == "__main__":
    sys.exit(main())
