"""Runs commands in turns, and says what each took. For the measuring scripts here.

    turns.py RUNS NAME COMMAND .. [-- NAME COMMAND ..] ..

runs each command so many times. It prints what each took, and what the first one took divided by what each other one took. User and
kernel time are those of the run that took the least of both together.
"""
import os
import subprocess
import sys
import time
from statistics import median


class Taken:
    """What the runs of a command took: seconds, processor seconds in user mode and in the kernel, and the most memory in MB."""

    def __init__(self):
        self.walls, self.processors, self.peak = [], [], 0.0

    def add(self, wall, used):
        self.walls.append(wall)
        self.processors.append((used.ru_utime + used.ru_stime, used.ru_utime, used.ru_stime))
        self.peak = max(self.peak, used.ru_maxrss / 1024)

    @property
    def best(self):
        return min(self.walls)

    @property
    def processor(self):
        return min(self.processors)[0]

    def __str__(self):
        _, user, kernel = min(self.processors)
        return (
            f"best {self.best * 1000:.1f} ms, median {median(self.walls) * 1000:.1f} ms, "
            f"user {user * 1000:.0f} ms, kernel {kernel * 1000:.0f} ms, peak {self.peak:.1f} MB"
        )


def run_in_turns(runs, commands):
    """What each command took, by its name; a command comes with the status that it is to end with."""
    taken = {name: Taken() for name in commands}
    for _ in range(runs):
        for name, (command, status) in commands.items():
            began = time.perf_counter()
            child = subprocess.Popen(command, stdout=subprocess.DEVNULL, stderr=subprocess.DEVNULL)
            _, ended, used = os.wait4(child.pid, 0)
            taken[name].add(time.perf_counter() - began, used)
            if os.waitstatus_to_exitcode(ended) != status:
                sys.exit(f"{name}: status {os.waitstatus_to_exitcode(ended)}")
    return taken


def ratios(taken, ours, peer):
    """What a command took, divided by what another one took."""
    a, b = taken[ours], taken[peer]
    return (
        f"{ours} / {peer}: best {a.best / b.best:.2f}, median {median(a.walls) / median(b.walls):.2f}, "
        f"processor time {a.processor / b.processor:.2f}, memory {a.peak / b.peak:.2f}"
    )


def main():
    runs, words, commands = int(sys.argv[1]), sys.argv[2:], {}
    while words:
        end = words.index("--") if "--" in words else len(words)
        commands[words[0]] = words[1:end], 0
        words = words[end + 1 :]
    taken = run_in_turns(runs, commands)
    for name, it in taken.items():
        print(f"{name}: {it}")
    ours, *peers = commands
    for peer in peers:
        print(ratios(taken, ours, peer))


if __name__ == "__main__":
    main()
