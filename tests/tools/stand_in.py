#!/usr/bin/env python3
"""Stands in for the program in tests of tools/external.py: plays serially by tests/replay.py, and verifies by tests/judge.py.

    stand_in.py play --serial ARGUMENTS..
    stand_in.py pass RECORD OUT TRACE FROM TO
    stand_in.py verify ARGUMENTS..
    stand_in.py check --dag DAG

It takes the arguments that the program takes in these forms; `check` prints the lines of components alone. Files that the program refuses
end it with status 1 and a line.
"""
import os
import sys
import tempfile

sys.path.insert(0, os.path.join(os.path.dirname(os.path.abspath(__file__)), ".."))
import judge
import replay
from dag import read_components, ways_in
from strict import quoted


def words_of(command, arguments):
    """The outputs that a command names, and the other arguments as tests/replay.py takes them."""
    if command == "pass":
        record, out, trace, source, target = arguments
        return out, trace, ["--record", record, "--pass", source, target]
    places = [arguments.index(name) for name in ("--out", "--trace")]
    out, trace = (arguments[place + 1] for place in places)
    return out, trace, [it for number, it in enumerate(arguments[1:], 1) if number not in places and number - 1 not in places]


def play(command, arguments):
    """Plays, and prints the line."""
    out, trace, others = words_of(command, arguments)
    with tempfile.NamedTemporaryFile() as line:
        sys.argv = ["replay.py", out, trace, line.name, *others]
        replay.main()
        sys.stdout.write(line.read().decode())
    return 0


def check(dag):
    """Prints what `check` says of the components of a DAG file."""
    for it in read_components(dag):
        reads = " ".join(quoted(channel).decode() for channel in it.readers)
        inputs = f"every {it.interval} ms" if it.interval else f"reads {reads} queue {it.queue}"
        what, name, out = "timer" if it.interval else "component", quoted(it.name).decode(), quoted(it.out).decode()
        line = f"{what} {name} class {it.kind} {inputs} writes {out}"
        line += " overflow OLDEST" if it.overflow == b"OLDEST" and not it.interval else ""
        if it.answers_file:
            line += f" answers {quoted(it.answers_file).decode()} {len(it.answers.contents)}"
        print(line)
        for channel, way in ways_in(it.config):
            print(f"value {quoted(channel).decode()} path {' '.join(map(str, way.path))} kind {way.kind} scale {way.scale}")
    print("ok")
    return 0


def main():
    command, *arguments = sys.argv[1:]
    try:
        if command in ("play", "pass"):
            return play(command, arguments)
        if command == "check":
            return check(arguments[-1])
        sys.argv = ["judge.py", *arguments]
        return judge.main()
    except (OSError, ValueError) as error:
        print(f"stand-in: {error}", file=sys.stderr)
        return 1


if __name__ == "__main__":
    sys.exit(main())
