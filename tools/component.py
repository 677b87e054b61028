#!/usr/bin/env python3
"""Runs a component that is a Python function: it is given the messages of each call, and says what the call puts out.

    component.py FILE [NAME]

FILE has the function NAME, by default `answer`. The lines of calls (tools/calls.py) come on standard input, and a line with the answer to
each goes to standard output. The function gets a list of messages, in the order of the component's readers. It gives

    None            for no output
    a number        for a message `{ 1 value: sint64 }`
    bytes           for a message with this content
    a dictionary    for a message of the channel's type, as in the JSON form of Protocol Buffers

What FILE prints goes to standard error. Where the function fails, its traceback and the call are printed there, and the status is 1.
"""
import json
import os
import runpy
import sys
import traceback
from base64 import b64decode, b64encode
from contextlib import redirect_stdout


class Message:
    """A message of a call: its channel, its number there from 1, its time in nanoseconds and its content.

    `value` is the whole number that it holds, or None. `message` is the message as a dictionary, or None where its type isn't described.
    """

    __slots__ = ("channel", "number", "time", "content", "value", "message")

    def __init__(self, given):
        self.channel, self.number, self.time = given["channel"], given["number"], int(given["time"])
        self.content, self.message = b64decode(given["content"]), given.get("message")
        self.value = int(given["value"]) if "value" in given else None

    def __repr__(self):
        return f"Message({self.channel} {self.number} at {self.time})"


def line_of(answer):
    """The line of an answer, without its end."""
    if answer is None:
        return "{}"
    if isinstance(answer, (bytes, bytearray)):
        return json.dumps({"content": b64encode(answer).decode()})
    if isinstance(answer, dict):
        return json.dumps({"message": answer}, ensure_ascii=False)
    if isinstance(answer, int) and not isinstance(answer, bool):
        return json.dumps({"value": str(answer)})
    raise TypeError(f"an answer is None, a whole number, bytes or a dictionary, and not {type(answer).__name__}")


def run(function, calls=None, answers=None):
    """Answers each line of calls, by default from standard input to standard output."""
    calls, answers = calls or sys.stdin.buffer, answers or sys.stdout.buffer
    with redirect_stdout(sys.stderr):
        for line in calls:
            call = json.loads(line)
            try:
                answer = line_of(function([Message(it) for it in call["messages"]]))
            except Exception:
                answers.flush()
                traceback.print_exc()
                print(f"component: this was call {call['call']}, at {call['time']}", file=sys.stderr)
                return 1
            answers.write(answer.encode("utf-8", "surrogateescape") + b"\n")
        answers.flush()
    return 0


def main():
    if not 2 <= len(sys.argv) <= 3:
        print("usage: component.py FILE [NAME]", file=sys.stderr)
        return 2
    path, name = sys.argv[1], sys.argv[2] if len(sys.argv) == 3 else "answer"
    sys.path[0] = os.path.dirname(os.path.abspath(path))  # the modules beside the file, and not the ones beside this script
    with redirect_stdout(sys.stderr):
        found = runpy.run_path(path).get(name)
    if not callable(found):
        print(f"component: {path}: no function {name}", file=sys.stderr)
        return 1
    return run(found)


if __name__ == "__main__":
    sys.exit(main())
