#!/usr/bin/env python3
"""Answers calls as a built-in class does, so that a component can be asked outside that is a copy of it.

    copy_of.py CLASS FILE

FILE is a component file with the parameters. The lines of calls come on standard input, and the answers go to standard output.
"""
import os
import sys

sys.path.insert(0, os.path.join(os.path.dirname(os.path.abspath(__file__)), "..", "..", "tools"))
from classes import Answers
from component import run
from dag import Component, read_text


def main():
    kind, path = sys.argv[1:]
    answers = Answers(Component(b"copy", kind, [], 1, read_text(path), b""))

    def answer(messages):
        out = answers.answer(messages).out
        return out and out.content(lambda it: it.content)

    return run(answer)


sys.exit(main())
