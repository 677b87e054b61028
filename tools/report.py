#!/usr/bin/env python3
"""Makes a page of a replay, in one HTML file that needs no network.

    report.py --dag F --record F --out F --trace F [--sched F] [--channels LIST] [--drop LIST] [--begin N] [--end N] [--stop NAME@N]
              [--run NAME='COMMAND'].. [--good DIR] [--types SET] [--program F] [--title T] HTML

takes the files and options of `cyber verify`. The page says whether the run is lawful, as `cyber verify` answers, and shows its timeline,
its graph, its components and its channels; with --good it shows what differs from another run, DIR/out.rec and DIR/out.trace. Ends with
status 0 where the page was written, whatever it says, and with 1 and a line where a file can't be read.
"""
import argparse
import sys

from record import fault_of


def words_reader():
    """What reads the words of a call."""
    reader = argparse.ArgumentParser(description=__doc__.split("\n")[0])
    reader.add_argument("--dag", required=True, help="the DAG file")
    reader.add_argument("--record", required=True, help="the record that was played")
    reader.add_argument("--out", required=True, help="the record that was written")
    reader.add_argument("--trace", required=True, help="the trace that was written")
    reader.add_argument("--sched", help="the scheduler file")
    reader.add_argument("--channels", metavar="LIST", help="as of the play: only the messages of these channels")
    reader.add_argument("--drop", metavar="LIST", help="as of the play: none of these channels")
    reader.add_argument("--begin", metavar="N", help="as of the play: only messages from this time on")
    reader.add_argument("--end", metavar="N", help="as of the play: only messages up to this time")
    reader.add_argument("--stop", metavar="NAME@N", help="as of the play: the component that was stopped, and when")
    reader.add_argument("--run", action="append", metavar="NAME=COMMAND", help="as of tools/external.py: a command that the page names")
    reader.add_argument("--good", metavar="DIR", help="the folder of another run, to compare with")
    reader.add_argument("--types", metavar="SET", help="a file with a FileDescriptorSet, for types that the record doesn't describe")
    reader.add_argument("--program", metavar="F", help="the program that verifies; else the one of this repository, or an installed one")
    reader.add_argument("--title", metavar="T", help="the heading of the page; else it has the name of the record")
    reader.add_argument("page", metavar="HTML", help="the page that is written")
    return reader


def main():
    words = words_reader().parse_args()
    try:
        from reporting.asking import make_page  # it needs Jinja2

        verdict = make_page(words)
    except ImportError as error:
        print(f"report: {error}; pages are made by Jinja2 (python3-jinja2 of Debian)", file=sys.stderr)
        return 1
    except (OSError, ValueError) as error:
        print(f"report: {fault_of(error)}", file=sys.stderr)
        return 1
    print(f"written: {words.page}: {verdict.title.lower()}")
    return 0


if __name__ == "__main__":
    sys.exit(main())
