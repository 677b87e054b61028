#!/usr/bin/env python3
"""Writes the manual page of the program from docs/COMMANDS.md, for `man`.

    manual.py COMMANDS VERSION SECONDS

prints the page; SECONDS is the time of the commit. Paragraphs, headings, tables and indented lines are all that it knows.
"""
import re
import sys
import time

HEAD = '''.TH CYBER 1 "{date}" "zektrob {version}" "User Commands"
.SH NAME
cyber \\- proved component runtime that replays recorded messages
'''


def escaped(text):
    """A text for the page; a line may not begin with a point or a quote."""
    text = text.replace("\\", "\\e").replace("-", "\\-")
    return "\\&" + text if text[:1] in (".", "'") else text


def inline(text):
    """A text with what stands in backquotes in bold."""
    parts = re.split(r"`([^`]*)`", text)
    return "".join(f"\\fB{escaped(part)}\\fR" if k % 2 else escaped(part).removeprefix("\\&") for k, part in enumerate(parts))


def protected(line):
    return "\\&" + line if line[:1] in (".", "'") else line


def blocks_of(text):
    """The text in blocks that blank lines part."""
    return [block.split("\n") for block in re.split(r"\n\s*\n", text.strip("\n"))]


def table(lines):
    """Rows of a table as tagged paragraphs: the first cell and then the others."""
    heads, *rows = [[cell.strip() for cell in re.split(r"(?<!\\)\|", line)[1:-1]] for line in lines if not re.match(r"^\|[-| ]+\|$", line)]
    for first, *rest in rows:
        told = ": ".join(cell for cell in rest if cell)
        yield f".TP\n{protected(inline(first))}\n{protected(inline(told))}\n"
    yield ".PP\n"


def block(lines):
    if lines[0].startswith("# "):
        return ""
    if lines[0].startswith("## "):
        return f".SH {inline(lines[0][3:]).upper()}\n"
    if lines[0].startswith("|"):
        return "".join(table(lines))
    if lines[0].startswith("    "):
        return ".PP\n.nf\n.RS 4\n" + "".join(f"{escaped(line[4:])}\n" for line in lines) + ".RE\n.fi\n"
    return ".PP\n" + protected(inline(" ".join(lines))) + "\n"


def main():
    path, version, seconds = sys.argv[1:]
    with open(path, encoding="utf-8") as file:
        blocks = blocks_of(file.read().replace("./cyber", "cyber"))
    page = HEAD.format(date=time.strftime("%Y-%m-%d", time.gmtime(int(seconds))), version=escaped(version))
    calls = next(k for k, it in enumerate(blocks) if it[0].startswith("    "))
    page += ".SH SYNOPSIS\n" + block(blocks[calls]).removeprefix(".PP\n") + ".SH DESCRIPTION\n"
    page += "".join(block(it) for it in blocks[calls + 1 :])
    sys.stdout.write(page)


main()
