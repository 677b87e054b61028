"""The graph of channels and components, laid out by Graphviz; the page draws it.

Graphviz gets numbers for names, so no name of a file can mean anything to it.
"""
import shutil
import subprocess
from typing import NamedTuple

MOST_NODES = 300  # a graph with more is no picture any more
PATIENCE = 20  # seconds
INCH = 72  # units of the picture
LETTER, LINE, PADDING = 7.3, 16, 26  # of a node's text, in units; the padding is beside it
ABOVE = 12  # the room above and below it together
LONGEST_LABEL = 30


class Node(NamedTuple):
    """A box of the graph, with its middle."""

    kind: str  # channel, component or timer
    name: str
    label: str
    notes: list  # the lines below its label
    x: float = 0
    y: float = 0
    width: float = 0
    height: float = 0


class Edge(NamedTuple):
    """An arrow between two nodes, by their numbers; `path` are the points of a Bézier curve."""

    tail: int
    head: int
    is_trigger: bool
    path: list = []


class Graph(NamedTuple):
    nodes: list
    edges: list
    width: float
    height: float


def shortened(text, most=LONGEST_LABEL):
    """A text of at most so many characters. Where it is longer its end is kept, by which names of channels are told apart."""
    return text if len(text) <= most else f"{text[: most // 3]}…{text[len(text) - most + most // 3 + 1 :]}"


def node_of(kind, name, *notes):
    label = shortened(name)
    width = max(map(len, (label, *notes))) * LETTER + PADDING
    return Node(kind, name, label, notes, width=width, height=(1 + len(notes)) * LINE + ABOVE)


def picture_text(nodes, edges):
    """What Graphviz is given."""
    lines = ["digraph run {", "rankdir=LR; nodesep=0.22; ranksep=0.55;", "node [shape=box fixedsize=true label=\"\"];"]
    lines += [f"n{k} [width={it.width / INCH:.3f} height={it.height / INCH:.3f}];" for k, it in enumerate(nodes)]
    lines += [f"n{it.tail} -> n{it.head};" for it in edges]
    return "\n".join(lines + ["}"])


def lay_out(nodes, edges):
    """The graph with the places of its nodes and edges; None where Graphviz isn't there or it is too large to be looked at."""
    dot = shutil.which("dot")
    if not dot or not 0 < len(nodes) <= MOST_NODES:
        return None
    try:
        done = subprocess.run([dot, "-Tplain"], input=picture_text(nodes, edges), capture_output=True, text=True, timeout=PATIENCE)
    except (OSError, subprocess.TimeoutExpired):
        return None
    return placed(nodes, edges, done.stdout) if done.returncode == 0 else None


def placed(nodes, edges, plain):
    """The graph by Graphviz's plain text, whose lengths are inches and whose y goes up."""
    width = height = 0
    nodes, paths = list(nodes), {}
    for line in plain.splitlines():
        words = line.split()
        if words[0] == "graph":
            width, height = (float(it) * INCH for it in words[2:4])
        elif words[0] == "node":
            number, x, y = int(words[1][1:]), float(words[2]) * INCH, height - float(words[3]) * INCH
            nodes[number] = nodes[number]._replace(x=x, y=y)
        elif words[0] == "edge":
            numbers = [float(it) * INCH for it in words[4 : 4 + 2 * int(words[3])]]
            path = [(x, height - y) for x, y in zip(numbers[::2], numbers[1::2])]
            paths.setdefault((int(words[1][1:]), int(words[2][1:])), []).append(path)
    edges = [it._replace(path=paths[it.tail, it.head].pop(0)) for it in edges if paths.get((it.tail, it.head))]
    return Graph(nodes, edges, width, height)
