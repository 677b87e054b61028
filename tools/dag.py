"""DAG files with the component files that they name, and other texts in the text form, read as docs/FORMATS.md says.

Only texts that the program accepts are read as it does; a ValueError tells of one that can't be read at all.
"""
import os
import re
from collections import deque
from dataclasses import dataclass

from answers import NONE, read_answers
from values import WIRE_TYPES, Way

TOKEN = re.compile(
    rb"""[ \t\n\r\v\f]+|\#[^\n]*
    |(?P<word>[A-Za-z_][A-Za-z0-9_]*)
    |(?P<number>0[xX][0-9a-fA-F]+|\.?[0-9](?:[eE][+-]|[A-Za-z0-9_.])*)
    |(?P<text>"(?:[^"\\\n]|\\.)*"|'(?:[^'\\\n]|\\.)*')
    |(?P<mark>[{}<>\[\]:,;-])""",
    re.VERBOSE,
)
ESCAPE = re.compile(rb"\\(?:([0-7]{1,3})|x([0-9a-fA-F]{1,2})|u([0-9a-fA-F]{4})|U([0-9a-fA-F]{8})|(.))")
ESCAPED = dict(zip(b"abfnrtv", b"\a\b\f\n\r\t\v"))
CLOSES = {b"{": b"}", b"<": b">"}


def tokens_of(text):
    """The tokens of a text, each a kind and its bytes."""
    found, at = [], 0
    while at < len(text):
        match = TOKEN.match(text, at)
        if match is None:
            raise ValueError(f"no token at byte {at}")
        at = match.end()
        if match.lastgroup:
            found.append((match.lastgroup, match[0]))
    return found


def unescaped(match):
    """The bytes that an escape of a string stands for."""
    octal, digits, short, long, mark = match.groups()
    if octal or digits:
        return bytes([int(octal, 8) if octal else int(digits, 16)])
    return chr(int(short or long, 16)).encode() if short or long else bytes([ESCAPED.get(mark[0], mark[0])])


def number_of(text):
    """A whole number; of a float literal, which no field that is read here has, its text."""
    try:
        return int(text, 8) if re.fullmatch(rb"0[0-7]+", text) else int(text, 0)
    except ValueError:
        return text


def read_value(tokens):
    """A message as its fields, a whole number, or the bytes of strings or of a word."""
    kind, text = tokens.popleft()
    if text in CLOSES:
        fields = []
        while tokens[0][1] != CLOSES[text]:
            fields += read_field(tokens)
        tokens.popleft()
        return fields
    if text == b"-":
        value = read_value(tokens)
        return -value if isinstance(value, int) else b"-" + value
    if kind == "text":
        parts = [text]
        while tokens and tokens[0][0] == "text":
            parts.append(tokens.popleft()[1])
        return b"".join(ESCAPE.sub(unescaped, part[1:-1]) for part in parts)
    return number_of(text) if kind == "number" else text


def read_field(tokens):
    """A field of the text form: one entry, or one for each item of a list."""
    kind, name = tokens.popleft()
    if kind != "word":
        raise ValueError(f"{name.decode('utf-8', 'replace')} where a field begins")
    name, found = name.decode(), []
    if tokens[0][1] == b":":
        tokens.popleft()
    if tokens[0][1] == b"[":
        tokens.popleft()
        while tokens[0][1] != b"]":
            found.append((name, read_value(tokens)))
            if tokens[0][1] == b",":
                tokens.popleft()
        tokens.popleft()
    else:
        found.append((name, read_value(tokens)))
    if tokens and tokens[0][1] in (b",", b";"):
        tokens.popleft()
    return found


def read_text(path):
    """The fields of a file in the text form, each a name and a value."""
    with open(path, "rb") as file:
        text = file.read()
    try:
        tokens, fields = deque(tokens_of(text)), []
        while tokens:
            fields += read_field(tokens)
    except (AttributeError, IndexError, TypeError, ValueError) as error:
        raise ValueError(f"{os.fsdecode(path)}: not in the text form: {error}") from None
    return fields


def last(fields, name, default=None):
    """The last value under a name counts."""
    return dict(fields).get(name, default)


def every(fields, name):
    return [value for key, value in fields if key == name]


@dataclass
class Component:
    """What a DAG file and a component file say of a component; names are bytes."""

    name: bytes
    kind: str  # its class, as SumComponent
    readers: list  # the channels that it reads
    queue: int
    config: list  # the fields of its component file
    out: bytes
    overflow: bytes = b"NEWEST"
    interval: int = None  # in milliseconds, of a timer component
    file: bytes = b""  # the name of its component file
    answers: tuple = NONE  # of an ExternalComponent: what its calls put out
    way: Way = None  # of an ExternalComponent: where the values of its answers are

    def parameter(self, name):
        return last(self.config, name)

    @property
    def out_type(self):
        return last(self.config, "out_type", b"")

    @property
    def is_external(self):
        return self.kind == "ExternalComponent"

    @property
    def answers_file(self):
        """The record that has its answers; empty where there is none."""
        return last(self.config, "answers", b"") if self.is_external else b""

    @property
    def form(self):
        """The type and the description that a written record has for its channel."""
        kind, description = self.answers.form
        return kind or self.out_type, description


def ways_in(config):
    """The values that a component file gives, each a channel and the way to them. A ValueError tells of one that no play accepts."""
    try:
        return [(last(it, "channel"), way_in(it)) for it in every(config, "value")]
    except (AttributeError, TypeError) as error:
        raise ValueError(f"a value that no play accepts: {error}") from None


def way_in(entry):
    """The way that a value in a component file says."""
    path, kind, scale = every(entry, "path"), last(entry, "kind").decode(), last(entry, "scale", 1)
    if kind not in WIRE_TYPES or not path or not all(isinstance(it, int) for it in [*path, scale]):
        raise ValueError(f"a value that no play accepts: path {path}, kind {kind}, scale {scale}")
    return Way(tuple(path), kind, scale)


def ways_of(components):
    """By the name of a channel the way to the values of its messages, where a component file gives one. All that are given are the same."""
    return dict(it for component in components for it in ways_in(component.config))


def component_with(entry, channels, queue, interval):
    """A component that reads these channels, with the component file that its entry in a DAG file names."""
    config = last(entry, "config")
    path = last(config, "config_file_path")
    file = read_text(path)
    kind, overflow = last(entry, "class_name").decode(), last(file, "on_overflow", b"NEWEST")
    return Component(last(config, "name"), kind, channels, queue, file, last(file, "out"), overflow, interval, path)


def component_of(entry):
    """A component of a DAG file."""
    readers = every(last(entry, "config"), "readers")
    queue = max(last(readers[0], "pending_queue_size", 1), 1)
    return component_with(entry, [last(reader, "channel") for reader in readers], queue, None)


def timer_of(entry):
    """A timer component of a DAG file: it reads the channel of its own ticks."""
    config = last(entry, "config")
    return component_with(entry, [b"@timer/" + last(config, "name")], 1, last(config, "interval"))


def read_components(path):
    """The components of a DAG file, and behind them its timer components, each in their order, with their answers."""
    components = read_entries(path)
    ways = ways_of(components)
    for it in components:
        if it.answers_file:
            it.answers, it.way = read_answers(it.answers_file, it.out), ways.get(it.out)
    return components


def read_entries(path):
    """The components of a DAG file as `read_components` gives them, but without answers."""
    fields = read_text(path)
    try:
        modules = every(fields, "module_config")
        components = [component_of(entry) for module in modules for entry in every(module, "components")]
        return components + [timer_of(entry) for module in modules for entry in every(module, "timer_components")]
    except (AttributeError, IndexError, TypeError) as error:
        raise ValueError(f"{os.fsdecode(path)}: no DAG file that a play accepts: {error}") from None


def forms_of_outs(components):
    """By the channel of each component, and by that of the ticks of each timer component, the type and description that a record has
    for it: ticks have neither."""
    ticks = {it.readers[0]: (b"", b"") for it in components if it.interval}
    return ticks | {it.out: it.form for it in components}
