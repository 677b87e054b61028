#!/usr/bin/env python3
"""Plays a record through a DAG file with components of your own: each is a command that is asked what its calls put out.

    external.py --dag F --record F --out F --trace F --run NAME='COMMAND'.. [--answers DIR] [--types SET] [--program F]
                [--sched F] [--channels LIST] [--drop LIST] [--begin N] [--end N] [--stop NAME@N]

NAME is an ExternalComponent, whose component file names the record of its answers, which is written. With --answers the records are written
into DIR instead, with a DAG file that has them. Ends with status 0 where the last play is verified, with 1 where something failed, with 2
where the arguments are wrong, with the program's status where that fails, and with 128 + N where signal N ended the program or a command.
"""
import argparse
import hashlib
import os
import subprocess
import sys
import tempfile
from array import array
from dataclasses import dataclass, field
from itertools import zip_longest
from pathlib import Path
from urllib.parse import quote

from answers import Answered, answers_record, check_only_answers, read_answers
from asked import Command, Encoder, Ended, ended
from calls import Play, component_named
from dag import Component, read_entries
from record import fault_of, name_of
from strict import quoted
from wiring import find_program

KEPT = ".external"
ANSWERED = "answered.dag"  # in the folder of --answers: the DAG file that has the answers there
FILTER = ("sched", "channels", "drop", "begin", "end", "stop")


@dataclass
class Outside:
    """A component that is asked: its command, and what is known of it so far. `calls` and `answers` are files in the tool's own folder."""

    component: Component
    command: Command
    folder: Path
    record: Path  # where its answers are written in the end
    upstream: set = field(default_factory=set)  # the names of the components on whose outputs it depends
    marks: array = field(default_factory=lambda: array("q"))  # of each call that was asked: its tuple, hashed
    is_answered: bool = False

    @property
    def name(self):
        return name_of(self.component.name)

    @property
    def calls(self):
        return self.folder / "calls"

    @property
    def answers(self):
        return self.folder / "answers.rec"


def upstream_of(components):
    """By the name of each component, the names of all components on whose outputs it depends, maybe its own."""
    writers = {it.out: it.name for it in components}
    below = {it.name: {writers[channel] for channel in it.readers if channel in writers} for it in components}
    found = {name: set(names) for name, names in below.items()}
    changed = True
    while changed:
        changed = False
        for names in found.values():
            more = set().union(*(found[it] for it in names)) - names
            names |= more
            changed |= bool(more)
    return found


def check_outside(it, entry):
    """Raises a ValueError where a component can't be asked."""
    if not it.is_external:
        raise ValueError(f"component {name_of(it.name)} is a {it.kind}, and no ExternalComponent")
    if it.name in entry:
        raise ValueError(f"component {name_of(it.name)} depends on its own output, so it can't be asked outside")


def record_of(it, folder):
    """The record that gets the answers of a component: the one in this folder, or else the one that its component file names."""
    if not folder and not it.answers_file:
        raise ValueError(f'component {name_of(it.name)}: its component file has to name the record of its answers: answers: "FILE.rec"')
    path = Path(folder, f"{own_name(it)}.rec") if folder else Path(os.fsdecode(it.answers_file))
    if not folder or not Path(folder, ANSWERED).exists():  # else this script wrote what is there
        check_only_answers(path, it.out)
    return path


def own_name(it):
    """The name of a component as that of a file."""
    return quote(it.name, safe="")


def outsides_of(components, words, work):
    """The components that are asked, in an order in which each comes behind all on which it depends."""
    upstream, found = upstream_of(components), []
    for number, (name, text) in enumerate(words.run):
        component = component_named(components, name, words.dag)
        check_outside(component, upstream[name])
        folder = work / str(number)
        folder.mkdir()
        found.append(Outside(component, Command(text), folder, record_of(component, words.answers), upstream[name]))
    asked = {it.component.name for it in found}
    if len(asked) < len(found):
        raise ValueError("--run names a component twice")
    for it in components:
        if it.answers_file and it.name not in asked and not os.path.exists(it.answers_file):
            text = f"component {name_of(it.name)}: its answers {os.fsdecode(it.answers_file)} aren't there"
            raise ValueError(f"{text}: --run {name_of(it.name)}=COMMAND asks for them")
    return sorted(found, key=lambda it: len(it.upstream))


def check_apart(outsides, components, words):
    """Raises a ValueError where the answers of a component, or files that have them, would be written over another file of the play."""
    others = [words.dag, words.record, words.out, words.trace, words.sched, words.types] + [it.file for it in components]
    taken = {os.path.realpath(os.fsencode(it)): os.fsdecode(it) for it in others if it}
    for it in outsides:
        written = {"answers": it.record}
        if words.answers:
            written["component file"] = it.record.with_suffix(".conf")
        for what, path in written.items():
            place = os.path.realpath(os.fsencode(path))
            if place in taken:
                raise ValueError(f"component {it.name}: its {what} {path} would be written over {taken[place]}")
            taken[place] = f"the {what} of {it.name}"
    if words.answers and os.path.realpath(os.fsencode(Path(words.answers, ANSWERED))) in taken:
        raise ValueError(f"{Path(words.answers, ANSWERED)} is a file of the play, and would be written over")


def entry_text(it, path):
    """The text of a component in a DAG file, with the component file that is given."""
    config = b"name: %s config_file_path: %s" % (quoted(it.name), quoted(path))
    if it.interval is not None:
        kind, config = b"timer_components", config + b" interval: %d" % it.interval
    else:
        kind = b"components"
        for channel in it.readers:
            config += b" readers { channel: %s pending_queue_size: %d }" % (quoted(channel), it.queue)
    return b"  %s { class_name: %s config { %s } }\n" % (kind, quoted(it.kind.encode()), config)


def write_dag(components, given, path):
    """Writes a DAG file of the same components. By the name of a component, `given` has its new component file and its answers."""
    text = b""
    for it in components:
        file = it.file
        if it.name in given:
            conf, answers = given[it.name]
            # Of a field that is given twice the later one counts.
            write_whole(conf, Path(os.fsdecode(file)).read_bytes() + b"\nanswers: %s\n" % quoted(os.fsencode(answers)))
            file = os.fsencode(conf)
        text += entry_text(it, file)
    write_whole(path, b"module_config {\n%s}\n" % text)


class Tool:
    """What the arguments ask for, with a folder of its own for the plays before the last one."""

    def __init__(self, words, work):
        self.words, self.work = words, work
        self.program = find_program(words.program)
        self.components = read_entries(words.dag)
        self.outsides = outsides_of(self.components, words, work)
        check_apart(self.outsides, self.components, words)

    def call(self, command, dag, out, trace):
        """Calls the program, and gives the line that it prints. Where it fails, what it says is in the fault."""
        names = [it for it in FILTER if getattr(self.words, it) is not None and (command[0] == "play" or it != "sched")]
        files = ["--dag", dag, "--record", self.words.record, "--out", out, "--trace", trace]
        options = [word for name in names for word in (f"--{name}", getattr(self.words, name))]
        called = [self.program, *command, *map(os.fspath, files + options)]
        done = subprocess.run(called, stdin=subprocess.DEVNULL, capture_output=True, check=False)
        if done.returncode:
            said = done.stderr.decode("utf-8", "replace").strip()
            raise Ended(f"`cyber {command[0]}` {ended(done.returncode)}{': ' * bool(said)}{said}", done.returncode)
        return done.stdout.decode("utf-8", "replace")

    def play_with(self, outsides, out, trace, dag=None):
        """Plays, and gives the play with the calls of these components."""
        if dag is None:
            dag = self.work / "dag"
            known = {it.component.name: (it.folder / "conf", it.answers if it.is_answered else "") for it in self.outsides}
            write_dag(self.components, known, dag)
        line = self.call(["play", "--serial"], dag, out, trace)
        named = {it.component.name for it in outsides}
        return line, Play(self.components, self.words.record, os.fspath(out), os.fspath(trace), named, self.words.types, "external")

    def ask_all(self):
        """Asks all components, play by play: in each play those that depend on none that isn't asked yet."""
        while waiting := [it for it in self.outsides if not it.is_answered]:
            names = {it.component.name for it in waiting}
            ready = [it for it in waiting if not it.upstream & names]
            _, play = self.play_with(ready, self.work / "out.rec", self.work / "out.trace")
            for it in ready:
                try:
                    self.ask(it, play)
                except ValueError as error:
                    raise Ended(f"component {it.name}: {error}", getattr(error, "status", 1)) from None

    def ask(self, it, play):
        """Asks a component about its calls, or finds what it answered to them before."""
        decoder = play.decoder(it.component)
        encoder, form = encoding(decoder, it.component)
        kept = Path(KEPT) / f"{self.sum_of(it, play, decoder, form)}.rec"
        is_kept, count = kept.is_file(), len(it.marks)
        if is_kept:
            contents = read_answers(kept, it.component.out).contents
        else:
            with open(it.calls, "wb") as file:
                file.writelines(play.lines(it.component, decoder))
            contents = contents_of(it.command, encoder, it.calls, count)
            write_whole(kept, answers_record(it.component.out, Answered(contents, form)))
        it.answers.write_bytes(kept.read_bytes())
        it.is_answered = True
        print(f"{it.name}: calls {count}, answers {len(contents)}{', as before' if is_kept else ''}", flush=True)

    def sum_of(self, it, play, decoder, form):
        """What tells what a component is asked from all else: its calls, how their messages are described, and its command."""
        calls, before = hashlib.sha256(), [0] * len(it.component.readers)
        values = [play.value_finder(channel) for channel in it.component.readers]
        for taken in play.tuples(it.component):
            it.marks.append(mark_of(taken))
            calls.update(repr([(number, time, len(content)) for number, time, content in taken]).encode())
            for (number, _, content), last, value in zip(taken, before, values):
                if number != last:  # a message that is in many tuples is read once
                    calls.update(content + b"%a" % value(number, content))
            before = [number for number, _, _ in taken]
        types = Path(self.words.types).read_bytes() if self.words.types else b""
        described = hashlib.sha256(repr((sorted(decoder.forms.items()), types)).encode())
        what = (calls.hexdigest(), described.hexdigest(), it.component.out, form, it.command.sum)
        return hashlib.sha256(repr(what).encode()).hexdigest()

    def check(self, play):
        """Raises a ValueError where a component was called on other tuples than the ones that were asked."""
        for it in self.outsides:
            for number, (mark, taken) in enumerate(zip_longest(it.marks, play.tuples(it.component)), 1):
                if mark is None or taken is None or mark != mark_of(taken):
                    raise ValueError(f"component {it.name}: call {number} of the last play is not the one that was asked")

    def run(self):
        """Asks all components, and plays and verifies with their answers."""
        self.ask_all()
        for it in self.outsides:
            write_whole(it.record, it.answers.read_bytes())
        dag = self.words.dag
        if self.words.answers:
            dag = Path(self.words.answers, ANSWERED)
            files = {it.component.name: (it.record.with_suffix(".conf"), it.record) for it in self.outsides}
            write_dag(self.components, files, dag)
        line, play = self.play_with(self.outsides, self.words.out, self.words.trace, dag)
        self.check(play)
        print(line, end="", flush=True)
        print(self.call(["verify"], dag, self.words.out, self.words.trace), end="")


def encoding(decoder, component):
    """How the messages of a component's channel are encoded, and the type and the description that its answers' record has."""
    kind = component.out_type
    same = decoder.forms.get(component.out, (b"", b""))
    if same[0] != kind:  # what was recorded on this channel may describe its type
        decoder.forms = decoder.forms | {component.out: (kind, b"")}
    found = decoder.class_of(component.out)

    def encode(message):
        if not found:
            why = f"{name_of(kind)} is described neither in the record nor by --types" if kind else "its component file has no out_type"
            raise ValueError(f"a message can't be encoded: {why}")
        return decoder.described.content_from(found, message)

    return Encoder(encode), (kind, decoder.described.description_of(found) if found else b"")


def mark_of(taken):
    """A number that tells the tuple of a call from others, in this process."""
    return hash(tuple(taken))


def contents_of(command, encoder, calls, count):
    """The contents that a command answers, by the number of the call."""
    contents = {}
    for number, line in command.answers(calls, count):
        try:
            content = encoder.content(line)
        except ValueError as error:
            raise ValueError(f"call {number} of {count}: {error}") from None
        if content is not None:
            contents[number] = content
    return contents


def write_whole(path, data):
    """Writes a file that is there whole or not at all."""
    path.parent.mkdir(parents=True, exist_ok=True)
    with tempfile.NamedTemporaryFile(dir=path.parent, prefix=f".{path.name}.", delete=False) as file:
        try:
            file.write(data)
            file.close()
            os.chmod(file.name, 0o666 & ~umask())
            os.replace(file.name, path)
        except BaseException:
            os.unlink(file.name)
            raise


def umask():
    """The bits of a file's mode that this process leaves out."""
    mask = os.umask(0)
    os.umask(mask)
    return mask


def run_of(word):
    """The name of a component and its command."""
    name, mark, command = word.partition("=")
    if not name or not mark or not command.strip():
        raise argparse.ArgumentTypeError(f"{word} is not NAME=COMMAND")
    return os.fsencode(name), command


def read_words():
    reader = argparse.ArgumentParser(description=__doc__.split("\n")[0])
    reader.add_argument("--dag", required=True, help="the DAG file")
    reader.add_argument("--record", required=True, help="the record that is played")
    reader.add_argument("--out", required=True, help="the record that is written")
    reader.add_argument("--trace", required=True, help="the trace that is written")
    reader.add_argument("--run", required=True, action="append", type=run_of, metavar="NAME=COMMAND", help="a component and its command")
    reader.add_argument("--answers", metavar="DIR", help="the folder that gets the answers, and a DAG file that has them")
    reader.add_argument("--types", metavar="SET", help="a file with a FileDescriptorSet, for types that the record doesn't describe")
    reader.add_argument("--program", help="the program that plays, by default the one that is built here or installed")
    for name in FILTER:
        reader.add_argument(f"--{name}", help="as of `cyber play`")
    return reader.parse_args()


def main():
    words = read_words()
    try:
        with tempfile.TemporaryDirectory(prefix="external-") as work:
            Tool(words, Path(work)).run()
    except ImportError as error:
        print(f"external: {error}; described messages are decoded by the Protocol Buffers package (python3-protobuf)", file=sys.stderr)
    except (OSError, ValueError) as error:
        print(f"external: {fault_of(error)}", file=sys.stderr)
        return getattr(error, "status", 1)
    except KeyboardInterrupt:
        print("external: stopped; what was answered is kept", file=sys.stderr)
        return 130
    else:
        return 0
    return 1


if __name__ == "__main__":
    sys.exit(main())
