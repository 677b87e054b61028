#!/usr/bin/env python3
"""Prints the calls of a component of a play that was made: a line of JSON for each call, with the messages that it took.

    calls.py --dag F --record F --out F --trace F --component NAME [--types SET]

DAG file, record, written record and trace are those of the play. Ends with status 0, or with 1 where a file can't be read or isn't of the
play.
"""
import argparse
import json
import os
import signal
import sys
from array import array
from base64 import b64encode

from dag import read_entries, ways_of
from messages import Record
from record import fault_of, forms_of, header_of, name_of, opened
from tape import taped_messages
from trace import read_trace
from values import value_by


def taped(trace, path, channels):
    """The messages of a written record by channel, for these channels: times and contents. A ValueError where it isn't this trace's."""
    names = [it.encode("utf-8", "surrogateescape") for it in trace.channels]
    columns = [([], []) if it in channels else None for it in names]
    with opened(path) as data:
        try:
            header_of(data)
            for channel, _, time, content in taped_messages(trace, data):
                if columns[channel]:
                    columns[channel][0].append(time)
                    columns[channel][1].append(content)
            forms = forms_of(data)
        except ValueError as error:
            raise ValueError(f"{path}: {error}") from None
    return dict(zip(names, columns)), forms


class Shown:
    """The messages of a channel as they are shown in the lines of calls. The last one is kept, since it may be in many tuples."""

    def __init__(self, channel, kind, dictionary, value):
        """`value` gives the value of a message by its number and its content."""
        self.head, self.value = json.dumps(name_of(channel), ensure_ascii=False), value
        self.kind, self.dictionary = kind, dictionary
        self.number, self.text = 0, ""

    def of(self, number, time, content):
        """A message by its number on the channel, as an object of JSON."""
        if number != self.number:
            self.number, self.text = number, self.make(number, time, content)
        return self.text

    def make(self, number, time, content):
        text = f'{{"channel": {self.head}, "number": {number}, "time": "{time}", "content": "{b64encode(content).decode()}"'
        value = self.value(number, content)
        if value is not None:
            text += f', "value": "{value}"'
        message = self.dictionary(self.kind, content) if self.kind else None
        if message is not None:
            text += f', "message": {json.dumps(message, ensure_ascii=False)}'
        return text + "}"


class Play:
    """A play that was made: its components with their calls, and its messages."""

    def __init__(self, components, record, out, trace, named, types=None, tool="calls"):
        """`named` are the components whose calls are wanted, and `record` is the name of the record that was played."""
        self.trace_path, self.trace = trace, read_trace(trace)
        self.parts = {it.name.encode("utf-8", "surrogateescape"): it for it in self.trace.components}
        self.record_path, self.types, self.tool = record, types, tool
        self.ways, self.writers = ways_of(components), {it.out: it.name for it in components}
        wanted = [it for it in components if it.name in named]
        self.columns, self.forms = taped(self.trace, out, {channel for it in wanted for channel in it.readers})

    def decoder(self, component):
        """The classes of messages as this component sees them: by the played record, and by what the play wrote for its channels."""
        with opened(self.record_path) as data:
            try:
                found = Record(self.record_path, data, None, self.types, self.tool)
            except ValueError as error:
                raise ValueError(f"{self.record_path}: {error}") from None
        found.forms = found.forms | {it: self.forms[it] for it in component.readers if self.forms.get(it, (b"", b""))[0]}
        return found

    def tuples(self, component):
        """The tuple of each call of a component: for each reader the number of its message, the time and the content."""
        part = self.parts.get(component.name)
        if part is None or part.width not in (0, len(component.readers)):
            raise ValueError(f"{self.trace_path}: not the trace of this DAG file, by its component {name_of(component.name)}")
        columns = [self.columns.get(channel, ([], [])) for channel in component.readers]
        for call in range(len(part.positions)):
            numbers = part.tuple_of(call)
            for number, (times, _), channel in zip(numbers, columns, component.readers):
                if number > len(times):
                    raise ValueError(f"{self.trace_path}: a call on a message that {name_of(channel)} doesn't have")
            yield [(number, times[number - 1], contents[number - 1]) for number, (times, contents) in zip(numbers, columns)]

    def value_finder(self, channel):
        """What gives the value of a message of a channel by its number and its content: the trace has the values of outputs."""
        way, writer = self.ways.get(channel), self.parts.get(self.writers.get(channel))
        if writer is None:
            return lambda number, content: value_by(content, way)
        calls = array("Q", (call for call, output in enumerate(writer.outputs) if output))

        def value(number, content):
            if number > len(calls):
                raise ValueError(f"{self.trace_path}: a call on a message that {name_of(channel)} doesn't have")
            return writer.values[calls[number - 1]] if writer.valued[calls[number - 1]] else None

        return value

    def shown(self, channel, decoder):
        """What shows the messages of a channel."""
        kind = decoder.class_of(channel)
        return Shown(channel, kind, kind and decoder.described.dictionary_of, self.value_finder(channel))

    def lines(self, component, decoder):
        """The line of each call of a component, in bytes."""
        readers = [self.shown(channel, decoder) for channel in component.readers]
        for call, taken in enumerate(self.tuples(component), 1):
            messages = ", ".join([it.of(*message) for it, message in zip(readers, taken)])
            yield f'{{"call": {call}, "time": "{taken[0][1]}", "messages": [{messages}]}}\n'.encode("utf-8", "surrogateescape")


def component_named(components, name, path):
    """The component of a name, or a ValueError that says which there are."""
    found = next((it for it in components if it.name == name), None)
    if found is None:
        names = ", ".join(name_of(it.name) for it in components)
        raise ValueError(f"{path}: no component {name_of(name)}; there are {names}")
    return found


def read_words():
    reader = argparse.ArgumentParser(description=__doc__.split("\n")[0])
    reader.add_argument("--dag", required=True, help="the DAG file")
    reader.add_argument("--record", required=True, help="the record that was played")
    reader.add_argument("--out", required=True, help="the record that was written")
    reader.add_argument("--trace", required=True, help="the trace that was written")
    reader.add_argument("--component", required=True, metavar="NAME", type=os.fsencode, help="the component whose calls are printed")
    reader.add_argument("--types", metavar="SET", help="a file with a FileDescriptorSet, for types that the record doesn't describe")
    return reader.parse_args()


def main():
    words = read_words()
    signal.signal(signal.SIGPIPE, signal.SIG_DFL)  # who reads the output may stop
    try:
        components = read_entries(words.dag)
        component = component_named(components, words.component, words.dag)
        play = Play(components, words.record, words.out, words.trace, {component.name}, words.types)
        sys.stdout.buffer.writelines(play.lines(component, play.decoder(component)))
    except ImportError as error:
        print(f"calls: {error}; described messages are decoded by the Protocol Buffers package (python3-protobuf)", file=sys.stderr)
        return 1
    except (OSError, ValueError) as error:
        print(f"calls: {fault_of(error)}", file=sys.stderr)
        return 1
    return 0


if __name__ == "__main__":
    sys.exit(main())
