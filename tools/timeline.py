#!/usr/bin/env python3
"""Makes a timeline of a trace: for Perfetto or Chrome's tracing page, or a picture.

    timeline.py TRACE [--record OUT] [--dag DAG] [--decode] -o run.json | run.json.gz
    timeline.py TRACE [--record OUT] [--dag DAG] [--begin S] [--end S] -o run.png | run.svg

OUT is the record that was written with the trace; it has the times of the messages. DAG is the DAG file of the run: the program says which
channels its components read and write, by `check`. What it printed may be given by --wiring instead. Without either the channels are guessed,
as far as only one fits, and calls may be drawn at wrong times.
"""
import argparse
import gzip
import json
import sys
from array import array
from itertools import count, islice, repeat
from operator import sub

from record import fault_of, opened
from run import read_run

COMPONENTS, CHANNELS = 1, 2  # the two processes of the timeline


BEGIN, STEP, FINISH = (
    f'{{"ph":"{phase}","cat":"flow","name":"message","id":' for phase in ("s", "t", 'f","bp":"e')
)
COUNTED = 50_000  # how many events are made at once
LONGEST_MESSAGE = 1000  # characters of a decoded message


class Calls:
    """Where the calls of a component stand in the timeline.

    They stand in lanes, in none of which two overlap in time. Calls at one time are moved apart by a nanosecond each, so that all
    can be seen.
    """

    def __init__(self, run, component):
        self.component, self.begins, self.out = component, run.begins(component), run.out(component)
        self.readers = run.readers(component)
        self.sources = []  # the number of each reader whose channel is known, and where the messages of that channel stand
        self.tracks = []  # the lanes: each the number of its track
        self.ends = []  # and where its last call ends, by the times of the run and in the timeline
        self.starts, self.stops, self.lanes = array("Q"), array("Q"), array("I")
        self.sent = bytearray()  # 1 where the call's output stands on the tape

    def lane(self, begin, first, new_track):
        """The number of the first lane that is free at a time; of a new one where none is."""
        for number, (end, _) in enumerate(self.ends):
            if end <= begin:
                return number
        self.tracks.append(new_track())
        self.ends.append((first, first))
        return len(self.ends) - 1

    def place(self, is_sent, first, new_track):
        """Places the next call, behind all messages of its tuple, and gives where it ends."""
        it, call = self.component, len(self.starts)
        begin = self.begins[call]
        end = it.times[call] if it.outputs[call] else begin
        lane = 0 if self.ends and self.ends[0][0] <= begin else self.lane(begin, first, new_track)
        start = max(begin, self.ends[lane][1])
        for role, starts in self.sources:
            source = starts[it.sequences[call * it.width + role] - 1]
            start = source if source > start else start
        stop = max(end, start + 1)
        self.ends[lane] = (max(begin, end), stop)
        self.starts.append(start)
        self.stops.append(stop)
        self.lanes.append(lane)
        self.sent.append(is_sent)
        return stop


class Layout:
    """Where all messages and calls stand, found in the order of the tape: before an output the calls up to the one that made it."""

    def __init__(self, run):
        self.run, self.tracks = run, 0
        self.starts = {channel: array("Q") for channel in run.times}
        self.calls = [Calls(run, it) for it in run.trace.components]
        for it in self.calls:
            it.sources = [(role, self.starts[channel]) for role, channel in enumerate(it.readers) if channel is not None]
        self.place_messages()
        for it in self.calls:
            while len(it.starts) < len(it.component.outputs):
                it.place(False, run.first, self.new_track)

    def new_track(self):
        self.tracks += 1
        return self.tracks

    def place_maker(self, calls, sequence):
        """Places the calls of a component up to the one that made an output, and gives the least place of that output."""
        outputs = calls.component.outputs
        for call in range(len(calls.starts), len(outputs)):
            if outputs[call] == sequence:
                return calls.place(True, self.run.first, self.new_track) - 1
            calls.place(False, self.run.first, self.new_track)
        return 0

    def place_messages(self):
        if not self.run.times:
            return
        trace, first = self.run.trace, self.run.first
        makers = {it.out: it for it in self.calls if it.out is not None}
        rows = [(self.run.times[it], self.starts[it], makers.get(it)) for it in trace.channels]
        ends = [first] * len(rows)
        for number, sequence in zip(trace.tape_channels, trace.tape_sequences):
            times, starts, maker = rows[number]
            start = max(times[sequence - 1], ends[number], self.place_maker(maker, sequence) if maker else first)
            starts.append(start)
            ends[number] = start + 1


class Timeline:
    """Writes the events: the slices of messages and calls, then the flows between them, then the names of the lanes.

    Times are written in microseconds with three digits behind the point. They count from a microsecond before the first
    message, so that there are always digits before the point. Numbers that may pass 2^53 are texts, since a browser would
    round them.
    """

    def __init__(self, run, file, messages=None):
        self.run, self.file, self.layout, self.flows, self.messages = run, file, Layout(run), 0, messages or {}
        self.track = {channel: k + 1 for k, channel in enumerate(run.times)}
        self.texts = {channel: self.microseconds(starts) for channel, starts in self.layout.starts.items()}

    def microseconds(self, times):
        """The texts of times."""
        origin = self.run.first - 1000
        return [f"{digits[:-3]}.{digits[-3:]}" for digits in [str(time - origin) for time in times]]

    def put(self, events):
        """Writes events, some at a time."""
        events = iter(events)
        while lines := list(islice(events, COUNTED)):
            self.file.write(",\n" + ",\n".join(lines))

    def put_messages(self, channel):
        """The slices of the messages of a channel."""
        head = f'{{"ph":"X","cat":"message","name":{json.dumps(channel)},"pid":{CHANNELS},"tid":{self.track[channel]},"ts":'
        decoded = (f',"message":{json.dumps(it)}' for it in self.messages[channel]) if channel in self.messages else repeat("")
        rows = zip(self.texts[channel], count(1), self.run.times[channel], decoded)
        self.put(
            f'{head}{text},"dur":0.001,"args":{{"number":{number},"time":"{time}"{message}}}}}' for text, number, time, message in rows
        )

    def put_calls(self, calls, texts):
        """The slices of the calls of a component."""
        it, width = calls.component, calls.component.width
        lengths = ["0.001" if n == 1 else "%d.%03d" % divmod(n, 1000) for n in map(sub, calls.stops, calls.starts)]
        outs = [f',"output":{out},"time":"{time}"' if out else "" for out, time in zip(it.outputs, it.times)]
        values = [f',"value":"{value}"' if valued else "" for value, valued in zip(it.values, it.valued)]
        messages = zip(*[map(str, it.sequences)] * width)
        heads = [f'{{"ph":"X","cat":"call","name":{json.dumps(it.name)},"pid":{COMPONENTS},"tid":{n},"ts":' for n in calls.tracks]
        rows = zip(calls.lanes, texts, lengths, count(1), it.positions, it.tails, messages, outs, values)
        self.put(
            f'{heads[lane]}{text},"dur":{length},"args":{{"call":{call},"tuple":{position},"tail":{tail},'
            f'"messages":"{" ".join(numbers)}"{out}{value}}}}}'
            for lane, text, length, call, position, tail, numbers, out, value in rows
        )

    def put_skips(self, calls, texts):
        """A counter of the tuples that the calls of a component jumped over."""
        name, skipped, lines = json.dumps("skipped " + calls.component.name), -1, []
        for text, position, call in zip(texts, calls.component.positions, count(1)):
            if position - call != skipped:
                skipped = position - call
                lines.append(f'{{"ph":"C","name":{name},"pid":{COMPONENTS},"ts":{text},"args":{{"tuples":{skipped}}}}}')
        self.put(lines)

    def put_flows(self, calls, texts):
        """The flows from the messages of each tuple to its call; the first one goes on to the output, or else begins at the call."""
        it, sent = calls.component, calls.sent
        known = [(role, channel) for role, channel in enumerate(calls.readers) if channel is not None]
        onward = range(self.flows + 1, self.flows + 1 + len(texts))
        phases = [STEP if on else FINISH for on in sent]
        for role, channel in known:
            ids = range(self.flows + 1, self.flows + 1 + len(texts))
            self.flows += len(texts)
            sources, lane = self.texts[channel], f'"pid":{CHANNELS},"tid":{self.track[channel]}'
            self.put(f'{BEGIN}{n},{lane},"ts":{sources[seq - 1]}}}' for n, seq in zip(ids, it.sequences[role :: it.width]))
            self.put(map(self.CALL_END, phases, ids, self.lanes_of(calls), texts))
            phases = repeat(FINISH)
        if not known:
            self.flows += len(texts)
            rows = zip(onward, sent, self.lanes_of(calls), texts)
            self.put(f'{BEGIN}{n},{lane},"ts":{text}}}' for n, on, lane, text in rows if on)
        if calls.out is not None:
            targets, lane = self.texts[calls.out], f'"pid":{CHANNELS},"tid":{self.track[calls.out]}'
            rows = zip(onward, sent, it.outputs)
            self.put(f'{FINISH}{n},{lane},"ts":{targets[out - 1]}}}' for n, on, out in rows if on)

    CALL_END = '{}{},{},"ts":{}}}'.format

    @staticmethod
    def lanes_of(calls):
        """The lane of each call, as events name it."""
        names = [f'"pid":{COMPONENTS},"tid":{track}' for track in calls.tracks]
        return map(names.__getitem__, calls.lanes)

    def put_names(self):
        """Names the lanes; those of one component stand together."""
        self.put_process(COMPONENTS, "components")
        for place, calls in enumerate(self.layout.calls):
            for number, track in enumerate(calls.tracks):
                name = calls.component.name + (f" ({number + 1})" if number else "")
                self.put_name(COMPONENTS, track, name, place * 10_000 + number)
        if self.run.times:
            self.put_process(CHANNELS, "channels")
        for channel, track in self.track.items():
            self.put_name(CHANNELS, track, channel, track)

    def put_process(self, process, name):
        self.put([f'{{"ph":"M","name":"process_name","pid":{process},"args":{{"name":"{name}"}}}}'])

    def put_name(self, process, track, name, place):
        lane = f'"pid":{process},"tid":{track}'
        self.put([
            f'{{"ph":"M","name":"thread_name",{lane},"args":{{"name":{json.dumps(name)}}}}}',
            f'{{"ph":"M","name":"thread_sort_index",{lane},"args":{{"sort_index":{place}}}}}',
        ])

    def write(self):
        about = {"first time in nanoseconds": str(self.run.first), "played": self.run.trace.played, "calls": self.run.trace.calls}
        about |= {"note": self.run.note} if self.run.note else {}
        self.file.write('{"displayTimeUnit":"ns","otherData":%s,"traceEvents":[\n' % json.dumps(about))
        self.file.write(f'{{"ph":"M","name":"process_sort_index","pid":{COMPONENTS},"args":{{"sort_index":1}}}}')
        for channel in self.run.times:
            self.put_messages(channel)
        for calls in self.layout.calls:
            texts = self.microseconds(calls.starts)
            self.put_calls(calls, texts)
            self.put_skips(calls, texts)
            self.put_flows(calls, texts)
        self.put_names()
        self.file.write("\n]}\n")


def decoded_messages(path, types):
    """By the name of each channel the texts of its messages, decoded where something describes them."""
    from messages import Record  # it needs more than a timeline does

    found = {}
    with opened(path) as data:
        record = Record(path, data, None, types, "timeline")
        for channel, _, _, content in record.messages():
            text = record.text(channel, content)
            text = text if len(text) <= LONGEST_MESSAGE else text[: LONGEST_MESSAGE - 3] + "..."
            found.setdefault(channel.decode("utf-8", "surrogateescape"), []).append(text)
    return found


def read_words():
    reader = argparse.ArgumentParser(description=__doc__.split("\n")[0])
    wirings = reader.add_mutually_exclusive_group()
    reader.add_argument("trace")
    reader.add_argument("--record", help="the record that was written with the trace")
    wirings.add_argument("--dag", help="the DAG file of the run, for which the program's `check` is called")
    wirings.add_argument("--wiring", help="what `cyber check` prints for the DAG file")
    reader.add_argument("--program", help="the program, by default the one that is built here, or else the one that is installed")
    reader.add_argument("--decode", action="store_true", help="what each message holds, decoded by the record's descriptions")
    reader.add_argument("--types", metavar="SET", help="a file with a FileDescriptorSet, for --decode")
    reader.add_argument("--begin", type=float, help="where a picture begins, in seconds from the first message")
    reader.add_argument("--end", type=float, help="where a picture ends, in seconds from the first message")
    reader.add_argument("-o", dest="out", required=True, help="a file that ends with .json, .json.gz, .png or .svg")
    words = reader.parse_args()
    words.is_picture = words.out.endswith((".png", ".svg"))
    if not words.out.endswith((".json", ".json.gz", ".png", ".svg")):
        reader.error("-o has to end with .json, .json.gz, .png or .svg")
    if not words.is_picture and (words.begin, words.end) != (None, None):
        reader.error("--begin and --end are for pictures")
    if words.program and not words.dag:
        reader.error("--program is for --dag")
    if words.types and not words.decode or words.decode and (words.is_picture or not words.record):
        reader.error("--types is for --decode, which is for timelines with --record")
    return words


def write(words):
    """Makes the picture or the timeline that the words ask for."""
    if words.is_picture:
        from picture import draw  # it needs matplotlib, which a timeline doesn't
    run = read_run(words.trace, words.record, words.wiring, words.dag, words.program)
    if run.note:
        print(f"timeline: {run.note}", file=sys.stderr)
    if words.is_picture:
        draw(run, words.out, words.begin or 0, words.end)
        return
    messages = decoded_messages(words.record, words.types) if words.decode else {}
    with gzip.open(words.out, "wt", 1, "utf-8") if words.out.endswith(".gz") else open(words.out, "w", encoding="utf-8") as file:
        Timeline(run, file, messages).write()


def main():
    words = read_words()
    try:
        write(words)
    except ImportError as error:
        package = "matplotlib" if words.is_picture else "protobuf"
        print(f"timeline: {error}; this needs the package {package} of pip, or python3-{package} of Debian", file=sys.stderr)
        return 1
    except (OSError, ValueError) as error:
        print(f"timeline: {fault_of(error)}", file=sys.stderr)
        return 1
    return 0


if __name__ == "__main__":
    sys.exit(main())
