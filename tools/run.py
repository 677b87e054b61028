"""A run as its trace, its record and its wiring tell it together."""
from array import array

from record import header_of, opened, whole_of
from tape import taped_messages
from trace import read_trace
from wiring import Deduction, check_wiring, read_wiring

COMPARED = 100  # how many values of a channel are compared with those of outputs


class Run:
    """A trace with the times of the messages by channel, and with the channels of each component, where they are known.

    `note` says why calls may be drawn at wrong times; it is empty where the time of each call's trigger is known.
    """

    def __init__(self, trace, times, wiring, note=""):
        self.trace, self.times, self.wiring, self.note = trace, times, wiring, note
        self.first = self.find_first()

    def find_first(self):
        """The least time that is known, from which a picture counts."""
        starts = [it[0] for it in self.times.values() if it]
        for component in self.trace.components:
            starts += [time for output, time in zip(component.outputs, component.times) if output][:1]
        return min(starts, default=0)

    def readers(self, component):
        """The channels that a component reads, None for one that isn't known or whose messages have no times."""
        channels = self.wiring.get(component.name, ([], None))[0]
        return [it if it in self.times else None for it in channels[: component.width]] + [None] * (component.width - len(channels))

    def out(self, component):
        """The channel that a component writes, where it is known and has messages."""
        channel = self.wiring.get(component.name, ([], None))[1]
        return channel if channel in self.times else None

    def triggers(self, component):
        """The times of the messages that trigger a component, None where they aren't known."""
        return next((self.times.get(it) for it in self.readers(component)), None)

    def begins(self, component):
        """The time of each call's trigger; where it isn't known the time of its output, or else of the call before it."""
        return component.begins(self.triggers(component), self.first)

    def skips(self, component):
        """The times of the triggers of all tuples that calls jumped over, where the trigger's channel is known."""
        return component.skips(self.triggers(component))


def times_of(trace, record):
    """The times of the messages of a record, by channel, and the values of the first ones of each channel.

    A ValueError tells where it is no record, or not that of this trace.
    """
    columns, values = [array("Q") for _ in trace.channels], [[] for _ in trace.channels]
    with opened(record) as data:
        header_of(data)
        for channel, number, time, content in taped_messages(trace, data):
            columns[channel].append(time)
            if number <= COMPARED:
                values[channel].append(whole_of(content))
    return dict(zip(trace.channels, columns)), dict(zip(trace.channels, values))


def check_tuples(run):
    """Raises a ValueError where a call is on messages that their channels don't have."""
    for it in run.trace.components:
        for role, channel in enumerate(run.readers(it)[: it.width]):
            if channel is not None:
                it.check_messages(role, channel, len(run.times[channel]))


def note_of(has_record, has_wiring, doubts):
    """Why calls may be drawn at wrong times, as far as it isn't known what the components read."""
    if has_record and has_wiring:
        return ""
    lacks = " and ".join(["--record"] * (not has_record) + ["--dag"] * (not has_wiring))
    if not has_record:
        return f"without {lacks} calls may be drawn at wrong times: each is at the time of its output, or of the output before it"
    why = f": more than one channel fits, or none, of {', '.join(doubts)}, and some flows are left out" if doubts else ""
    return f"without {lacks} calls may be drawn at wrong times, since what components read is guessed from the run{why}"


def read_run(trace, record=None, wiring=None, dag=None, program=None):
    """The run of files. Its wiring is what a file or the program says, or else it is guessed. A ValueError tells of files that make no run."""
    path, trace = trace, read_trace(trace)
    try:
        times, values = times_of(trace, record) if record else ({}, {})
    except ValueError as error:
        raise ValueError(f"{record}: {error}") from None
    found, doubts = {}, []
    if dag or wiring:
        found = check_wiring(dag, program) if dag else read_wiring(wiring)
    elif record:
        found, doubts = Deduction(trace, times, values).wiring()
    run = Run(trace, times, found, note_of(bool(record), bool(dag or wiring), doubts))
    try:
        check_tuples(run)
    except ValueError as error:
        raise ValueError(f"{path}: {error}") from None
    return run
