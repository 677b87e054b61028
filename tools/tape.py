"""The messages of a record that a play wrote, told by the tape of the play's trace."""
from record import each_message


def taped_messages(trace, data):
    """Each message of a written record: the number of its channel in the trace, its number on this channel, its time and its content.

    A ValueError tells where this isn't the record of the trace.
    """
    names, counts = [it.encode("utf-8", "surrogateescape") for it in trace.channels], [0] * len(trace.channels)
    tape = zip(trace.tape_channels, trace.tape_sequences)
    for name, time, content in each_message(data):
        channel, number = next(tape, (None, 0))
        if channel is None or names[channel] != name:
            raise ValueError("not the record of this trace")
        counts[channel] += 1
        if counts[channel] != number:
            raise ValueError("not the record of this trace, whose tape has other numbers")
        yield channel, number, time, content
    if next(tape, None) is not None:
        raise ValueError("fewer messages than the trace's tape has")
