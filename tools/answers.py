"""The answers of an ExternalComponent: a record whose message with the time k, on the component's channel, is what its call k puts out."""
import os
from typing import NamedTuple

from record import each_message, forms_of, header_of, name_of, opened, record

MOST_ANSWERS = 4_194_304


class Answered(NamedTuple):
    """What an answers' record says of a channel: contents by the number of the call, and the type and the description."""

    contents: dict
    form: tuple


NONE = Answered({}, (b"", b""))


def read_answers(path, channel):
    """The answers of a component that writes this channel. A ValueError says why a file has none that `play` takes."""
    with opened(path) as data:
        try:
            header_of(data)
            return Answered(contents_of(data, channel), forms_of(data).get(channel, NONE.form))
        except ValueError as error:
            raise ValueError(f"{os.fsdecode(path)}: {error}") from None


def contents_of(data, channel):
    """The contents of the messages on a channel by their times, which rise."""
    found, before = {}, -1
    for name, time, content in each_message(data):
        if name == channel:
            if time <= before:
                raise ValueError(f"{'AnswerTwice' if time == before else 'AnswersFall'} {time}")
            found[time] = content
            before = time
    if len(found) > MOST_ANSWERS:
        raise ValueError(f"limit TooManyAnswers passed: {len(found)}")
    return found


def answers_record(channel, answered):
    """The record that has these answers."""
    return record([(channel, number, content) for number, content in answered.contents.items()], {channel: answered.form})


def check_only_answers(path, channel):
    """Raises a ValueError where a file, if it is there, isn't a record of this channel alone: it may be a recording, and isn't replaced."""
    if not os.path.lexists(path):
        return
    with opened(path) as data:
        try:
            header_of(data)
            other = next((name for name, _, _ in each_message(data) if name != channel), None)
        except ValueError as error:
            raise ValueError(f"{os.fsdecode(path)}: {error}; this file isn't replaced by answers") from None
    if other is not None:
        raise ValueError(f"{os.fsdecode(path)}: it has messages on {name_of(other)}, and isn't replaced by answers on {name_of(channel)}")
