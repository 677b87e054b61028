"""What components of each class put out, as docs/RULES.md says."""
from typing import NamedTuple, Optional

from record import content_of
from values import held_within, value_by

LAST_TIME = 2**64 - 1
NEED_VALUES = {"FilterComponent", "MaxComponent", "WindowComponent", "ChangeComponent", "SelectComponent"}


class Out(NamedTuple):
    """An output: its time and its value or None. It passes a message on, or has the content of an answer; else its content is its value."""

    time: int
    value: Optional[int]
    passed: object = None
    answer: Optional[bytes] = None

    def content(self, passed):
        """Its content, where `passed` gives that of the message that it passes on."""
        if self.answer is not None:
            return self.answer
        return content_of(self.value) if self.passed is None else passed(self.passed)


class Outcome(NamedTuple):
    """What a call answers: an output or None, which is sent at once, or held back until its time, or is the component's last."""

    out: Optional[Out]
    is_held: bool = False
    is_last: bool = False


def passes(message, time=None):
    return Out(message.time if time is None else time, message.value, message)


class Answers:
    """A component as it answers tuples one after another; messages have a `time` and a `value`."""

    def __init__(self, component):
        self.component, self.calls, self.kept = component, 0, []

    def answer(self, messages):
        """The outcome of the next call, on these messages."""
        self.calls += 1
        component, first = self.component, messages[0]
        if component.kind == "HoldComponent":
            return Outcome(passes(first, min(first.time + component.parameter("delay"), LAST_TIME - 1)), is_held=True)
        if component.kind == "TakeComponent":
            return Outcome(passes(first), is_last=self.calls == component.parameter("n"))
        return Outcome(self.emitted(messages, first))

    def emitted(self, messages, first):
        """The output of a call that neither holds it back nor is the last, or None."""
        kind, value = self.component.kind, first.value
        if kind in NEED_VALUES and value is None:
            return None
        if kind == "ExternalComponent":
            content = self.component.answers.contents.get(self.calls)
            return None if content is None else Out(first.time, value_by(content, self.component.way), answer=content)
        if kind == "SumComponent":
            values = [it.value for it in messages]
            return None if None in values else Out(first.time, held_within(sum(values)))
        if kind == "CountComponent":
            return Out(first.time, held_within(self.calls))
        if kind == "FilterComponent":
            return passes(first) if self.component.parameter("lo") <= value <= self.component.parameter("hi") else None
        if kind == "MaxComponent":
            self.kept = [max([value] + self.kept)]
            return Out(first.time, self.kept[0])
        if kind == "WindowComponent":
            self.kept = (self.kept + [value])[-self.component.parameter("n") :]
            return Out(first.time, held_within(sum(self.kept)))
        if kind == "ChangeComponent":
            was, self.kept = self.kept, [value]
            return None if was == [value] else passes(first)
        if kind == "SelectComponent":
            return passes(messages[1] if value == 0 else messages[2], first.time)
        if kind != "PassComponent":
            raise ValueError(f"no class {kind}")
        return passes(first)
