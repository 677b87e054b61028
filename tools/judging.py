"""Whether a trace is that of a lawful run, rule by rule, as docs/RULES.md says under "A lawful run".

It knows a run by its trace alone: no events, and no order in which things were done but that of the tape. Each rule is looked at by itself,
over whole lists. They are looked at in the order of `RULES`, and each relies on those before it.
"""
from functools import cached_property
from itertools import accumulate
from typing import NamedTuple, Optional

from classes import Answers
from playlist import LAST_TIME, Message


class Task(NamedTuple):
    """What a run was to be: its components, its play list, and the stop, if there is one."""

    components: list
    played: list
    shadowed: int
    stop: Optional[tuple] = None  # the number of a component, and after how many played messages


class Fault(NamedTuple):
    """What no lawful run has, and the rule that says so."""

    line: int
    text: str
    rule: str


def rule_of(number, text):
    """A rule as it is told, with its number under "A lawful run"."""
    return f"{text} (docs/RULES.md, A lawful run, {number})"


def fetched(index, tail, queue, overflow):
    """The position that a fetch at an index finds, or None, where so many tuples were made."""
    if tail == 0 or index > tail:
        return None
    if index == 0:
        return tail
    if index + queue > tail:
        return index
    return tail if overflow == b"NEWEST" else tail - queue + 1


def fused(roles, width):
    """The tuples that arrivals make, each as the numbers of its messages: the k-th arrival of a role is message k of its channel."""
    counts, found = [0] * width, []
    for role in roles:
        counts[role] += 1
        if role == 0 and all(counts):
            found.append(tuple(counts))
    return found


def shown(name):
    return f'"{name.decode("utf-8", "replace")}"'


def message_text(message):
    """A message by its channel and its number, for a sentence."""
    return f"{message[0].decode('utf-8', 'replace')} {message[1]}"


def output_text(time, value):
    return f"@{time}" + ("" if value is None else f"={value}")


class Told:
    """A run as its trace tells it."""

    def __init__(self, task, trace):
        self.task, self.trace = task, trace
        self.pairs = list(zip(task.components, trace.parts))

    @cached_property
    def places(self):
        """The place of each message on the tape."""
        return {entry: place for place, entry in enumerate(self.trace.tape)}

    @cached_property
    def played_places(self):
        """Where messages of channels that no component writes stand on the tape."""
        written = {it.out for it in self.task.components}
        return [place for place, (name, _) in enumerate(self.trace.tape) if name not in written]

    @cached_property
    def outputs(self):
        """All that the components put out, as the calls tell it, by channel and number: the component, the call from 0 and the output."""
        rows = [(it.out, part, number, call.out) for it, part in self.pairs for number, call in enumerate(part.calls) if call.out]
        return {(channel, out.seq): (part, number, out) for channel, part, number, out in rows}

    @cached_property
    def messages(self):
        """By channel and number, each message of the tape, with its time and value as the play list and the calls tell them."""
        outs = {key: Message(*key, out.time, out.value, b"") for key, (_, _, out) in self.outputs.items()}
        return {(it.channel, it.seq): it for it in self.task.played} | outs

    @cached_property
    def outcomes(self):
        """By its first line, of each component the outcomes of its calls: what its class answers to the messages of their tuples."""
        return {part.line: list(map(Answers(it).answer, self.taken(it, part))) for it, part in self.pairs}

    def taken(self, component, part):
        """The messages of each call's tuple."""
        return ([self.messages[key] for key in zip(component.readers, call.seqs)] for call in part.calls)

    def on_channel(self, channel):
        """The numbers of the tape's messages of a channel, in order."""
        return [seq for name, seq in self.trace.tape if name == channel]

    def tape_line(self, place):
        return self.trace.tape_line + place

    def taped(self, place):
        """A message of the tape with its line, for a sentence."""
        return f"{message_text(self.trace.tape[place])} (line {self.tape_line(place)})"


def call_text(part, number):
    """A call by its component and its number, from 1, for a sentence."""
    return f"call {number + 1} of {shown(part.name)}"


def misnamed(told):
    """The counts are those of the play list, and the components are those of the DAG file."""
    trace, task = told.trace, told.task
    version = 2 if any(it.overflow == b"OLDEST" for it in task.components) else 1
    rule = "a trace names what was played (docs/FORMATS.md, Trace)"
    if trace.version != version:
        yield Fault(1, f"version {trace.version}, where these components have a trace of version {version}", rule)
    if (trace.played, trace.shadowed) != (len(task.played), task.shadowed):
        text = f"played {trace.played} and shadowed {trace.shadowed}, where {len(task.played)} messages are played"
        yield Fault(2, f"{text} and {task.shadowed} shadowed", rule)
    for component, part in told.pairs:
        if (part.name, part.overflow) != (component.name, component.overflow):
            text = f"component {shown(part.name)} overflow {part.overflow.decode()}"
            yield Fault(part.line, f"{text}, where {shown(component.name)} overflow {component.overflow.decode()} has to stand", rule)
    if len(trace.parts) != len(task.components):
        text = f"the trace has {len(trace.parts)} components, and the DAG file {len(task.components)}"
        yield Fault(trace.tape_line, text, rule)


def not_played(told):
    """The played messages of the tape are just those of the play list, in their order."""
    rule = rule_of(1, "what is played is the play list, in its order")
    list_of = [(it.channel, it.seq) for it in told.task.played]
    places = told.played_places
    for number, place in enumerate(places):
        message = told.trace.tape[place]
        if number >= len(list_of):
            yield Fault(told.tape_line(place), f"{message_text(message)} stands behind all messages of the play list", rule)
        elif message != list_of[number]:
            text = f"{message_text(message)} is played where the play list has {message_text(list_of[number])}"
            yield Fault(told.tape_line(place), text, rule)
    if len(places) < len(list_of):
        text = f"{message_text(list_of[len(places)])} of the play list isn't played"
        yield Fault(told.tape_line(len(told.trace.tape)), text, rule)


def not_sent(told):
    """The outputs of each component are numbered from 1, and just they stand on the tape, in their order."""
    rule = rule_of(2, "all outputs of a component's calls stand on the tape, numbered from 1, in the order of the calls")
    for component, part in told.pairs:
        outs = [(number, call.out.seq) for number, call in enumerate(part.calls) if call.out]
        for count, (number, seq) in enumerate(outs):
            if seq != count + 1:
                text = f"the output of {call_text(part, number)} has the number {seq}, and is output {count + 1}"
                yield Fault(part.line_of(number), text, rule)
        for count, seq in enumerate(told.on_channel(component.out)):
            if seq != count + 1 or count >= len(outs):
                place = [k for k, entry in enumerate(told.trace.tape) if entry[0] == component.out][count]
                text = f"{message_text((component.out, seq))} stands on the tape"
                why = "no call put it out" if count >= len(outs) else f"message {count + 1} of its channel comes next"
                yield Fault(told.tape_line(place), f"{text}, where {why}", rule)
        taped = len(told.on_channel(component.out))
        if taped < len(outs):
            text = f"the output of {call_text(part, outs[taped][0])} doesn't stand on the tape"
            yield Fault(part.line_of(outs[taped][0]), text, rule)


def not_delivered(told):
    """At each reader arrives all that the tape has of its channel."""
    rule = rule_of(3, "at each reader arrive all messages of its channel")
    for component, part in told.pairs:
        for role in part.roles:
            if role >= len(component.readers):
                text = f"something came to reader {role} of {shown(part.name)}, which has {len(component.readers)}"
                yield Fault(part.line + 1, text, rule)
        for role, channel in enumerate(component.readers):
            came, sent = part.roles.count(role), len(told.on_channel(channel))
            if came != sent:
                text = f"{came} messages came to reader {role} of {shown(part.name)}"
                yield Fault(part.line + 1, f"{text}, and the tape has {sent} of {channel.decode('utf-8', 'replace')}", rule)


def wrong_calls(told):
    """Each call takes the tuple that the fetch rule gives; tails never fall and are no more than the tuples that were made."""
    for component, part in told.pairs:
        tuples = fused(part.roles, len(component.readers))
        index = least = 0
        for number, call in enumerate(part.calls):
            line, what = part.line_of(number), call_text(part, number)
            if call.tail < least:
                yield Fault(line, f"{what} has the tail {call.tail}, and the call before it {least}", rule_of(4, "tails never fall"))
            if call.tail > len(tuples):
                text = f"{what} has the tail {call.tail}, and what came to it makes {len(tuples)} tuples"
                yield Fault(line, text, rule_of(4, "a tail is no more than the tuples that were made"))
            found = fetched(index, call.tail, component.queue, component.overflow)
            if found != call.position:
                text = f"{what} takes tuple {call.position}, where a fetch at {index} of {call.tail} tuples finds {found or 'nothing'}"
                yield Fault(line, text, rule_of(4, "a call takes the tuple that the fetch rule finds"))
            elif call.seqs != tuples[found - 1]:
                has, made = (" ".join(map(str, it)) for it in (call.seqs, tuples[found - 1]))
                text = f"{what} has the messages {has}, and tuple {found} is made of {made}"
                yield Fault(line, text, rule_of(4, "a tuple is a message of the first reader with the latest of each other one"))
            index, least = call.position + 1, call.tail


def wrong_outputs(told):
    """Each call puts out what its class answers, and none follows a component's last."""
    for component, part in told.pairs:
        is_through = False
        for number, (call, outcome) in enumerate(zip(part.calls, told.outcomes[part.line])):
            line, what = part.line_of(number), call_text(part, number)
            if is_through:
                yield Fault(line, f"{what} comes behind its last one", rule_of(5, "no call follows the last one of a component"))
            told_out = call.out and (call.out.time, call.out.value)
            if told_out != (outcome.out and outcome.out[:2]):
                puts, has = ("nothing" if it is None else output_text(*it[:2]) for it in (outcome.out, told_out))
                text = f"{what} has the output {has}, and {component.kind} puts out {puts}"
                yield Fault(line, text, rule_of(5, "a call puts out what its class answers"))
            is_through = is_through or outcome.is_last


def wrong_ends(told):
    """A component has ended, or waits and would find nothing; it has ended where its last call said so, and else where a stop names it."""
    for number, (component, part) in enumerate(told.pairs):
        following = part.calls[-1].position + 1 if part.calls else 0
        tuples, name = fused(part.roles, len(component.readers)), shown(part.name)
        is_last = any(it.is_last for it in told.outcomes[part.line][-1:])
        is_stopped = told.task.stop is not None and told.task.stop[0] == number
        if part.following != following:
            text = f"the next fetch of {name} is at {part.following}, and not at {following}"
            yield Fault(part.end_line, text, rule_of(4, "the next fetch begins behind the last one"))
        if part.state == b"FINISHED" and not is_last and not is_stopped:
            text = f"{name} is FINISHED, and neither its last call nor a stop ended it"
            yield Fault(part.end_line, text, rule_of(9, "a component ends by its last call or by its stop"))
        if part.state == b"DATA_WAIT" and is_last:
            text = f"{name} is in DATA_WAIT, and its last call ended it"
            yield Fault(part.end_line, text, rule_of(9, "a component ends by its last call or by its stop"))
        found = fetched(following, len(tuples), component.queue, component.overflow)
        if part.state == b"DATA_WAIT" and found is not None:
            text = f"{name} is in DATA_WAIT, and a fetch at {following} of {len(tuples)} tuples finds tuple {found}"
            yield Fault(part.end_line, text, rule_of(9, "a component that waits would find nothing"))


def without_causes(told):
    """Before an output stand all messages of all tuples up to the tail of the call that made it."""
    rule = rule_of(6, "an output stands behind each message of each tuple that was made when its call was")
    for component, part in told.pairs:
        tuples = fused(part.roles, len(component.readers))
        causes = [max(told.places[key] for key in zip(component.readers, it)) for it in tuples]
        last = list(accumulate(causes, max))  # the last message of each tuple and those before it
        for number, call in enumerate(part.calls):
            if call.out and last[call.tail - 1] >= told.places[component.out, call.out.seq]:
                place, cause = told.places[component.out, call.out.seq], told.taped(last[call.tail - 1])
                text = f"{message_text(told.trace.tape[place])}, of {call_text(part, number)}, stands before {cause}"
                yield Fault(told.tape_line(place), f"{text}, which is in one of its {call.tail} tuples", rule)


def too_early(told):
    """Each played message behind an output that was held back is later than it."""
    rule = rule_of(7, "a message that is played behind an output that was held back is later than that")
    times = [(LAST_TIME, place) for place in range(len(told.trace.tape))]
    for message, place in zip(told.task.played, told.played_places):
        times[place] = (message.time, place)
    behind = list(accumulate(reversed(times), min))[::-1]  # the earliest that is played from each place on
    for component, part in told.pairs:
        for number, (call, outcome) in enumerate(zip(part.calls, told.outcomes[part.line])):
            place = told.places[component.out, call.out.seq] if outcome.is_held else None
            if place is not None and behind[place][0] <= call.out.time:
                time, later = behind[place]
                text = f"{message_text(told.trace.tape[place])}, of {call_text(part, number)}, was held back until {call.out.time}"
                yield Fault(told.tape_line(place), f"{text}, and {told.taped(later)} is played behind it at {time}", rule)


def disobedient(told):
    """Of the calls of a stopped component at most one has a late message."""
    if told.task.stop is None:
        return
    number, after = told.task.stop
    component, part = told.pairs[number]
    places = told.played_places
    first = places[after] if after < len(places) else len(told.trace.tape)
    late = [k for k, call in enumerate(part.calls) if any(told.places[key] >= first for key in zip(component.readers, call.seqs))]
    for call in late[1:]:
        text = f"{call_text(part, call)} has a late message, as call {late[0] + 1} has: one at or behind line {told.tape_line(first)}"
        yield Fault(part.line_of(call), text, rule_of(8, "a component that is stopped has at most one call with a late message"))


RULES = [
    misnamed, not_played, not_sent, not_delivered, wrong_calls, wrong_outputs, wrong_ends, without_causes, too_early, disobedient,
]  # fmt: skip


def first_fault(told):
    """The first thing in a trace that no lawful run has, or None where it is lawful."""
    return next((fault for rule in RULES for fault in rule(told)), None)


def tape_of(told):
    """The messages of the tape of a lawful run, with their contents."""
    found = {(it.channel, it.seq): it for it in told.task.played}
    for key in told.trace.tape:
        if key in told.outputs:
            part, number, out = told.outputs[key]
            content = told.outcomes[part.line][number].out.content(lambda it: found[it.channel, it.seq].content)
            found[key] = Message(*key, out.time, out.value, content)
    return [found[key] for key in told.trace.tape]
