#!/usr/bin/env python3
"""Plays random records through random components, and compares what the program writes with what replay.py makes of the files.
One in five is played by `pass`; of the others a third has a stop, a third timer components, and in a third component files say where the
values of messages are. Where the program has the command `verify`, what it wrote is verified.

    replays.py PROGRAM COUNT SEED

prints how many of COUNT replays differ, and ends with status 1 where any does; the files of the first one stay in a folder.
"""
import os
import random
import struct
import subprocess
import sys
import tempfile

HERE = os.path.dirname(os.path.abspath(__file__))
sys.path.insert(0, os.path.join(HERE, "..", "tools"))
from record import block, content_of, forms_of, number, record, varint
from values import FOUR, VARINT, WIRE_TYPES, Way

KINDS = {"Pass": 1, "Filter": 1, "Sum": 1, "Count": 1, "Max": 1, "Window": 1, "Change": 1, "Select": 3, "Hold": 1, "Take": 1, "External": 1}
CHANNELS = ["/a", "/b", "/c", "/d"]
HALF_A_MILLISECOND = 500_000  # what a play with timers counts its times in, so that there are some ticks
BAD_CONTENTS = [b"", b"\xff", b"\x08", b"\x10\x02", b"\x0a\x01x"]


def parameters(kind, chance, unit):
    if kind == "Filter":
        low = chance.randint(-20, 10)
        return f"lo: {low} hi: {low + chance.randint(-1, 20)}"
    if kind == "Hold":
        return f"delay: {chance.choice([0, unit, 3 * unit, 10 * unit, 2**64 - 1])}"
    if kind in ("Window", "Take"):
        return f"n: {chance.randint(1, 5)}"
    return ""


def some_way(chance):
    """A way to the values of a channel: a path of up to three fields, and a kind."""
    kind = chance.choice(list(WIRE_TYPES))
    path = tuple(chance.randint(1, 3) for _ in range(chance.choice([1, 1, 2, 3])))
    return Way(path, kind, chance.choice([1, 10, 1000]) if kind in ("FLOAT", "DOUBLE") else 1)


def some_ways(channels, chance):
    """Ways for some of the channels, in a third of the plays for any."""
    is_any = chance.random() < 1 / 3
    return {it: some_way(chance) for it in channels if is_any and chance.random() < 0.5}


def written_value(channel, way, chance):
    """The field of a component file that gives a channel this way."""
    path = chance.choice([f"path: {list(way.path)}", " ".join(f"path: {it}" for it in way.path)])
    scale = "" if way.scale == 1 and chance.random() < 0.8 else f" scale: {way.scale}"
    return f'value {{ channel: "{channel}" {path} kind: {way.kind}{scale} }}'


def content_by(way, value, chance):
    """A content with a value where a way looks for it, or without a way where a whole number has it; and maybe some fields more."""
    if way is None:
        return content_of(value)
    *outer, inmost = way.path
    form = WIRE_TYPES[way.kind]
    if way.kind in ("FLOAT", "DOUBLE"):
        data = struct.pack("<f" if form == FOUR else "<d", (value + chance.choice([0, 0, 0.5])) / way.scale)
    elif form == VARINT:
        data = varint((2 * value if value >= 0 else -2 * value - 1) if way.kind.startswith("SINT") else value % 2**64)
    else:
        data = (value % 2**64).to_bytes(8, "little")[: 4 if form == FOUR else 8]
    content = varint(8 * inmost + form) + data
    for place in reversed(outer):
        content = block(place, chance.choice([b"", b"", number(7, 1), block(9, b"\xff")]) + content)
    return chance.choice([b"", b"", number(7, 300)]) + content + chance.choice([b"", b"", block(8, b"behind")])


def write_answers(number, out, chance, way):
    """Makes the record of an external component's answers, and gives the field that names it: some calls have no answer, and some answers
    no call; messages on other channels are none."""
    times = sorted(chance.sample(range(60), chance.randint(0, 40)))
    contents = [chance.choice(BAD_CONTENTS) if chance.random() < 0.1 else content_by(way, chance.randint(-20, 20), chance) for _ in times]
    found = [(out.encode(), time, content) for time, content in zip(times, contents)]
    for _ in range(chance.choice([0, 0, 3])):
        found.insert(chance.randint(0, len(found)), (b"/other", chance.randint(0, 60), b""))
    forms = chance.choice([{}, {}, {out.encode(): (b"an.Answer", b"")}, {out.encode(): (b"an.Answer", b"described")}])
    with open(f"c{number}.answers", "wb") as file:
        file.write(record(found, forms))
    return f'answers: "c{number}.answers"'


def file_of(number, kind, overflow, outs, chance, unit, ways):
    """The file of a component, but for the values that it gives."""
    if kind == "External":
        named = chance.choice(["", 'answers: ""', None, None, None, None])
        answers = write_answers(number, outs[number], chance, ways.get(outs[number])) if named is None else named
        return f'out: "{outs[number]}" out_type: "t{number}" {overflow} {answers}'
    return f'out: "{outs[number]}" out_type: "t{number}" {overflow} {parameters(kind, chance, unit)}'


def timer(number, outs, chance, ways):
    """A timer component of the DAG and its file."""
    kind = chance.choice([kind for kind, needed in KINDS.items() if needed == 1])
    config = f'name: "c{number}" config_file_path: "c{number}.conf" interval: {chance.choice([1, 1, 2, 3, 7])}'
    overflow = chance.choice(["", "on_overflow: OLDEST"])
    file = file_of(number, kind, overflow, outs, chance, HALF_A_MILLISECOND, ways)
    return f'timer_components {{ class_name: "{kind}Component" config {{ {config} }} }}', file


def component(number, triggers, outs, chance, unit, ways):
    """A component of the DAG and its file: its first reader is one of `triggers`, its channel one that no other writes."""
    kind = chance.choice(list(KINDS) + ["Hold", "Hold"])  # in a serial play none is too late but one that holds its output back
    overflow = chance.choice(["", "", "on_overflow: NEWEST", "on_overflow: OLDEST", "on_overflow: OLDEST"])
    queues = [2, 3] if "OLDEST" in overflow else [0, 1, 1, 2, 4]
    trigger = chance.choice(triggers)
    others = [it for it in dict.fromkeys(CHANNELS + outs + triggers) if it != trigger]
    readers = [trigger] + chance.sample(others, chance.randint(KINDS[kind] - 1, 3))
    texts = [f'readers {{ channel: "{it}" pending_queue_size: {chance.choice(queues)} }}' for it in readers]
    config = f'name: "c{number}" config_file_path: "c{number}.conf" {" ".join(texts)}'
    file = file_of(number, kind, overflow, outs, chance, unit, ways)
    return f'components {{ class_name: "{kind}Component" config {{ {config} }} }}', file


def scheduler(count, chance):
    tasks = " ".join(f'tasks {{ name: "c{k}" prio: {chance.randint(0, 25)} }}' for k in range(count) if chance.random() < 0.7)
    if chance.random() < 0.5:
        groups = f'groups {{ name: "g" {tasks} }} groups {{ name: "h" tasks {{ name: "c0" prio: 3 }} }}'
        return f"scheduler_conf {{ classic_conf {{ {groups} }} }}"
    pinned = tasks.replace(" prio", f" processor: {chance.randint(-1, 2)} prio")
    return f'scheduler_conf {{ policy: "choreography" choreography_conf {{ choreography_processor_num: 2 {pinned} }} }}'


def messages(chance, outs, unit, ways):
    found, time = [], chance.choice([0, unit // 2])
    for _ in range(chance.randint(0, 40)):
        time += chance.choice([0, 0, 1, 1, 2, 7]) * unit
        channel = chance.choice(CHANNELS + outs if chance.random() < 0.1 else CHANNELS)
        value = chance.choice([chance.randint(-20, 20), 2**63 - 1, -(2**63)] if chance.random() < 0.2 else [chance.randint(-20, 20)])
        content = chance.choice(BAD_CONTENTS) if chance.random() < 0.05 else content_by(ways.get(channel), value, chance)
        found.append((channel.encode(), time, content))
    if chance.random() < 0.3:
        chance.shuffle(found)
    return found


def options(chance, unit):
    words = []
    if chance.random() < 0.3:
        words += ["--channels", ",".join(chance.sample(CHANNELS, chance.randint(1, 4)))]
    if chance.random() < 0.2:
        words += [f"--drop={chance.choice(CHANNELS)}"]
    if chance.random() < 0.2:
        words += ["--begin", str(chance.randint(0, 20) * unit), "--end", str(chance.randint(10, 60) * unit)]
    return words


def stop(texts, times, chance):
    """The words of a stop, or none: of any component, or of one with the fewest readers, which mostly has calls; at the time of a
    message, or at any up to a bit above the last."""
    if chance.random() >= 1 / 3:
        return []
    number = chance.choice([chance.randrange(len(texts)), min(range(len(texts)), key=lambda k: texts[k].count("readers"))])
    time = chance.choice(times) if times and chance.random() < 0.3 else chance.randint(0, max(times, default=0) + 3)
    return chance.choice([["--stop", f"c{number}@{time}"], [f"--stop=c{number}@{time}"]])


def write_record(chance, outs, unit=1, ways=None):
    """Makes the record, some of whose messages stand on written channels, and gives the times of its messages."""
    found = messages(chance, outs, unit, ways or {})
    with open("in.rec", "wb") as file:
        file.write(record(found, {channel.encode(): (b"a.Type", b"described") for channel in ["/a"] + outs[1:]}))
    return [time for _, time, _ in found]


def given_values(ways, parts, outs, chance):
    """By the number of a component the values that its file gives. Those of channels that a built-in class writes can't be given."""
    written = {out for out, (text, _) in zip(outs, parts) if '"ExternalComponent"' not in text}
    found = {}
    for channel, way in ways.items():
        if channel not in written:
            found.setdefault(chance.randrange(len(parts)), []).append(written_value(channel, way, chance))
    return found


def write_files(chance, has_values=True):
    """Makes the files of a replay, and gives the words that name them."""
    plain, timers = chance.randint(1, 6), chance.choice([0, 0, 0, 0, 1, 2])
    count, unit = plain + timers, HALF_A_MILLISECOND if timers else 1
    outs, ticks = [f"/o{k}" for k in range(count)], [f"@timer/c{k}" for k in range(plain, count)]
    if chance.random() < 0.2:
        outs[0] = "/d"
    ways = some_ways(list(dict.fromkeys(CHANNELS + outs + ["/none"])), chance) if has_values else {}
    parts = [component(k, CHANNELS[:3] + outs[:k] + ticks, outs, chance, unit, ways) for k in range(plain)]
    parts += [timer(k, outs, chance, ways) for k in range(plain, count)]
    values = given_values(ways, parts, outs, chance)
    files = {"m.dag": "module_config { " + " ".join(text for text, _ in parts) + " }"}
    files |= {f"c{k}.conf": " ".join([text, *values.get(k, [])]) for k, (_, text) in enumerate(parts)}
    words = ["--dag", "m.dag", "--record", "in.rec"] + options(chance, unit)
    if chance.random() < 0.6:
        files["m.sched"] = scheduler(count, chance)
        words += ["--sched", "m.sched"]
    for name, text in files.items():
        with open(name, "w", encoding="utf-8") as file:
            file.write(text)
    return words + stop([text for text, _ in parts], write_record(chance, outs[:1] + ticks, unit, ways), chance)


def write_pass(chance):
    """Makes the record of a `pass`, and gives the words for it: its channels differ."""
    write_record(chance, [])
    return ["--record", "in.rec", "--pass", *chance.sample(CHANNELS + ["/x"], 2)]


def without(words, *names):
    """The words without some options and their values, of one word or two."""
    kept, is_value = [], False
    for word in words:
        if not is_value and word.partition("=")[0] not in names:
            kept.append(word)
        is_value = not is_value and word in names
    return kept


def verify_words(words, out, trace):
    """The words that verify the files of a play with these words: those of `play` but for the scheduler."""
    return ["--out", out, "--trace", trace, *without(words, "--sched")]


def has_verify(program):
    """Whether a program has the command `verify`: to one without it these words are of no known form."""
    words = ["verify", "--dag", "none.dag", "--record", "none.rec", "--out", "none.out", "--trace", "none.trace"]
    return subprocess.run([program, *words], capture_output=True).returncode != 2


def has_external(program):
    """Whether a program knows the class of external components: one without it says so of a DAG file that has one."""
    with tempfile.TemporaryDirectory() as folder:
        files = {
            "m.dag": 'module_config { components { class_name: "ExternalComponent" config '
            '{ name: "c" config_file_path: "c.conf" readers { channel: "/a" } } } }',
            "c.conf": 'out: "/o" out_type: "t"',
        }
        for name, text in files.items():
            with open(os.path.join(folder, name), "w", encoding="utf-8") as file:
                file.write(text)
        with open(os.path.join(folder, "in.rec"), "wb") as file:
            file.write(record([], {}))
        words = ["play", "--dag", "m.dag", "--record", "in.rec", "--out", "out.rec", "--trace", "out.trace"]
        return b"UnknownClass" not in subprocess.run([program, *words], capture_output=True, cwd=folder).stderr


def make_for(program):
    """Makes external components only for a program that knows their class."""
    if not has_external(program):
        KINDS.pop("External", None)


def write_passing(source, target):
    """Makes the DAG file that says what `pass` does, and gives the words that name it."""
    config = f'name: "pass" config_file_path: "pass.conf" readers {{ channel: "{source}" }}'
    with open("pass.dag", "w", encoding="utf-8") as file:
        file.write(f'module_config {{ components {{ class_name: "PassComponent" config {{ {config} }} }} }}')
    with open("in.rec", "rb") as record_file, open("pass.conf", "w", encoding="utf-8") as file:
        kind, _ = forms_of(record_file.read()).get(source.encode(), (b"", b""))
        file.write(f'out: "{target}" out_type: "{kind.decode()}"')
    return ["--dag", "pass.dag", "--record", "in.rec"]


def is_lawful(program, words):
    """Whether `verify` finds the files of a play to be those of a lawful run, and tells its numbers."""
    told = subprocess.run([program, "verify", *verify_words(words, "out.rec", "out.trace")], capture_output=True)
    with open("out.line", "rb") as file:
        return told.returncode == 0 and told.stdout == file.read().replace(b"done: ", b"lawful: ")


def is_as_expected(program, words, verifies):
    subprocess.run([sys.executable, f"{HERE}/replay.py", "want.rec", "want.trace", "want.line", *words], check=True)
    asked = ["play", "--serial", "--out", "out.rec", "--trace", "out.trace", *words]
    if "--pass" in words:
        asked = ["pass", "in.rec", "out.rec", "out.trace", *words[-2:]]
    played = subprocess.run([program, *asked], capture_output=True)
    with open("out.line", "wb") as file:
        file.write(played.stdout)
    pairs = [("out.rec", "want.rec"), ("out.trace", "want.trace"), ("out.line", "want.line")]
    if played.returncode != 0 or any(open(a, "rb").read() != open(b, "rb").read() for a, b in pairs):
        return False
    return not verifies or is_lawful(program, write_passing(*words[-2:]) if "--pass" in words else words)


def main():
    program, count, seed = os.path.abspath(sys.argv[1]), int(sys.argv[2]), int(sys.argv[3])
    differ, verifies = 0, has_verify(program)
    make_for(program)
    for number in range(count):
        folder = tempfile.mkdtemp()
        os.chdir(folder)
        chance = random.Random(f"{seed} {number}")
        words = write_pass(chance) if number % 5 == 4 else write_files(chance)
        if is_as_expected(program, words, verifies):
            subprocess.run(["rm", "-r", folder], check=True)
            continue
        differ += 1
        print(f"replay {number} differs: {' '.join(words)} in {folder}")
        break
    print(f"{count} replays{' with verify' if verifies else ''}, {'one differs' if differ else 'none differs'}")
    return min(differ, 1)


if __name__ == "__main__":
    sys.exit(main())
