"""All that the page of a replay shows, as its template reads it."""
import hashlib
import os
from typing import NamedTuple

from reporting import charts, fields, graph
from reporting.lanes import MARKS, Timeline
from reporting.measures import GAP, clocks_of, measure_channel, measure_component
from reporting.page import json_text
from reporting.text import duration, exact, number, plural, rounded, shown

MOST_DATA = 2_800_000  # bytes of the timeline, so that a page has less than 5,000,000
GAPS_SHOWN = 4
CALLS_SHOWN = 10
PLOTS = 120
LONGEST_SCALE = 13  # letters of a number beside a plot
OPTIONS = ("channels", "drop", "begin", "end", "stop")  # that choose what is played


class Verdict(NamedTuple):
    """Whether the run is lawful, by the program."""

    state: str  # lawful, refused or unknown
    title: str
    text: str
    line: str = ""
    command: str = ""


def verdict_of(answer, command):
    """The verdict by what `verify` answered: a status and a line, or why it couldn't be asked."""
    status, line = answer
    if status is None:
        return Verdict("unknown", "Not verified", f"The program could not be asked: {line}.", "", command)
    if status == 0:
        return Verdict("lawful", "A lawful run", "cyber verify says that a lawful run has this trace and this record.", line, command)
    if status == 1:
        hint = "cyber verify refuses these files. For a trace that no lawful run has, tools/why_not.py says why."
        return Verdict("refused", "Refused", hint, line, command)
    return Verdict("unknown", "Not verified", f"cyber verify ended with status {status} and could not say.", line, command)


class File(NamedTuple):
    role: str
    path: str
    size: int
    digest: str


def file_of(role, path):
    """A file with its size and the beginning of its SHA-256 sum, by which another one can be told apart."""
    found = hashlib.sha256()
    with open(path, "rb") as file:
        while piece := file.read(1 << 20):
            found.update(piece)
    return File(role, shown(path), os.path.getsize(path), found.hexdigest()[:16])


class Histogram(NamedTuple):
    """A histogram with its title; each bar has a label, its count and the share of its height."""

    title: str
    unit: str
    bars: list
    summary: str

    @property
    def most(self):
        """The count of its highest bar."""
        return max(it["count"] for it in self.bars)


def labelled(bars, text):
    """The bars of a histogram, each with its label."""
    most = max(it.count for it in bars)
    return [
        {"label": text(it.low) if it.low == it.high else f"{text(it.low)} to {text(it.high)}", "count": it.count, "share": it.count / most}
        for it in bars
    ]


def lag_texts(lags):
    """Lags in a few words, and in some further ones where they differ."""
    if not lags:
        return "–", ""
    least, greatest = min(lags), max(lags)
    if least == greatest:
        return exact(least) if least else "none", ""
    return duration(charts.quantile(lags, 0.5)), f"at most {duration(greatest)}"


def lag_histogram(title, lags):
    """How far behind its trigger each output is, None where all are as far."""
    if len(lags) < 2:
        return None
    middle, most = (duration(charts.quantile(lags, it)) for it in (0.5, 0.99))
    summary = f"Least {duration(min(lags))}, median {middle}, 99 % within {most}, greatest {duration(max(lags))}."
    bars = charts.histogram(lags)
    # A bar of more than one nanosecond is named by where it begins and where the next one does.
    bars = [it._replace(high=it.high + 1) for it in bars] if bars[0].high > bars[0].low else bars
    return Histogram(title, "outputs", labelled(bars, exact), summary)


def skip_histogram(measures):
    """How many tuples were skipped in a row, None where none was."""
    if not measures.skips:
        return None
    times = sum(measures.skips.values())
    summary = f"{number(measures.skipped)} skipped, {plural(times, 'time')}; at most {number(measures.longest_skip)} in a row."
    return Histogram("Tuples skipped in a row", "times", labelled(charts.histogram(measures.skips), number), summary)


def waiting_histogram(measures):
    """How many newer tuples there were when a call took its own, None where there never was one."""
    if not measures.waiting or max(measures.waiting) == 0:
        return None
    behind = sum(count for waiting, count in measures.waiting.items() if waiting)
    summary = f"{number(behind)} of {number(measures.calls)} calls took a tuple that was not the newest"
    summary += f"; at most {number(max(measures.waiting))} were newer."
    return Histogram("Newer tuples at a call", "calls", labelled(charts.histogram(measures.waiting), number), summary)


def histograms_of(measures):
    """All histograms of a component, None for those that would have one bar."""
    yield lag_histogram("Lag of outputs", measures.lags)
    if measures.delays != measures.lags:
        yield lag_histogram("Outputs sent after", measures.delays)
    yield skip_histogram(measures)
    yield waiting_histogram(measures)


def component_row(component, part, measures, command):
    """What the page shows of a component; the command is that which was asked for its answers, or None."""
    return {
        "name": component.name,
        "kind": part.kind or "unknown",
        "command": command,
        "reads": part.readers,
        "out": part.out,
        "queue": part.queue if part.kind else None,
        "interval": part.interval,
        "overflow": component.overflow,
        "measures": measures,
        "lag": lag_texts(measures.lags), "delay": lag_texts(measures.delays),
        "most_lag": max(measures.lags, default=0), "most_delay": max(measures.delays, default=0),
        "untaken": max(measures.tuples - (component.positions[-1] if component.positions else 0), 0),
        "histograms": [it for it in histograms_of(measures) if it],
    }


def channel_row(replay, channel, measures):
    """What the page shows of a channel."""
    maker = replay.makers.get(channel.name)
    return {
        "name": channel.name,
        "kind": channel.kind,
        "maker": maker.name if maker else None,
        "is_ticks": any(part.interval is not None and part.readers == [channel.name] for _, part in replay.components),
        "readers": [component.name for component, part in replay.components if channel.name in part.readers],
        "measures": measures,
        "since": measures.first - replay.first if measures.count else None,
        "until": measures.last - replay.first if measures.count else None,
        "gaps": sorted(measures.gaps, key=lambda it: -it.length)[:GAPS_SHOWN],
    }


def graph_of(replay):
    """The graph of channels and components, None where it can't be drawn. Channels that no component reads or writes aren't in it."""
    names = dict.fromkeys(name for _, part in replay.components for name in [*part.readers, part.out] if name is not None)
    counts = {name: len(it.times) for name, it in replay.channels.items()}
    nodes = [graph.node_of("channel", shown(it), plural(counts.get(it, 0), "message")) for it in names]
    places = {name: place for place, name in enumerate(names)}
    edges = []
    for component, part in replay.components:
        here = len(nodes)
        kind = "timer" if part.interval is not None else "component"
        notes = graph.shortened(shown(part.kind)) or "unknown class", plural(len(component.positions), "call")
        nodes.append(graph.node_of(kind, shown(component.name), *notes))
        edges += [graph.Edge(places[name], here, role == 0) for role, name in enumerate(part.readers)]
        edges += [graph.Edge(here, places[part.out], True)] if part.out is not None else []
    return graph.lay_out(nodes, edges)


class Series(NamedTuple):
    """Numbers of a channel that are plotted: its whole numbers, or those of a field of its messages."""

    channel: str
    field: str
    times: list
    values: list
    is_part: bool  # whether the channel has more messages than these


def series_of(replay):
    """All numbers that are plotted."""
    for channel in replay.channels.values():
        times, values = charts.whole_numbers(channel)
        if len(values) > 1:
            yield Series(channel.name, "", times, values, False)
        for name, times, values in fields.numbers_of(channel):
            yield Series(channel.name, name, times, values, channel.step > 1)


def plots_of(replay):
    """The plots of all channels with numbers, and how many have no room on the page."""
    series = list(series_of(replay))
    most = min(charts.MOST_POINTS, charts.ALL_POINTS // max(min(len(series), PLOTS), 1))
    plots = []
    for it in series[:PLOTS]:
        drawn = charts.plot(it.times, it.values, replay.first, replay.span, most)
        plots.append({
            "channel": it.channel, "field": it.field, "points": drawn.points, "count": drawn.count,
            "low": number_text(drawn.low), "high": number_text(drawn.high), "scale": scale_of(drawn),
            "is_sampled": drawn.is_sampled or it.is_part,
        })
    return plots, len(series) - len(plots)


def scale_of(drawn):
    """What is beside a plot, above and below. In place of long numbers, which its caption has, it is how far they are apart."""
    high, low = number_text(drawn.high), number_text(drawn.low)
    return (high, low) if max(len(high), len(low)) <= LONGEST_SCALE else (f"+{number_text(drawn.high - drawn.low)}", "least")


def number_text(value):
    """A number beside a plot."""
    return number(value) if isinstance(value, int) else rounded(value, 6)


def calls_shown(replay, name, numbers):
    """The first of some calls with their times, so that the timeline can show them."""
    component, part = next(it for it in replay.components if it[0].name == name)
    begins = replay.begins_of(component, part)
    return [(it, begins[it - 1] - replay.first) for it in numbers[:CALLS_SHOWN]]


def difference_text(comparison):
    """How much differs, in a sentence."""
    counts = [("messages of", len(comparison.channels), "channel"), ("calls of", len(comparison.calls), "component")]
    text = " and ".join(f"{what} {plural(count, word)}" for what, count, word in counts if count)
    return f"{text.capitalize()} differ." if text else ""


def comparison_view(replay, comparison):
    """What differs from a good run, as the page shows it."""
    if comparison is None:
        return None
    calls = []
    for it in comparison.calls:
        only_here, changed = (calls_shown(replay, it.component, numbers) for numbers in (it.only_here, it.changed))
        calls.append({"difference": it, "only_here": only_here, "changed": changed})
    return {
        "folder": comparison.folder, "is_same": comparison.is_same, "is_same_tape": comparison.is_same_tape,
        "channels": comparison.channels, "calls": calls, "missing": comparison.missing, "summary": difference_text(comparison),
    }


def timeline_of(replay, measures):
    """The timeline, what the page's script reads of it, and that as a text. Of a run whose marks take much room there are fewer."""
    marks = MARKS
    while True:
        timeline = Timeline(replay, marks)
        data = timeline.data(measures)
        text = json_text(data)
        if len(text) <= MOST_DATA or marks < 1000:
            return timeline, data, text
        marks = marks * MOST_DATA // len(text) * 9 // 10


def view_of(replay, words, verdict, wiring, comparison):
    """The page as a dictionary. `words` are those of the tool's call, and `wiring` has what `check` printed, or why it wasn't asked."""
    channel_measures = {name: measure_channel(it) for name, it in replay.channels.items()}
    timeline, data, text = timeline_of(replay, channel_measures)
    clocks = clocks_of(replay)
    components, commands = [], dict(it.partition("=")[::2] for it in words.run or [])
    for it, part in replay.components:
        measures = measure_component(it, timeline.begins[part.name], clocks.get(part.name, ()))
        components.append(component_row(it, part, measures, commands.get(it.name)))
    channels = [channel_row(replay, it, channel_measures[it.name]) for it in replay.channels.values()]
    lanes = {item.name: place for place, (kind, item) in enumerate(timeline.lanes) if kind == "channel"}
    component_lanes = {item[0].name: place for place, (kind, item) in enumerate(timeline.lanes) if kind == "component"}
    trace, (plots, left) = replay.trace, plots_of(replay)
    return {
        "title": shown(words.title or f"Replay of {os.path.basename(words.record)}"),
        "verdict": verdict,
        "replay": replay,
        "files": [file_of(*it) for it in files_of(words)],
        "options": [(name, shown(getattr(words, name))) for name in OPTIONS if getattr(words, name)],
        "wiring": wiring,
        "facts": [
            ("Messages played", trace.played), ("Shadowed", trace.shadowed), ("Calls", trace.calls),
            ("Outputs", sum(it["measures"].outputs for it in components)),
            ("Tuples skipped", sum(it["measures"].skipped for it in components)), ("Messages written", len(trace.tape_channels)),
        ],
        "components": components,
        "channels": channels,
        "lanes": lanes, "component_lanes": component_lanes,
        "graph": graph_of(replay), "unwired": sum(not it["readers"] and it["maker"] is None for it in channels),
        "plots": plots, "plots_left": left, "few": charts.FEW_POINTS,
        "comparison": comparison_view(replay, comparison),
        "timeline": text, "is_sampled": any("counts" in lane for lane in data["lanes"]), "piece": duration(replay.span // data["pieces"]),
        "gap": GAP,
    }


def files_of(words):
    """The files of a replay by what they are."""
    named = [("DAG file", words.dag), ("Scheduler file", words.sched), ("Record that was played", words.record)]
    return [it for it in named + [("Record that was written", words.out), ("Trace", words.trace)] if it[1]]
