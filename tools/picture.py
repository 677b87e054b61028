"""A picture of a run by matplotlib: a lane for each channel that was played and for each component."""
import re

import matplotlib

matplotlib.use("Agg")
import matplotlib.pyplot as plt
from matplotlib.lines import Line2D
from matplotlib.patches import Patch
from matplotlib.ticker import MaxNLocator

PLAYED, CALL, QUIET, HELD, SKIPPED = "#7f7f7f", "#1f5fa8", "#9dbfe3", "#f0b35a", "#d62728"
STEPS = 4000  # marks that stand closer than this part of the width are drawn as one
LANE = 0.36  # inches


class Axis:
    """The part of the run that is drawn, and its lanes."""

    def __init__(self, axes, begin, end, first):
        self.axes, self.begin, self.end, self.first = axes, begin, end, first

    def seconds(self, times):
        """The times within the picture, in seconds from the first message, those too close to tell apart once."""
        step = max((self.end - self.begin) / STEPS, 1e-9)
        places = {int(((time - self.first) / 1e9 - self.begin) / step) for time in times}
        return [self.begin + place * step for place in sorted(places) if 0 <= place <= STEPS]

    def ticks(self, times, row, low, high, colour):
        """Puts a mark at each time. They are one line with gaps, since thousands of lines would make a large file."""
        xs, ys = [], []
        for x in self.seconds(times):
            xs += [x, x, None]
            ys += [row + low, row + high, None]
        self.axes.plot(xs, ys, color=colour, linewidth=0.7, solid_capstyle="butt")

    def spans(self, begins, ends, row, colour):
        """Puts a bar from each begin to its end; those that touch are one."""
        step, bars = (self.end - self.begin) / STEPS, []
        for begin, end in zip(begins, ends):
            begin, end = (begin - self.first) / 1e9, (end - self.first) / 1e9
            begin, end = max(begin, self.begin), min(end, self.end)
            if begin >= end:
                continue
            if bars and begin <= sum(bars[-1]) + step:
                bars[-1] = (bars[-1][0], max(end, sum(bars[-1])) - bars[-1][0])
            else:
                bars.append((begin, end - begin))
        self.axes.broken_barh(bars, (row - 0.16, 0.32), facecolors=colour, linewidth=0)


def draw_component(axis, run, component, row):
    """Puts the calls of a component, the spans of its held outputs, and the tuples that it skipped."""
    begins = run.begins(component)
    made = [(begin, time, output) for begin, time, output in zip(begins, component.times, component.outputs)]
    held = [(begin, time) for begin, time, output in made if output and time > begin]
    axis.spans([it[0] for it in held], [it[1] for it in held], row, HELD)
    axis.ticks([it[0] for it in made if not it[2]], row, -0.32, 0.32, QUIET)
    axis.ticks([it[0] for it in made if it[2]], row, -0.32, 0.32, CALL)
    axis.ticks(run.skips(component), row, 0.16, 0.44, SKIPPED)


def label(name, what):
    """The text beside a lane; a dollar would begin a formula."""
    return f"{name}\n{what}".replace("$", r"\$")


def draw_lanes(axis, run):
    """Draws all lanes, the first one on top, and gives their texts."""
    written = {run.out(it) for it in run.trace.components}
    played = [it for it in run.times if it not in written]
    texts = []
    for channel in played:
        axis.ticks(run.times[channel], -len(texts), -0.25, 0.25, PLAYED)
        texts.append(label(channel, f"{len(run.times[channel])} messages"))
    for it in run.trace.components:
        draw_component(axis, run, it, -len(texts))
        skipped = f", {it.skipped} skipped" if it.skipped else ""
        texts.append(label(it.name, f"{len(it.positions)} calls{skipped}"))
    return texts, len(played)


def last_second(run):
    """The greatest time that is known, in seconds from the first message."""
    times = [max(it) for it in run.times.values() if it] + [max(it.times, default=0) for it in run.trace.components]
    return max((max(times, default=run.first) - run.first) / 1e9, 1e-6)


def draw(run, path, begin, end):
    """Writes the picture of a run, from a second to another, to a file whose name says its kind."""
    plt.rcParams.update({"svg.hashsalt": "timeline", "font.size": 8, "svg.fonttype": "none", "font.family": "sans-serif"})
    end = last_second(run) if end is None else end
    if not begin < end:
        raise ValueError("a picture has to end after it begins")
    figure, axes = plt.subplots(figsize=(10, 1))
    texts, channels = draw_lanes(Axis(axes, begin, end, run.first), run)
    figure.set_size_inches(10, LANE * len(texts) + 1.1)
    margin = (end - begin) * 0.005
    axes.set_xlim(begin - margin, end + margin)
    axes.set_ylim(-len(texts) + 0.4, 0.6)
    axes.set_yticks(range(0, -len(texts), -1), texts, fontsize=7)
    axes.xaxis.set_major_locator(MaxNLocator(10))
    axes.set_xlabel("seconds from the first message, by the messages' times")
    if 0 < channels < len(texts):
        axes.axhline(0.5 - channels, color="black", linewidth=0.6)
    for side in ("top", "right", "left"):
        axes.spines[side].set_visible(False)
    axes.tick_params(axis="y", length=0)
    marks = [("message played", PLAYED), ("call with an output", CALL), ("call without", QUIET), ("tuple skipped", SKIPPED)]
    handles = [Line2D([], [], color=colour, label=text) for text, colour in marks] + [Patch(color=HELD, label="output held")]
    figure.legend(handles=handles, loc="upper center", ncols=5, frameon=False, fontsize=8)
    height = figure.get_size_inches()[1]
    if run.note:
        figure.text(0.01, 0.06 / height, re.split("[:,]", run.note)[0], fontsize=7, color=SKIPPED)
    figure.tight_layout(rect=(0, 0.2 / height if run.note else 0, 1, 1 - 0.25 / height))
    figure.savefig(path, dpi=110, metadata={"Date": None} if path.endswith(".svg") else None)
    plt.close(figure)
