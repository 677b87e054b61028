#!/usr/bin/env python3
"""Clicks, zooms, drags and types in pages of replays and batches, in a headless Chromium, and looks at what comes of it.

    click_report.py PART=PAGE...

PART is one of those below: each says what its page has to be of. Prints a line for each thing that isn't as it should be, and ends with
status 1 where there is one, and with 3 where there is no Chromium.
"""
import sys

from browser import browser, find_browser

CTRL = 2  # of the modifiers of an event
faults = []


def look(is_well, text):
    """Notes what isn't as it should be."""
    if not is_well:
        faults.append(text)


class Timeline:
    """The timeline of a page that is open."""

    def __init__(self, page):
        self.page = page
        page.run("document.getElementById('details').scrollIntoView({behavior: 'instant'})")
        page.settle()

    @property
    def state(self):
        """What the canvas says of itself."""
        data = self.page.run("({...document.getElementById('canvas').dataset})")
        numbers = {key: float(data[key]) for key in ("begin", "end", "left", "right", "top", "laneHeight")}
        return numbers | {"mark": data["mark"], "lane": data["lane"]}

    @property
    def span(self):
        return self.state["end"] - self.state["begin"]

    def place(self, lane, time, share=0.6):
        """Where a time of a lane is in the window; `share` is how far down in the lane."""
        it = self.state
        box = self.page.run("(() => { const it = document.getElementById('canvas').getBoundingClientRect(); return [it.left, it.top]; })()")
        x = it["left"] + (time - it["begin"]) / (it["end"] - it["begin"]) * (it["right"] - it["left"])
        scrolled = self.page.run("document.getElementById('frame').scrollTop")
        return box[0] + x, box[1] + it["top"] + (lane + share) * it["laneHeight"] - scrolled

    def time_at(self, x):
        it = self.state
        left = self.page.run("document.getElementById('canvas').getBoundingClientRect().left") + it["left"]
        return it["begin"] + (x - left) / (it["right"] - it["left"]) * (it["end"] - it["begin"])

    def details(self):
        return self.page.run("[...document.getElementById('details').children].map((it) => it.textContent)")

    def point(self, lane, time, share=0.6):
        """What is said of the mark at a time of a lane."""
        self.page.move(*self.place(lane, time, share))
        return self.details()

    def colour(self, lane, time, share):
        """The colour that is drawn at a time of a lane."""
        x, y = self.place(lane, time, share)
        return self.page.run(f"""(() => {{
            const canvas = document.getElementById('canvas'), box = canvas.getBoundingClientRect(), scale = canvas.width / box.width;
            const [x, y] = [({x} - box.left) * scale, ({y} - box.top) * scale];
            return [...canvas.getContext('2d').getImageData(x, y, 1, 1).data].slice(0, 3);
        }})()""")

    def press(self, *keys):
        self.page.run("document.getElementById('canvas').focus({preventScroll: true})")
        for key in keys:
            self.page.press(key)

    def button(self, action):
        self.page.run(f"document.querySelector('[data-do={action}]').click()")
        self.page.settle()


def is_near(one, other, share=0.01):
    return abs(one - other) <= share * max(abs(one), abs(other), 1e-9)


def burst(page):
    """The page of examples/burst, played serially; its runs are told in examples/README.md."""
    page.set_size(1280, 900)
    page.open(page.path)
    line = Timeline(page)
    points_at_the_burst(line)
    zooms_the_burst(page, line)
    drags_the_burst(page, line)
    walks_the_burst(line)
    page.run("[...document.querySelectorAll('#channels button.link')].find((it) => it.textContent === '4 ns at 5 ns').click()")
    page.settle()
    look(line.details() == ["Gap on /total", "No message for 4 ns, from 5 ns to 9 ns."], f"a gap that is chosen says {line.details()}")
    look(line.state["begin"] < 5 and line.state["end"] > 9 and line.span < 13, f"a gap isn't shown: {line.state}")


SECOND_CALL = [
    "Call 2 of total (HoldComponent), triggered at 4 ns (time 5)",
    "It took tuple 5 of 7, 2 newer tuples waiting; 3 tuples skipped just before. Its messages: /speed 5 at 4 ns.",
    "It put out /total 2 at 9 ns (time 10), held back for 5 ns, value 50.",
]


def points_at_the_burst(line):
    """Lanes are /speed, control, /control, total and /total."""
    look(line.point(0, 2) == ["Message 3 of /speed", "Played at 2 ns (time 3), value 30."], f"a message says {line.details()}")
    look(line.point(3, 4, 0.52) == SECOND_CALL, f"a call says {line.details()}")
    look(line.point(3, 7.5, 0.52) == SECOND_CALL, f"a held output says {line.details()}")
    look(line.point(1, 3, 0.15)[0] == "Tuple skipped by control", f"a skipped tuple says {line.details()}")
    look(line.point(4, 7)[0] == "Gap on /total", f"a gap says {line.details()}")
    look(len(line.point(2, 2)) == 1, f"where nothing is, it says {line.details()}")
    look(line.colour(1, 2.5, 0.4) == [196, 127, 20], f"a held output has the colour {line.colour(1, 2.5, 0.4)}")
    look(line.colour(1, 5.5, 0.4) == [245, 246, 248], f"where nothing is, the colour is {line.colour(1, 5.5, 0.4)}")


def zooms_the_burst(page, line):
    whole = line.state
    x, y = line.place(2, 2)
    page.wheel(x, y, -300)
    look(line.state["begin"] == whole["begin"], "the wheel zooms a timeline that wasn't clicked")
    line = Timeline(page)
    x, y = line.place(2, 2)
    page.wheel(x, y, -300, CTRL)
    look(line.span < 0.7 * (whole["end"] - whole["begin"]), f"Ctrl and the wheel don't zoom: {line.state}")
    line.button("all")
    look(line.state["begin"] == whole["begin"] and line.state["end"] == whole["end"], f"the whole run isn't shown: {line.state}")
    page.click(x, y)
    page.wheel(x, y, -300)
    look(line.span < 0.7 * (whole["end"] - whole["begin"]), f"the wheel doesn't zoom: {line.state}")
    look(abs(line.time_at(x) - 2) < 0.05, f"the wheel zooms around {line.time_at(x)}, and not around 2")
    line.button("all")
    line.button("in")
    look(is_near(line.span, (whole["end"] - whole["begin"]) / 2), f"the button zooms to {line.span}")
    line.button("out")
    look(is_near(line.span, whole["end"] - whole["begin"]), f"the button zooms out to {line.span}")
    line.button("in")
    before = line.state
    line.button("later")
    look(is_near(line.state["begin"] - before["begin"], 0.3 * (before["end"] - before["begin"])), f"the button moves to {line.state}")
    line.button("earlier")
    look(is_near(line.state["begin"], before["begin"]), f"the button moves back to {line.state}")


def drags_the_burst(page, line):
    before = line.state
    x, y = line.place(2, 6)
    page.drag(x, y, x + 100, y)
    moved = (before["begin"] - line.state["begin"]) / (before["end"] - before["begin"]) * (before["right"] - before["left"])
    look(abs(moved - 100) < 2, f"a drag of 100 pixels moves {moved}")
    look(line.state["mark"] == "", "a drag chooses something")


def walks_the_burst(line):
    """By keys, and with what is chosen kept while the pointer is elsewhere."""
    line.press("0", "Escape", "ArrowDown", "ArrowDown", "ArrowDown", "ArrowDown")
    look(line.state["lane"] == "3", f"the arrows choose lane {line.state['lane']}")
    line.press("p", "p", "p", "p", ".")
    look(line.details() == SECOND_CALL, f"the keys choose {line.details()}")
    look(line.point(0, 2) == SECOND_CALL, "what is chosen isn't kept")
    span = line.span
    line.press("+")
    look(is_near(line.span, span / 2), f"a key zooms to {line.span}")
    line.press("-", "Escape")
    look(is_near(line.span, span) and line.state["mark"] == "", f"keys let go to {line.state}")


def drive(page):
    """The page of examples/drive, played serially."""
    page.set_size(1280, 900)
    page.open(page.path)
    page.press("Tab")
    first = page.run("document.activeElement.textContent")
    look(first == "Skip to the timeline", f"the first thing that Tab comes to is {first}")
    sorts_by(page, "components", 4, ["limit", "late", "frames", "margin", "smooth"])
    sorts_by(page, "channels", 4, ["/limit/new", "/map/limit", "/camera/frame", "/late/frame", "/frames"])
    line = Timeline(page)
    line.press("ArrowDown", "ArrowDown", "ArrowDown", "ArrowDown", "ArrowDown", "ArrowDown", "ArrowDown")
    line.press("+", "+", "+", "+", "+", "+", "+")
    look(line.details()[0].startswith("Call ") and " of margin (SumComponent)" in line.details()[0], f"the keys choose {line.details()}")
    look("/map/limit 3 at 8.699920912 s" in line.details()[1], f"a call on two channels says {line.details()}")
    is_for_phones(page)


def sorts_by(page, section, column, first):
    """A click on a head sorts a table, and another one the other way; so does the keyboard."""
    head = f"document.querySelector('#{section} thead').rows[0].cells[{column}]"
    names = f"[...document.querySelector('#{section} tbody').rows].map((it) => it.cells[0].querySelector('bdi').textContent)"
    page.run(f"{head}.querySelector('button').click()")
    order = page.run(names)
    look(order[: len(first)] == first and page.run(f"{head}.ariaSort") == "ascending", f"{section} sorts to {order}")
    page.run(f"{head}.querySelector('button').focus()")
    page.press("Enter")
    order = page.run(names)
    look(order[-1] == first[0] and page.run(f"{head}.ariaSort") == "descending", f"{section} sorts back to {order}")


def open_on_phone(page):
    """Opens the page where nothing may be wider than a phone but what scrolls by itself, and no head of a row hides its cells."""
    page.set_size(390, 844, True, 2)
    page.open(page.path)
    width = page.run("document.documentElement.scrollWidth")
    look(width == 390, f"the page is {width} wide on a phone")
    widest = page.run("Math.max(0, ...[...document.querySelectorAll('.wide tbody th')].map((it) => it.offsetWidth))")
    look(widest <= 250, f"a head of a row is {widest} wide on a phone")


def is_for_phones(page):
    """Fingers move, zoom and choose."""
    open_on_phone(page)
    low = page.run("[...document.querySelectorAll('.tools button')].filter((it) => it.offsetHeight < 44).length")
    look(low == 0, f"{low} buttons are too low for a finger")
    line = Timeline(page)
    span = line.span
    x, y = line.place(3, 10e9)
    page.touch("touchStart", [(x - 30, y), (x + 30, y)])
    page.touch("touchMove", [(x - 90, y), (x + 90, y)])
    page.touch("touchEnd", [])
    look(is_near(line.span, span / 3, 0.1), f"two fingers zoom from {span} to {line.span}")
    begin = line.state["begin"]
    page.touch("touchStart", [(200, y)])
    for step in range(5):
        page.touch("touchMove", [(200 - 20 * step, y)])
    page.touch("touchEnd", [])
    look(line.state["begin"] > begin, "a finger doesn't move the timeline")
    line.button("all")
    x, y = line.place(3, 4.699920912e9)
    page.touch("touchStart", [(x, y)])
    page.touch("touchEnd", [])
    look(line.details()[0] == "Message 2 of /map/limit", f"a finger chooses {line.details()}")
    page.set_size(12, 844, True, 2)  # no script may fail in a window that has no room for a timeline
    page.settle()


def names(page):
    """The page of a run with names that could mean something to a page, of tests/tools/hostile_names.py."""
    page.set_size(1280, 900)
    page.open(page.path)
    text = page.run("document.body.innerText")
    tag = "<script>window.hacked = 1</script>"
    for name in (f"</script>{tag}", 'a "quoted" & <b>bold</b>\\nname', "right\\u202eleft\\u2028{{ 7 * 7 }}", "\\u2029<!--"):
        look(name in text, f"the page doesn't have the text {name}")
    look(page.run("typeof window.hacked") == "undefined", "a name was run")
    strange = page.run("document.querySelectorAll('img, b, main svg svg, section script').length")
    look(strange == 0, f"names have become {strange} elements")
    line = Timeline(page)
    line.press("ArrowDown", "ArrowDown", "ArrowDown", "ArrowDown")
    look(line.details()[0].startswith("Call ") and f"</title>{tag}" in line.details()[0], f"a call says {line.details()}")
    open_on_phone(page)


def sampled(page):
    """The page of 60,000 messages that are passed on, of tests/tools/long_run.py."""
    page.set_size(1280, 900)
    page.open(page.path)
    text = page.run("document.getElementById('timeline').innerText")
    look("This timeline is sampled" in text, "the page doesn't say that it is sampled")
    line = Timeline(page)
    line.press("ArrowDown", "ArrowDown", *"+++++++++++++")
    number = int(line.state["mark"].split()[1])
    look(line.details()[0].startswith(f"Call {number:,} of pass (PassComponent), triggered at "), f"a call says {line.details()}")
    look(f"Its messages: /in {number:,} at " in line.details()[1], f"a call says {line.details()}")
    line.press("Escape")
    # Beside a mark that is in the page there are others that it doesn't have.
    said = line.point(1, (number - 0.5) * 1e6)
    look(said[0] == "pass" and "The page has some of them." in said[1], f"where no mark is, it says {said}")


def empty(page):
    """The page of a run without a message."""
    page.set_size(1280, 900)
    page.open(page.path)
    line = Timeline(page)
    line.press("ArrowDown", ".", "+", "0")
    look(line.details() == ["pass", "0 calls."], f"a lane without a mark says {line.details()}")


def good(page):
    """The page of examples/burst, compared with a run in which `total` goes on at the newest tuple, as `control` does."""
    page.set_size(1280, 900)
    page.open(page.path)
    rows = page.run("[...document.querySelectorAll('#good tbody tr')].map((row) => [...row.cells].map((it) => it.innerText.trim()))")
    want = ["/total", "2", "time", "50 at 9 ns", "70 at 11 ns", "5", "3"]
    look(rows and rows[0] == want, f"the first difference is {rows[:1]}, and not {want}")
    look(len(rows) == 2 and rows[1][:4] == ["total", "2", "0", "0"], f"the calls that differ are {rows[1:]}")
    page.run("[...document.querySelectorAll('#good button.link')].at(-1).click()")
    page.settle()
    said = Timeline(page).details()
    look(said[0] == "Call 3 of total (HoldComponent), triggered at 5 ns (time 6)", f"a call that is only here says {said}")


def batch(page):
    """The page of a batch of 200 drives, of which the 7th and the 11th failed."""
    page.set_size(1280, 900)
    page.open(page.path)
    seen = "[...document.querySelectorAll('tbody tr')].filter((it) => !it.hidden).map((it) => it.cells[0].textContent.trim())"
    said = "document.querySelector('output').textContent"
    page.run("document.querySelector('[name=text]').focus()")
    page.type("d19")
    want = ["d19"] + [f"d{it}" for it in range(190, 200)]
    look(page.run(seen) == want and page.run(said) == "11 of 200 drives", f"a search finds {page.run(seen)}, {page.run(said)}")
    page.run("document.querySelector('[name=text]').value = ''")
    choose = """(() => {
        const it = document.querySelector('[name=mark]');
        it.value = '%s';
        it.dispatchEvent(new Event('input', {bubbles: true}));
    })()"""
    page.run(choose % "failed")
    look(page.run(seen) == ["d7", "d11"], f"failed are {page.run(seen)}")
    page.run(choose % "")
    sorts_by(page, "drives", 0, ["d1", "d2", "d3"])
    links = page.run("[...document.querySelectorAll('tbody a')].map((it) => it.getAttribute('href'))")
    look("d1/report.html" in links, f"the drives are linked to {links[:3]}")
    open_on_phone(page)


PARTS = {it.__name__: it for it in (burst, drive, names, sampled, empty, good, batch)}


def main():
    path = find_browser()
    if path is None:
        return 3
    with browser(path) as page:
        for word in sys.argv[1:]:
            part, _, page.path = word.partition("=")
            try:
                PARTS[part](page)
            except (ValueError, KeyError, IndexError, TypeError) as error:
                faults.append(f"{type(error).__name__}: {error}")
            faults.extend(page.faults)
            page.faults.clear()
            if faults:
                print("\n".join(f"{part}: {it}" for it in faults))
                return 1
    return 0


if __name__ == "__main__":
    sys.exit(main())
