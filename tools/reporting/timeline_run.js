// The timeline: a lane for each channel and component, drawn on a canvas. Times are nanoseconds from the first message of the run.
// This file has what the page knows of the run, what is seen of it, and how times are written. The page has these files in one function.

const canvas = document.getElementById("canvas");
const frame = document.getElementById("frame");
const spacer = document.getElementById("spacer");
const details = document.getElementById("details");
const context = canvas.getContext("2d");
const data = JSON.parse(document.getElementById("timeline-data").textContent);
const first = BigInt(data.first);

const MARGIN = 0.02; // of the run's time, on both sides of it
const NARROW = 620; // below this width names are above their lanes
const REACH = 9; // pixels from a mark within which it is pointed at
const CROWDED = 3; // pixels a mark, below which marks are drawn as counts
const BIN = 5; // pixels of a count
const ON_HELD = "#1b2129"; // of a number on a held output, which is orange by day and by night

// ---- What the page has of the run

const summed = (steps) => {
  const found = new Float64Array(steps.length);
  let total = 0;
  for (let k = 0; k < steps.length; k += 1) found[k] = total += steps[k];
  return found;
};

const isRising = (times) => times.every((time, k) => k === 0 || times[k - 1] <= time);

const prepare = (lane, number) => {
  lane.number = number;
  if (lane.kind === "channel") {
    lane.begins = summed(lane.times);
    lane.longest = 0;
  } else {
    lane.begins = summed(lane.begins);
    lane.positions = summed(lane.positions);
    lane.messages = lane.messages.map(summed);
    lane.skips = summed(lane.skips);
    lane.longest = lane.lags.reduce((most, lag) => Math.max(most, lag || 0), 0);
    lane.rowCount = lane.rows ? Math.max(...new Set(lane.rows)) + 1 : 1;
  }
  if (lane.numbers) lane.numbers = summed(lane.numbers);
  lane.isRising = isRising(lane.begins);
  return lane;
};

const lanes = data.lanes.map(prepare);
const numberOf = (lane, index) => (lane.numbers ? lane.numbers[index] : index + 1);
const endOf = (lane, index) => lane.begins[index] + (lane.lags ? lane.lags[index] || 0 : 0);

// The first index whose time isn't less, in times that rise.
const lowerBound = (times, time) => {
  let low = 0;
  let high = times.length;
  while (low < high) {
    const middle = (low + high) >> 1;
    if (times[middle] < time) low = middle + 1;
    else high = middle;
  }
  return low;
};

// From which index to which a lane may have marks between two times.
const marksWithin = (lane, from, to) =>
  lane.isRising ? [lowerBound(lane.begins, from - lane.longest), lowerBound(lane.begins, to + 1)] : [0, lane.begins.length];

// ---- The view

const whole = { begin: -MARGIN * data.span, end: (1 + MARGIN) * data.span };
const view = { begin: whole.begin, end: whole.end };
const state = { lane: null, mark: null, isPinned: false };
const place = { width: 0, left: 0, right: 0, top: 30, height: 0, lane: 44, label: 0 };

const xOf = (time) => place.left + ((time - view.begin) / (view.end - view.begin)) * (place.right - place.left);
const timeAt = (x) => view.begin + ((x - place.left) / (place.right - place.left)) * (view.end - view.begin);
const yOf = (lane) => place.top + lane * place.lane - frame.scrollTop;

const setView = (begin, end) => {
  const most = whole.end - whole.begin;
  const span = Math.min(Math.max(end - begin, Math.min(4, most)), most);
  const middle = (begin + end) / 2;
  view.begin = span < most ? Math.min(Math.max(middle - span / 2, whole.begin), whole.end - span) : whole.begin;
  view.end = span < most ? view.begin + span : whole.end;
  redraw();
};

const zoom = (factor, around) => setView(around - (around - view.begin) * factor, around + (view.end - around) * factor);
const move = (share) => {
  const step = share * (view.end - view.begin);
  setView(view.begin + step, view.end + step);
};

// ---- Texts

const UNITS = [["s", 1e9], ["ms", 1e6], ["µs", 1e3], ["ns", 1]];
const count = (number) => Number(number).toLocaleString("en");
const plural = (number, word) => `${count(number)} ${word}${number === 1 ? "" : "s"}`;

// A time or a length of time to its last digit.
const exact = (time) => {
  const size = Math.abs(time);
  const [unit, scale] = UNITS.find((it) => size >= it[1]) || UNITS[3];
  const digits = Math.round(Math.log10(scale));
  const text = BigInt(Math.round(size)).toString().padStart(digits + 1, "0");
  const whole = Number(text.slice(0, text.length - digits)).toLocaleString("en");
  const rest = digits ? text.slice(-digits).replace(/0+$/, "") : "";
  return `${time < 0 ? "−" : ""}${whole}${rest ? `.${rest}` : ""} ${unit}`;
};

const clock = (time) => `time ${first + BigInt(Math.round(time))}`;

const AXIS_STEPS = [];
for (let step = 1; step < 1e10; step *= 10) AXIS_STEPS.push(step, 2 * step, 5 * step);
for (const seconds of [10, 15, 30, 60, 120, 300, 600, 900, 1800, 3600, 7200, 14400, 28800, 43200, 86400]) AXIS_STEPS.push(seconds * 1e9);
for (let step = 2 * 86400e9; step < 2e19; step *= 2) AXIS_STEPS.push(step);

const clockText = (time) => {
  const seconds = Math.round(Math.abs(time) / 1e9);
  const parts = [Math.floor(seconds / 3600), Math.floor(seconds / 60) % 60, seconds % 60];
  const text = (parts[0] ? parts : parts.slice(1)).map((it, k) => (k ? String(it).padStart(2, "0") : String(it))).join(":");
  return `${time < 0 ? "−" : ""}${text} ${parts[0] ? "h" : "min"}`;
};

// How times are written on the axis where its marks are so far apart.
const axisText = (step) => {
  if (step >= 1e9 && data.span >= 180e9) return clockText;
  const far = Math.max(Math.abs(view.begin), Math.abs(view.end));
  const [unit, scale] = UNITS.find((it) => far >= 2 * it[1]) || UNITS[3];
  const digits = Math.max(0, Math.ceil(Math.log10(scale / step) - 1e-9));
  return (time) => `${(time / scale).toFixed(digits).replace(/^-0(\.0*)?$/, "0").replace("-", "−")} ${unit}`;
};
