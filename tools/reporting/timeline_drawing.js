// How the timeline is drawn: its lanes, its axis and the flows of a call.

// ---- Drawing

const colours = {};
const readColours = () => {
  const style = getComputedStyle(document.documentElement);
  for (const name of ["paper", "panel", "ink", "soft", "line", "played", "made", "call", "quiet", "held", "skip", "gap", "flow", "focus"]) {
    colours[name] = style.getPropertyValue(`--${name}`).trim();
  }
  colours.font = getComputedStyle(document.body).fontFamily;
};

const setFont = (size, weight = 400) => {
  context.font = `${weight} ${size}px ${colours.font}`;
};

const setNameFont = (lane) => setFont(13, lane.kind === "channel" ? 400 : 650);

const setNoteFont = () => setFont(11);

const noteOf = (lane) => {
  const part = lane.begins.length < lane.total ? `, 1 in ${count(Math.round(lane.total / lane.begins.length))} drawn` : "";
  if (lane.kind === "channel") return `${plural(lane.total, "message")}${part}`;
  return `${plural(lane.total, "call")}${lane.skipped ? `, ${count(lane.skipped)} skipped` : ""}${part}`;
};

// How wide the names of all lanes are, and the notes below them.
const widthOfLabels = () => lanes.reduce((most, lane) => {
  setNameFont(lane);
  const name = context.measureText(lane.name).width;
  setNoteFont();
  return Math.max(most, name, context.measureText(noteOf(lane)).width);
}, 0);

const measure = () => {
  place.width = frame.clientWidth;
  const isNarrow = place.width < NARROW;
  place.left = isNarrow ? 6 : Math.round(Math.min(Math.max(widthOfLabels() + 30, 180), place.width * 0.3));
  place.right = Math.max(place.left + 1, place.width - 10); // a window may be too narrow for anything
  place.label = isNarrow ? 16 : 0;
  place.lane = isNarrow ? 60 : 46;
  const all = place.top + lanes.length * place.lane + 4;
  const room = Math.max(240, Math.floor(window.innerHeight * 0.74));
  place.height = all < room + 2 * place.lane ? all : room; // rather a little more room than a lane that is cut
  frame.style.maxHeight = `${place.height + 2}px`; // with its border
  spacer.style.height = `${all - place.height}px`;
  const ratio = window.devicePixelRatio || 1;
  canvas.width = Math.round(place.width * ratio);
  canvas.height = Math.round(place.height * ratio);
  canvas.style.height = `${place.height}px`;
  context.setTransform(ratio, 0, 0, ratio, 0, 0);
};

// A text that is cut where it is too wide. Of what is left, so large a share is from its end.
const fitted = (text, width, shareOfEnd = 0) => {
  if (context.measureText(text).width <= width) return text;
  const cut = (length) => {
    const end = Math.floor(length * shareOfEnd);
    return `${text.slice(0, length - end)}…${text.slice(text.length - end)}`;
  };
  let length = text.length - 1;
  while (length > 1 && context.measureText(cut(length)).width > width) length -= 1;
  return cut(length);
};

// A name without its middle: names that begin alike are told apart by how they end.
const fittedName = (name, width) => fitted(name, width, 0.6);

const line = (x1, y1, x2, y2) => {
  context.beginPath();
  context.moveTo(x1, y1);
  context.lineTo(x2, y2);
  context.stroke();
};

// Room for the counts of the plot. Bins begin where the run does, so that they move with it.
const emptyBins = () => new Float32Array(Math.ceil((place.right - place.left) / BIN) + 2);
const firstBin = () => place.left - BIN + ((((xOf(0) - place.left) % BIN) + BIN) % BIN);

// How many of some times are in each bin of the plot.
const binsOfTimes = (times, isRisingToo, keep) => {
  const bins = emptyBins();
  const origin = firstBin();
  const begin = isRisingToo ? lowerBound(times, view.begin) : 0;
  for (let k = begin; k < times.length; k += 1) {
    if (times[k] > view.end) {
      if (isRisingToo) break;
    } else if (times[k] >= view.begin && (!keep || keep(k))) {
      bins[Math.floor((xOf(times[k]) - origin) / BIN + 1e-6)] += 1;
    }
  }
  return bins;
};

// The same by the counts of a lane that doesn't have all of its marks: each is spread over the bins that its piece reaches into.
const binsOfCounts = (counts) => {
  const bins = emptyBins();
  const origin = firstBin();
  const length = data.span / data.pieces;
  const width = (xOf(length) - xOf(0)) / BIN;
  const last = Math.min(data.pieces - 1, Math.floor(view.end / length));
  for (let piece = Math.max(0, Math.floor(view.begin / length)); piece <= last; piece += 1) {
    if (!counts[piece]) continue;
    const from = (xOf(piece * length) - origin) / BIN;
    for (let bin = Math.max(0, Math.floor(from)); bin < Math.min(bins.length, from + width); bin += 1) {
      bins[bin] += (counts[piece] * (Math.min(bin + 1, from + width) - Math.max(bin, from))) / width;
    }
  }
  return bins;
};

const greatest = (bins) => bins.reduce((most, it) => Math.max(most, it), 0);

// How much of the bin that begins at a place is of the run: the last one ends where the run does.
const widthOfBin = (x) => Math.max(1, Math.min(BIN, xOf(data.span) - x));

// Bars for the counts of bins, of which the greatest is as high as the room, on a line or on other bars. A bin that is only partly drawn
// counts as if all of it were like that part.
const drawBins = (bins, most, base, height, colour, below) => {
  const origin = firstBin();
  context.fillStyle = colour;
  for (let bin = 0; bin < bins.length; bin += 1) {
    if (bins[bin] > 0) {
      const width = widthOfBin(origin + bin * BIN);
      const high = (count) => Math.min(1, (count * BIN) / width / most) * height;
      const under = below ? high(below[bin]) : 0;
      const size = Math.max(2, Math.min(high(bins[bin]), height - under));
      context.fillRect(Math.round(origin) + bin * BIN, base - under - size, Math.ceil(width), size);
    }
  }
};

const zoneOf = (lane) => {
  const y = yOf(lane.number) + place.label;
  const bottom = yOf(lane.number) + place.lane - 5;
  return lane.kind === "channel" ? { top: y + 7, bottom } : { skips: y + 4, top: y + 13, bottom };
};

const isShownByCounts = (lane, from, to) => to - from > (place.right - place.left) / CROWDED;

const drawGaps = (lane, zone) => {
  context.strokeStyle = colours.gap;
  context.lineWidth = 1.5;
  const y = (zone.top + zone.bottom) / 2;
  for (const [begin, end] of lane.gaps) {
    const [from, to] = [Math.max(xOf(begin), place.left), Math.min(xOf(end), place.right)];
    if (to - from < 3) continue;
    line(from, y, to, y);
    line(from, y - 5, from, y + 5);
    line(to, y - 5, to, y + 5);
  }
};

// The number of a mark behind it, where there is room up to the next one.
const drawNumber = (lane, index, y, colour = colours.soft) => {
  const x = xOf(lane.begins[index]) + 4;
  const end = index + 1 < lane.begins.length ? xOf(lane.begins[index + 1]) : place.width;
  const room = Math.min(end, place.width - 3) - x;
  if (room < 8) return;
  setFont(10);
  const text = count(numberOf(lane, index));
  if (context.measureText(text).width > room) return;
  context.fillStyle = colour;
  context.textAlign = "left";
  context.fillText(text, x, y);
};

const drawChannel = (lane) => {
  const zone = zoneOf(lane);
  const colour = lane.played ? colours.played : colours.made;
  const [from, to] = marksWithin(lane, view.begin, view.end);
  drawGaps(lane, zone);
  if (lane.counts || isShownByCounts(lane, from, to)) {
    const bins = lane.counts ? binsOfCounts(lane.counts.messages) : binsOfTimes(lane.begins, lane.isRising);
    context.globalAlpha = lane.counts && !isShownByCounts(lane, from, to) ? 0.3 : 0.85;
    drawBins(bins, greatest(bins), zone.bottom, zone.bottom - zone.top, colour);
    context.globalAlpha = 1;
  }
  if (isShownByCounts(lane, from, to)) return;
  context.strokeStyle = colour;
  context.lineWidth = 1.5;
  for (let k = from; k < to; k += 1) {
    const x = xOf(lane.begins[k]);
    if (x < place.left - 1 || x > place.right + 1) continue;
    line(x, zone.top, x, zone.bottom);
    if (!lane.played) {
      line(x - 3, zone.top + 3, x, zone.top);
      line(x + 3, zone.top + 3, x, zone.top);
    }
    drawNumber(lane, k, zone.bottom - 2);
  }
};

const drawSkips = (lane, zone) => {
  const [from, to] = [lowerBound(lane.skips, view.begin), lowerBound(lane.skips, view.end + 1)];
  if (lane.counts || to - from > (place.right - place.left) / 10) {
    const bins = lane.counts ? binsOfCounts(lane.counts.skips) : binsOfTimes(lane.skips, true);
    drawBins(bins, greatest(bins), zone.skips + 8, 8, colours.skip);
    if (to - from > (place.right - place.left) / 10) return;
  }
  context.strokeStyle = colours.skip;
  context.lineWidth = 2;
  for (let k = from; k < to; k += 1) {
    const x = xOf(lane.skips[k]);
    line(x - 3, zone.skips, x + 3, zone.skips + 6);
    line(x + 3, zone.skips, x - 3, zone.skips + 6);
  }
};

const rowOf = (lane, zone, index) => {
  const height = (zone.bottom - zone.top) / lane.rowCount;
  const row = lane.rows ? lane.rows[index] : 0;
  return { top: zone.top + row * height + 1, height: Math.max(height - 2, 2) };
};

const drawHeld = (lane, zone, index) => {
  const row = rowOf(lane, zone, index);
  const [from, to] = [Math.max(xOf(lane.begins[index]), place.left), Math.min(xOf(endOf(lane, index)), place.right)];
  if (to <= from) return;
  context.fillStyle = colours.held;
  context.fillRect(from, row.top, Math.max(to - from, 1), row.height);
  context.strokeStyle = colours.paper;
  context.lineWidth = 1;
  line(to - 0.5, row.top, to - 0.5, row.top + row.height);
};

const drawCall = (lane, zone, index) => {
  const x = xOf(lane.begins[index]);
  if (x < place.left - 1 || x > place.right + 1) return;
  const isQuiet = !lane.outputs[index];
  const row = rowOf(lane, zone, index);
  context.strokeStyle = context.fillStyle = isQuiet ? colours.quiet : colours.call;
  context.lineWidth = 2;
  line(x, isQuiet ? row.top + row.height / 2 : row.top, x, row.top + row.height);
  if (!isQuiet) context.fillRect(x - 2, row.top, 4, Math.min(4, row.height));
  if (row.height > 9) drawNumber(lane, index, row.top + row.height - 1, lane.lags[index] > 0 ? ON_HELD : colours.soft);
};

const drawCallCounts = (lane, zone) => {
  const height = zone.bottom - zone.top;
  const isHeld = (k) => lane.lags[k] > 0;
  const bins = (series, keep) => (lane.counts ? binsOfCounts(lane.counts[series]) : binsOfTimes(lane.begins, lane.isRising, keep));
  const outputs = bins("outputs", (k) => lane.outputs[k] > 0);
  const quiet = bins("quiet", (k) => !lane.outputs[k]);
  const held = bins("held", isHeld);
  const most = greatest(outputs.map((it, bin) => it + quiet[bin]));
  drawBins(outputs, most, zone.bottom, height, colours.call);
  drawBins(quiet, most, zone.bottom, height, colours.quiet, outputs);
  context.fillStyle = colours.held;
  held.forEach((it, bin) => {
    const x = firstBin() + bin * BIN;
    if (it > 0) context.fillRect(Math.round(x), zone.bottom - 3, Math.ceil(widthOfBin(x)), 4);
  });
};

const drawComponent = (lane) => {
  const zone = zoneOf(lane);
  const [from, to] = marksWithin(lane, view.begin, view.end);
  const isCrowded = isShownByCounts(lane, from, to);
  if (lane.counts || isCrowded) {
    context.globalAlpha = isCrowded ? 1 : 0.3;
    drawCallCounts(lane, zone);
    context.globalAlpha = 1;
  }
  if (!isCrowded) {
    for (let k = from; k < to; k += 1) if (lane.lags[k] > 0) drawHeld(lane, zone, k);
    for (let k = from; k < to; k += 1) drawCall(lane, zone, k);
  }
  drawSkips(lane, zone);
};

const drawLabel = (lane) => {
  const y = yOf(lane.number);
  context.textAlign = "left";
  context.fillStyle = colours.ink;
  if (place.label) {
    setNoteFont();
    const note = context.measureText(noteOf(lane)).width;
    setNameFont(lane);
    const name = fittedName(lane.name, Math.max(place.width * 0.55, place.width - note - 30));
    context.fillText(name, 8, y + 13);
    const width = context.measureText(name).width;
    setNoteFont();
    context.fillStyle = colours.soft;
    context.fillText(fitted(noteOf(lane), place.width - width - 22), 18 + width, y + 13);
    return;
  }
  setNameFont(lane);
  context.fillText(fittedName(lane.name, place.left - 20), 10, y + 19);
  setNoteFont();
  context.fillStyle = colours.soft;
  context.fillText(fitted(noteOf(lane), place.left - 20), 10, y + 35);
};

const clipToPlot = (draw) => {
  context.save();
  context.beginPath();
  context.rect(place.left, place.top, place.width - place.left, place.height - place.top);
  context.clip();
  draw();
  context.restore();
};

const drawLane = (lane) => {
  const y = yOf(lane.number);
  if (y > place.height || y + place.lane < place.top) return;
  context.fillStyle = lane.kind === "channel" ? colours.paper : colours.panel;
  context.fillRect(0, y, place.width, place.lane);
  if (lane.number === state.lane) {
    context.fillStyle = colours.focus;
    context.fillRect(0, y, 4, place.lane);
  }
  context.fillStyle = colours.line;
  context.fillRect(0, y + place.lane - 1, place.width, 1);
};

const FROM = "from the first message";

const axisTicks = () => {
  setFont(11);
  for (const step of AXIS_STEPS) {
    const text = axisText(step);
    const width = Math.max(context.measureText(text(view.end)).width, context.measureText(text(view.begin)).width);
    if (xOf(view.begin + step) - place.left >= width + 26) return { step, text };
  }
  return { step: view.end - view.begin, text: axisText(view.end - view.begin) };
};

const drawAxis = ({ step, text }) => {
  context.fillStyle = colours.panel;
  context.fillRect(0, 0, place.width, place.top);
  context.fillStyle = colours.line;
  context.fillRect(0, place.top - 1, place.width, 1);
  setFont(11);
  const free = place.label ? 0 : context.measureText(FROM).width + 14; // from where on there is room for times
  context.textAlign = "center";
  for (let time = Math.ceil(view.begin / step) * step; time <= view.end; time += step) {
    const x = xOf(time);
    context.fillStyle = colours.soft;
    context.fillRect(x, place.top - 6, 1, 6);
    const half = context.measureText(text(time)).width / 2;
    const middle = place.label ? Math.max(x, half + 2) : x; // where names are above their lanes, nothing is left of the plot
    if (middle - half > free && middle + half < place.width - 6) context.fillText(text(time), middle, 18);
  }
  if (!place.label) {
    context.textAlign = "left";
    context.fillText(FROM, 10, 18);
  }
};

const drawGrid = ({ step }) => {
  context.fillStyle = colours.line;
  context.globalAlpha = 0.6;
  for (let time = Math.ceil(view.begin / step) * step; time <= view.end; time += step) {
    context.fillRect(xOf(time), place.top, 1, place.height - place.top);
  }
  context.globalAlpha = 1;
};

// ---- Flows of a call

const messagesOf = (lane, index) =>
  lane.reads.map((channel, role) => {
    const age = role === 0 ? 0 : lane.ages[role - 1] ? lane.ages[role - 1][index] : null;
    return { channel, number: lane.messages[role][index], time: age === null ? null : lane.begins[index] - age };
  });

const middleOf = (lane) => {
  const zone = zoneOf(lane);
  return (zone.top + zone.bottom) / 2;
};

const drawFlow = (x1, y1, x2, y2) => {
  const bend = (y2 - y1) * 0.45;
  context.beginPath();
  context.moveTo(x1, y1);
  context.bezierCurveTo(x1, y1 + bend, x2, y2 - bend, x2, y2);
  context.stroke();
  const side = Math.sign(y2 - y1) || 1;
  context.beginPath();
  context.moveTo(x2, y2);
  context.lineTo(x2 - 4, y2 - 8 * side);
  context.lineTo(x2 + 4, y2 - 8 * side);
  context.fill();
};

const drawPoint = (x, y, text) => {
  context.beginPath();
  context.arc(x, y, 4.5, 0, 2 * Math.PI);
  context.fillStyle = colours.paper;
  context.fill();
  context.stroke();
  setFont(11, 650);
  context.textAlign = "left";
  context.lineWidth = 4;
  context.strokeStyle = colours.paper;
  context.strokeText(text, x + 8, y + 4);
  context.fillStyle = context.strokeStyle = colours.flow;
  context.lineWidth = 2;
  context.fillText(text, x + 8, y + 4);
};

const drawFlows = ({ lane, index }) => {
  context.strokeStyle = context.fillStyle = colours.flow;
  context.lineWidth = 2;
  const zone = zoneOf(lane);
  const row = rowOf(lane, zone, index);
  const [x, end, y] = [xOf(lane.begins[index]), xOf(endOf(lane, index)), row.top + row.height / 2];
  const known = messagesOf(lane, index).filter((it) => it.channel !== null && it.time !== null);
  for (const it of known) drawFlow(xOf(it.time), middleOf(lanes[it.channel]), x, y);
  const hasTarget = lane.outputs[index] && lane.out !== null;
  if (hasTarget) drawFlow(end, y, end, middleOf(lanes[lane.out]));
  for (const it of known) drawPoint(xOf(it.time), middleOf(lanes[it.channel]), count(it.number));
  if (hasTarget) drawPoint(end, middleOf(lanes[lane.out]), count(lane.outputs[index]));
  context.strokeRect(Math.min(x, end) - 4, row.top - 2, Math.abs(end - x) + 8, row.height + 4);
};

const drawChosen = ({ lane, kind, index }) => {
  if (kind === "call") return drawFlows({ lane, index });
  if (kind !== "message" && kind !== "skip") return null;
  const zone = zoneOf(lane);
  const x = xOf(kind === "skip" ? lane.skips[index] : lane.begins[index]);
  context.strokeStyle = colours.flow;
  context.lineWidth = 2;
  return kind === "skip" ? context.strokeRect(x - 5, zone.skips - 2, 10, 10) : context.strokeRect(x - 4, zone.top - 3, 8, zone.bottom - zone.top + 4);
};

const draw = () => {
  context.fillStyle = colours.paper;
  context.fillRect(0, 0, place.width, place.height);
  const seen = lanes.filter((lane) => yOf(lane.number) < place.height && yOf(lane.number) + place.lane > place.top);
  const ticks = axisTicks();
  seen.forEach(drawLane);
  clipToPlot(() => {
    drawGrid(ticks);
    seen.forEach((lane) => (lane.kind === "channel" ? drawChannel(lane) : drawComponent(lane)));
  });
  seen.forEach(drawLabel);
  if (state.mark) clipToPlot(() => drawChosen(state.mark));
  drawAxis(ticks);
  Object.assign(canvas.dataset, {
    begin: view.begin, end: view.end, left: place.left, right: place.right, top: place.top, laneHeight: place.lane,
    mark: state.mark ? `${state.mark.kind} ${state.mark.kind === "piece" ? state.mark.index : numberOfMark(state.mark)}` : "",
    lane: state.lane === null ? "" : state.lane,
  });
};

let isWaiting = false;
const redraw = () => {
  if (isWaiting) return;
  isWaiting = true;
  requestAnimationFrame(() => {
    isWaiting = false;
    draw();
  });
};
