// What is pointed at in the timeline, and what is said of it.

// ---- What is pointed at

const numberOfMark = ({ lane, kind, index }) => (kind === "skip" ? index + 1 : numberOf(lane, index));

const nearest = (times, time, isRisingToo) => {
  if (!times.length) return -1;
  if (!isRisingToo) return times.reduce((best, it, k) => (Math.abs(it - time) < Math.abs(times[best] - time) ? k : best), 0);
  const after = Math.min(lowerBound(times, time), times.length - 1);
  return after > 0 && time - times[after - 1] <= times[after] - time ? after - 1 : after;
};

const isNear = (time, x) => Math.abs(xOf(time) - x) <= REACH;

// The call whose held output is drawn at a point, or -1.
const heldAt = (lane, zone, x, y) => {
  if (!lane.rows) return -1;
  const [from, to] = marksWithin(lane, timeAt(x), timeAt(x));
  for (let k = to - 1; k >= from; k -= 1) {
    const row = rowOf(lane, zone, k);
    if (lane.lags[k] > 0 && xOf(endOf(lane, k)) >= x && xOf(lane.begins[k]) <= x && y >= row.top - 1 && y <= row.top + row.height + 1) return k;
  }
  return -1;
};

const pieceAt = (lane, x) => {
  const index = Math.floor((timeAt(x) / data.span) * data.pieces);
  return lane.counts && index >= 0 && index < data.pieces ? { lane, kind: "piece", index } : null;
};

const markAt = (x, y) => {
  const number = Math.floor((y - place.top + frame.scrollTop) / place.lane);
  const lane = lanes[number];
  if (!lane || y < place.top || x < place.left - REACH) return null;
  const zone = zoneOf(lane);
  if (lane.kind === "component") {
    const skip = y < zone.top ? nearest(lane.skips, timeAt(x), true) : -1;
    if (skip >= 0 && isNear(lane.skips[skip], x)) return { lane, kind: "skip", index: skip };
    const held = heldAt(lane, zone, x, y);
    if (held >= 0) return { lane, kind: "call", index: held };
  }
  const index = nearest(lane.begins, timeAt(x), lane.isRising);
  if (index >= 0 && isNear(lane.begins[index], x)) return { lane, kind: lane.kind === "channel" ? "message" : "call", index };
  const gap = lane.gaps ? lane.gaps.findIndex(([begin, end]) => xOf(begin) <= x && x <= xOf(end)) : -1;
  return gap >= 0 ? { lane, kind: "gap", index: gap } : pieceAt(lane, x);
};

// ---- What is said of it

const when = (time) => `at ${exact(time)} (${clock(time)})`;
const held = (lag) => (lag > 0 ? `, held back for ${exact(lag)}` : lag < 0 ? `, ${exact(-lag)} before its trigger` : "");
const valueText = (value) => (value === null || value === undefined ? "" : `, value ${value}`);

const sayMessage = ({ lane, index }) => [
  `Message ${count(numberOf(lane, index))} of ${lane.name}`,
  `${lane.played ? "Played" : "Put out"} ${when(lane.begins[index])}${valueText(lane.values && lane.values[index])}.`,
];

const sayTuple = (lane, index) => {
  const position = lane.positions[index];
  const waiting = lane.waiting[index];
  const skipped = index > 0 && !lane.numbers ? position - lane.positions[index - 1] - 1 : position - numberOf(lane, index);
  const before = index > 0 && !lane.numbers ? " just before" : " up to here";
  return `It took tuple ${count(position)} of ${count(position + waiting)}, ${waiting ? `${plural(waiting, "newer tuple")} waiting` : "the newest"}${skipped > 0 ? `; ${plural(skipped, "tuple")} skipped${before}` : ""}.`;
};

const sayCall = ({ lane, index }) => {
  const messages = messagesOf(lane, index).map((it, role) => {
    const channel = it.channel === null ? `reader ${role}` : lanes[it.channel].name;
    return `${channel} ${count(it.number)}${it.time === null || it.channel === null ? "" : ` at ${exact(it.time)}`}`;
  });
  const out = lane.out === null ? "output" : lanes[lane.out].name;
  const output = lane.outputs[index]
    ? `It put out ${out} ${count(lane.outputs[index])} ${when(endOf(lane, index))}${held(lane.lags[index])}${valueText(lane.values && lane.values[index])}.`
    : "It put nothing out.";
  return [
    `Call ${count(numberOf(lane, index))} of ${lane.name}${lane.class ? ` (${lane.class})` : ""}, triggered ${when(lane.begins[index])}`,
    `${sayTuple(lane, index)} Its messages: ${messages.join(", ")}.`,
    output,
  ];
};

const sayPiece = ({ lane, index }) => {
  const length = data.span / data.pieces;
  const counted = lane.kind === "channel"
    ? [plural(lane.counts.messages[index], "message")]
    : [
      `${plural(lane.counts.outputs[index], "call")} with an output`, `${count(lane.counts.quiet[index])} without`,
      `${plural(lane.counts.held[index], "output")} held back`, `${plural(lane.counts.skips[index], "tuple")} skipped`,
    ];
  return [lane.name, `From ${exact(index * length)} to ${exact((index + 1) * length)}: ${counted.join(", ")}. The page has some of them.`];
};

const sayGap = ({ lane, index }) => {
  const [begin, end] = lane.gaps[index];
  return [`Gap on ${lane.name}`, `No message for ${exact(end - begin)}, from ${exact(begin)} to ${exact(end)}.`];
};

const saySkip = ({ lane, index }) => [`Tuple skipped by ${lane.name}`, `Its trigger came ${when(lane.skips[index])}; no call took it.`];

const SAY = { message: sayMessage, call: sayCall, piece: sayPiece, gap: sayGap, skip: saySkip };

const tell = (lines) => {
  details.replaceChildren(...lines.map((text, k) => {
    const paragraph = document.createElement("p");
    paragraph.textContent = text;
    if (k === 0) paragraph.className = "what";
    return paragraph;
  }));
};

const isSame = (one, other) => one === other || (one && other && one.lane === other.lane && one.kind === other.kind && one.index === other.index);

const choose = (mark, isPinned) => {
  if (isSame(state.mark, mark) && state.isPinned === isPinned) return;
  state.mark = mark;
  state.isPinned = isPinned && mark !== null;
  if (mark && isPinned) state.lane = mark.lane.number;
  tell(mark ? SAY[mark.kind](mark) : ["Point at a mark, or tap it, to read what it is."]);
  if (!mark) details.firstChild.className = "";
  redraw();
};
