// What keys, buttons and pointers do to the timeline.

// ---- Keys and buttons

const showLane = (number) => {
  const y = number * place.lane;
  const room = place.height - place.top;
  if (y < frame.scrollTop) frame.scrollTop = y;
  else if (y + place.lane > frame.scrollTop + room) frame.scrollTop = y + place.lane - room;
};

const showTime = (time) => {
  if (time < view.begin || time > view.end) {
    const half = (view.end - view.begin) / 2;
    setView(time - half, time + half);
  }
};

const choosePinned = (lane, index) => {
  showLane(lane.number);
  showTime(lane.begins[index]);
  choose({ lane, kind: lane.kind === "channel" ? "message" : "call", index }, true);
};

const chosenTime = () => (state.mark && state.mark.lane.begins[state.mark.index] !== undefined && state.mark.kind !== "piece"
  ? state.mark.lane.begins[state.mark.index] : (view.begin + view.end) / 2);

const chooseLane = (step) => {
  const number = state.lane === null ? 0 : Math.min(Math.max(state.lane + step, 0), lanes.length - 1);
  const lane = lanes[number];
  const index = nearest(lane.begins, chosenTime(), lane.isRising);
  state.lane = number;
  if (index >= 0) choosePinned(lane, index);
  else {
    choose(null, false);
    state.lane = number;
    showLane(number);
    tell([lane.name, `${noteOf(lane)}.`]);
    redraw();
  }
};

const chooseNext = (step) => {
  const mark = state.mark;
  if (!mark || (mark.kind !== "message" && mark.kind !== "call")) return chooseLane(0);
  const index = mark.index + step;
  return index >= 0 && index < mark.lane.begins.length ? choosePinned(mark.lane, index) : null;
};

const middle = () => {
  const time = state.mark && state.isPinned ? chosenTime() : NaN;
  return time >= view.begin && time <= view.end ? time : (view.begin + view.end) / 2;
};

const ACTIONS = {
  in: () => zoom(0.5, middle()),
  out: () => zoom(2, middle()),
  earlier: () => move(-0.3),
  later: () => move(0.3),
  all: () => setView(whole.begin, whole.end),
  previous: () => chooseNext(-1),
  next: () => chooseNext(1),
  up: () => chooseLane(-1),
  down: () => chooseLane(1),
  free: () => choose(null, false),
};
const KEYS = {
  "+": "in", "=": "in", "-": "out", "−": "out", "ArrowLeft": "earlier", "ArrowRight": "later", "0": "all", "Home": "all",
  ",": "previous", ".": "next", "p": "previous", "n": "next", "ArrowUp": "up", "ArrowDown": "down", "Escape": "free",
};

canvas.addEventListener("keydown", (event) => {
  const action = KEYS[event.key];
  if (!action || event.ctrlKey || event.metaKey || event.altKey) return;
  event.preventDefault();
  ACTIONS[action]();
});
for (const button of document.querySelectorAll("[data-do]")) button.addEventListener("click", () => ACTIONS[button.dataset.do]());

// ---- Pointers: one moves, two zoom, and one that doesn't move chooses

const pointers = new Map();
const hold = { x: 0, y: 0, hasMoved: false };
const at = (event) => {
  const box = canvas.getBoundingClientRect();
  return { x: event.clientX - box.left, y: event.clientY - box.top };
};

canvas.addEventListener("pointerdown", (event) => {
  pointers.set(event.pointerId, at(event));
  canvas.setPointerCapture(event.pointerId);
  if (pointers.size === 1) Object.assign(hold, at(event), { hasMoved: false });
  else hold.hasMoved = true;
});

const drag = (before, now) => {
  if (!hold.hasMoved && Math.abs(now.x - hold.x) + Math.abs(now.y - hold.y) < 4) return;
  hold.hasMoved = true;
  const step = timeAt(before.x) - timeAt(now.x);
  setView(view.begin + step, view.end + step);
  frame.scrollTop += before.y - now.y;
};

const pinch = (before, now, other) => {
  const [was, is] = [Math.abs(before.x - other.x), Math.abs(now.x - other.x)];
  if (was > 10 && is > 10) zoom(was / is, timeAt((now.x + other.x) / 2));
};

canvas.addEventListener("pointermove", (event) => {
  const now = at(event);
  const before = pointers.get(event.pointerId);
  if (!before) {
    if (!state.isPinned) choose(markAt(now.x, now.y), false);
    return;
  }
  pointers.set(event.pointerId, now);
  if (pointers.size === 1) return drag(before, now);
  const other = [...pointers].find(([number]) => number !== event.pointerId)[1];
  return pinch(before, now, other);
});

const letGo = (event) => {
  const now = at(event);
  if (pointers.delete(event.pointerId) && !hold.hasMoved && event.type === "pointerup") choose(markAt(now.x, now.y), true);
};
canvas.addEventListener("pointerup", letGo);
canvas.addEventListener("pointercancel", letGo);
canvas.addEventListener("pointerleave", () => {
  if (!state.isPinned && !pointers.size) choose(null, false);
});

canvas.addEventListener("wheel", (event) => {
  if (!event.ctrlKey && document.activeElement !== canvas) return;
  event.preventDefault();
  const size = event.deltaMode === 1 ? 16 : 1;
  if (event.shiftKey || Math.abs(event.deltaX) > Math.abs(event.deltaY)) move(((event.deltaX || event.deltaY) * size) / place.width);
  else zoom(Math.exp(event.deltaY * size * 0.002), timeAt(at(event).x));
}, { passive: false });

// ---- From the tables to the timeline

const goTo = (lane, begin, end) => {
  document.getElementById("timeline").scrollIntoView();
  canvas.focus({ preventScroll: true });
  setView(begin, end);
  showLane(lane.number);
};

const goToCall = (lane, number, time) => {
  const half = Math.min(view.end - view.begin, data.span / 40) / 2;
  goTo(lane, time - half, time + half);
  const index = lane.numbers ? lowerBound(lane.numbers, number) : number - 1;
  if (index < lane.begins.length && numberOf(lane, index) === number) choosePinned(lane, index);
  else {
    choose(null, false);
    tell([`Call ${count(number)} of ${lane.name}`, `It is ${when(time)}; the page doesn't have its tuple.`]);
  }
};

const goToGap = (lane, begin, end) => {
  goTo(lane, begin - (end - begin), end + (end - begin));
  const index = lane.gaps.findIndex((it) => it[0] === begin);
  choose(index >= 0 ? { lane, kind: "gap", index } : null, true);
};

for (const button of document.querySelectorAll("[data-lane]")) {
  if (button === canvas) continue;
  const lane = lanes[Number(button.dataset.lane)];
  const { call, time, from, to } = button.dataset;
  button.addEventListener("click", () => (call ? goToCall(lane, Number(call), Number(time)) : goToGap(lane, Number(from), Number(to))));
}

// ---- Begin

const begin = () => {
  readColours();
  measure();
  draw();
};
frame.addEventListener("scroll", redraw);
window.addEventListener("resize", begin);
window.matchMedia("(prefers-color-scheme: dark)").addEventListener("change", begin);
begin();
