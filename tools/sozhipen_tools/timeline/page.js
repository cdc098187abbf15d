"use strict";
// Draws the picture of the page's data: stacks the marks of each lane, scrolls, zooms, and joins a mark to what it names.

const picture = JSON.parse(document.getElementById("data").textContent);
const [view, axis, plot, names, told] = ["view", "axis", "plot", "names", "told"].map(id => document.getElementById(id));
const hint = told.textContent;

const ROW = 18, PAD = 5, LEFT = 14, HALF = 6, AXIS = picture.dates ? 40 : 26;
const WIDEST = 400000;

const marks = new Map(picture.marks.map(mark => [mark.key, mark]));
for (const mark of picture.marks) mark.users = [];
for (const mark of picture.marks) {
  for (const key of [...(mark.names || []), ...(mark.makes || [])]) marks.get(key).users.push(mark.key);
}

// ---- the clock: the place of each moment, from 0 to 1

const moments = [...new Set([picture.end, ...picture.marks.flatMap(momentsOf)])].sort((a, b) => a - b);

function momentsOf(mark) {
  return [mark.start, mark.end, mark.gone, mark.since, mark.until, ...(mark.changes || [])].filter(t => t !== undefined);
}

const gaps = moments.slice(1).map((t, k) => t - moments[k]);

// A gap that is so many times as long as the middle one is cut: it is drawn as if it were no longer. So is the one from 0 to the first date.
const LONGEST = 40;
const cap = LONGEST * ([...gaps].sort((a, b) => a - b)[gaps.length >> 1] || 1);
const isLead = k => picture.dates && moments[k] === 0;
const rest = () => gaps.filter((gap, k) => !isLead(k));

function places(widthOf, lead, isCut) {
  const sums = [0];
  gaps.forEach((gap, k) => sums.push(sums[k] + (isLead(k) ? lead : widthOf(gap))));
  const whole = sums[sums.length - 1] || 1;
  return { at: new Map(moments.map((t, k) => [t, sums[k] / whole])), cuts: gaps.map((gap, k) => k).filter(k => isLead(k) || isCut(gaps[k])) };
}

// A squeezed clock gives short gaps room beside long ones: a gap a thousand times as long is eight times as wide.
const squeeze = gap => Math.min(gap, cap) ** 0.3;
const squeezed = places(squeeze, squeeze(cap) / 4, gap => gap > cap);
const toScale = places(gap => gap, rest().reduce((sum, gap) => sum + gap, 0) / 20 || 1, () => false);

let place = squeezed, width = 0, chosen = null, floating = [], right = 0;
const x = t => LEFT + place.at.get(t) * width;
const roomForAll = () => Math.max(200, view.clientWidth - names.offsetWidth - LEFT - right);

// ---- moments as they are read

function dateAndTime(t) {
  const [day, time] = new Date(t).toISOString().split("T");
  return [time.replace("Z", "").replace(".000", ""), day];
}

// What stands at a moment on the axis: a number, or the time with its day below.
const read = t => picture.dates && t !== 0 ? dateAndTime(t) : [String(t)];

function spanText(span) {
  const parts = [[86400000, "d"], [3600000, "h"], [60000, "m"], [1000, "s"], [1, "ms"]];
  const first = parts.findIndex(([unit]) => span >= unit);
  return parts.slice(first, first + 2).map(([unit, name], k) => {
    const count = Math.floor(k === 0 ? span / unit : span % parts[first][0] / unit);
    return count ? `${count}${name}` : "";
  }).join(" ").trim();
}

// ---- shapes

const pen = document.createElement("canvas").getContext("2d");
pen.font = "11px system-ui, sans-serif";
const lengthOf = text => pen.measureText(text).width;

function shape(parent, tag, attributes, text) {
  const made = document.createElementNS("http://www.w3.org/2000/svg", tag);
  for (const [name, value] of Object.entries(attributes)) made.setAttribute(name, value);
  if (text !== undefined) made.textContent = text;
  parent.append(made);
  return made;
}

const path = (parent, name, d) => shape(parent, "path", { class: name, d });

const draw = {
  events(group, mark, a, b, y) {
    if (mark.gone !== undefined) path(group, "tail", `M${b} ${y}H${x(mark.gone)}m0 -4v8`);
    if (isBar(mark, a, b)) shape(group, "rect", { class: "event", x: a, y: y - HALF, width: b - a, height: 2 * HALF, rx: HALF });
    else path(group, "event", `M${(a + b) / 2} ${y - HALF}l${HALF} ${HALF}l${-HALF} ${HALF}l${-HALF} ${-HALF}z`);
  },
  facts(group, mark, a, b, y) {
    shape(group, "rect", { class: "fact", x: a, y: y - HALF, width: Math.max(mark.lasts ? 8 : 3, b - a), height: 2 * HALF });
    for (const t of mark.changes || []) path(group, "change", `M${x(t)} ${y - HALF}v${2 * HALF}l-6 ${-HALF}z`);
    if (!mark.lasts) path(group, "cross", `M${b + 1} ${y - 4}l8 8m0 -8l-8 8`);
  },
  firings(group, mark, a, b, y) {
    if (mark.since !== undefined) {
      path(group, "wait", `M${x(mark.since)} ${y}H${b - HALF}`);
      shape(group, "circle", { class: "wait-end", cx: x(mark.since), cy: y, r: 3 });
    }
    path(group, "fire", `M${b} ${y - HALF}l${HALF} ${2 * HALF - 1}h${-2 * HALF}z`);
  },
  promises(group, mark, a, b, y) {
    if (mark.gone !== undefined) path(group, "tail", `M${b} ${y + HALF}H${x(mark.gone)}m0 -4v8`);
    path(group, "promise", `M${b} ${y + HALF}v${-2 * HALF}l8 4l-8 4`);
  },
  faults(group, mark, a, b, y) {
    path(group, "fault", `M${b - 3} ${y - 7}h6l4 4v6l-4 4h-6l-4 -4v-6z`);
    path(group, "bar", `M${b - 3} ${y - 3}l6 6m0 -6l-6 6`);
  },
};

// ---- lanes

// How far behind the end of a mark its label begins.
const BESIDE = { bar: 4, events: HALF + 4, facts: 12, firings: HALF + 4, promises: 12, faults: HALF + 4 };
const isBar = (mark, a, b) => mark.kind === "events" && b - a >= 2 * HALF;

// Where a mark lies: its shape from a to b, its label, and all of it from left to right.
function extent(mark) {
  const [a, b] = [x(mark.start), x(mark.end)], label = lengthOf(mark.label);
  const inside = ["events", "facts"].includes(mark.kind) && b - a > label + 3 * HALF;
  const tip = Math.max(b, mark.gone === undefined ? b : x(mark.gone));
  const left = Math.min(a - HALF - 1, mark.since === undefined ? a : x(mark.since)) - 1;
  const at = inside ? a + HALF : b + BESIDE[isBar(mark, a, b) ? "bar" : mark.kind];
  return { mark, a, b, left, at, inside, right: Math.max(tip + 10, inside ? b : at + label) + 3 };
}

// Gives each mark of a lane the first row in which it has room.
function stack(items) {
  const ends = [];
  items.sort((p, q) => p.left - q.left);
  for (const item of items) {
    const free = ends.findIndex(end => end <= item.left);
    item.row = free < 0 ? ends.length : free;
    ends[item.row] = item.right;
  }
  return ends.length;
}

function drawMark(item, top, first) {
  const { mark, a, b } = item, y = top + PAD + ROW * (item.row + 0.5);
  const look = mark.lane % 2 ? "mark" : "mark banded";
  const group = shape(plot, "g", { class: look, id: mark.key, tabindex: first ? 0 : -1, role: "img", "aria-label": mark.text });
  draw[mark.kind](group, mark, a, b, y);
  const kind = item.inside ? `inside ${mark.kind}` : mark.kind;
  const label = shape(group, "text", { class: kind, x: item.at, y: y + 4 }, mark.label);
  if (item.inside) floating.push({ label, first: item.at, last: b - HALF - lengthOf(mark.label) });
  shape(group, "rect", { class: "hit", x: item.left, y: y - ROW / 2 + 1, width: item.right - item.left - 2, height: ROW - 2, rx: 3 });
  Object.assign(mark, { a, b, y });
}

function drawLane(lane, k, top) {
  const items = picture.marks.filter(mark => mark.lane === k).map(extent);
  const height = nameLane(lane, stack(items) * ROW + 2 * PAD);
  if (k % 2 === 0) shape(plot, "rect", { class: "band", x: 0, y: top, width: LEFT + width + right, height });
  return { items, top, height };
}

function nameLane(lane, height) {
  const box = document.createElement("div"), name = document.createElement("span"), under = document.createElement("small");
  box.title = `${lane.name} (${lane.under})`;
  name.textContent = lane.name;
  under.textContent = lane.under;
  name.append(" ", under);
  box.append(name);
  names.append(box);
  const tall = Math.max(height, name.offsetHeight + 8);
  box.style.height = `${tall}px`;
  return tall;
}

// The end, the beginning, then firings, then the others are written as long as they have room.
const firedAt = picture.marks.filter(mark => mark.kind === "firings").map(mark => mark.start);
const inOrder = [...new Set([picture.end, moments[0], ...firedAt, ...moments])];

function drawMoments(height) {
  const taken = [];
  for (const t of inOrder) {
    const lines = read(t), half = Math.max(...lines.map(lengthOf)) / 2 + 5, middle = Math.max(x(t), half);
    if (taken.some(other => middle - half < other.to && other.from < middle + half)) continue;
    taken.push({ t, middle, lines, from: middle - half, to: middle + half });
  }
  let day = null;
  for (const { t, middle, lines } of taken.sort((a, b) => a.t - b.t)) {
    shape(axis, "text", { x: middle, y: 17, "text-anchor": "middle" }, lines[0]);
    if (lines[1] && lines[1] !== day) shape(axis, "text", { x: middle, y: 32, "text-anchor": "middle" }, day = lines[1]);
    shape(plot, "line", { class: "moment", x1: x(t), x2: x(t), y1: 0, y2: height });
  }
  shape(plot, "line", { class: "ending", x1: x(picture.end), x2: x(picture.end), y1: 0, y2: height });
}

// Where time is left out: a torn line, with how much it is where that has room.
function drawCuts(height) {
  for (const k of place.cuts) {
    const from = x(moments[k]), to = x(moments[k + 1]), middle = (from + to) / 2, text = spanText(gaps[k]);
    path(plot, "cut", `M${middle - 2} 0${"l4 4l-4 4".repeat(Math.ceil(height / 8))}`);
    path(axis, "cut", `M${middle - 2} ${AXIS - 8}l4 4l-4 4`);
    if (isLead(k) || lengthOf(text) + 8 > to - from) continue;
    shape(plot, "text", { class: "left-out", x: middle, y: 12, "text-anchor": "middle" }, text);
  }
}

function drawAll() {
  const focused = focusedKey();
  if (focused) document.activeElement.blur();
  for (const part of [axis, plot, names]) part.replaceChildren();
  floating = [];
  right = Math.max(60, ...picture.marks.map(mark => lengthOf(mark.label) + 30));
  let height = 0;
  const lanes = picture.lanes.map((lane, k) => {
    const drawn = drawLane(lane, k, height);
    height += drawn.height;
    return drawn;
  });
  for (const [part, tall] of [[axis, AXIS], [plot, height]]) {
    part.setAttribute("width", LEFT + width + right);
    part.setAttribute("height", tall);
  }
  drawMoments(height);
  drawCuts(height);
  shape(plot, "g", { id: "joins" });
  for (const lane of lanes) lane.items.forEach((item, k) => drawMark(item, lane.top, k === 0));
  if (focused) document.getElementById(focused).focus({ preventScroll: true });
  choose(chosen);
}

// ---- scrolling: the label of a bar that begins left of the view stands where the bar comes into sight

function floatLabels() {
  for (const { label, first, last } of floating) label.setAttribute("x", Math.min(last, Math.max(first, view.scrollLeft + HALF)));
}

// ---- zoom

function zoom(factor, at = view.clientWidth / 2) {
  const kept = (view.scrollLeft + at - names.offsetWidth - LEFT) / width;
  width = Math.min(WIDEST, Math.max(roomForAll(), width * factor));
  drawAll();
  view.scrollLeft = kept * width + LEFT + names.offsetWidth - at;
  floatLabels();
}

// ---- pointing

function joinTo(from, to, name) {
  const end = Math.min(Math.max(from.b, to.a), to.b), middle = (from.y + to.y) / 2;
  path(document.getElementById("joins"), `join ${name}`, `M${from.b} ${from.y}C${from.b} ${middle} ${end} ${middle} ${end} ${to.y}`);
}

// Shows what a mark names and makes, and what names or made it; none of it for null.
function choose(key) {
  document.getElementById("joins").replaceChildren();
  for (const group of plot.querySelectorAll(".chosen, .named")) group.classList.remove("chosen", "named");
  chosen = key;
  plot.classList.toggle("choosing", key !== null);
  told.textContent = key === null ? hint : marks.get(key).text;
  if (key === null) return;
  const mark = marks.get(key);
  document.getElementById(key).classList.add("chosen");
  const pairs = [mark, ...mark.users.map(user => marks.get(user))];
  for (const from of pairs) {
    for (const [list, name] of [[from.names || [], "names"], [from.makes || [], "makes"]]) {
      for (const to of list.filter(other => from === mark || other === key)) {
        joinTo(from, marks.get(to), name);
        document.getElementById(from === mark ? to : from.key).classList.add("named");
      }
    }
  }
}

const markOf = target => target.closest && target.closest(".mark");
const focusedKey = () => markOf(document.activeElement) ? document.activeElement.id : null;

plot.addEventListener("pointerover", event => choose(markOf(event.target) ? markOf(event.target).id : focusedKey()));
plot.addEventListener("pointerleave", () => choose(focusedKey()));
plot.addEventListener("focusin", event => choose(markOf(event.target) ? event.target.id : null));
plot.addEventListener("focusout", () => choose(null));

// ---- keys: the Tab key goes from lane to lane, the arrows go within a lane, n and p from firing to firing as they came

function neighbour(group, key) {
  const inLane = [...plot.querySelectorAll(".mark")].filter(other => marks.get(other.id).lane === marks.get(group.id).lane);
  const at = inLane.indexOf(group);
  return { ArrowRight: inLane[at + 1], ArrowLeft: inLane[at - 1], Home: inLane[0], End: inLane[inLane.length - 1] }[key];
}

const firings = picture.marks.filter(mark => mark.kind === "firings").map(mark => mark.key);

// The firing behind the focused one, or before it; the first, or the last, where none is.
function firingFrom(step) {
  const at = firings.indexOf(focusedKey()), end = step > 0 ? 0 : -1;
  return firings.at(at < 0 ? end : (at + step) % firings.length);
}

function goTo(group) {
  group.focus({ preventScroll: true });
  group.scrollIntoView({ block: "nearest", inline: "center" });
}

document.addEventListener("keydown", event => {
  if (event.ctrlKey || event.metaKey || event.altKey) return;
  if (event.key === "+") zoom(1.5);
  else if (event.key === "-") zoom(1 / 1.5);
  else if (event.key === "0") zoom(0);
  else if ("np".includes(event.key) && firings.length) goTo(document.getElementById(firingFrom(event.key === "n" ? 1 : -1)));
  else if (markOf(event.target)) {
    const next = neighbour(event.target, event.key);
    if (!next) return;
    goTo(next);
  } else return;
  event.preventDefault();
});

view.addEventListener("wheel", event => {
  if (!event.ctrlKey) return;
  event.preventDefault();
  zoom(event.deltaY < 0 ? 1.2 : 1 / 1.2, event.clientX - view.getBoundingClientRect().left);
}, { passive: false });

view.addEventListener("scroll", floatLabels);

document.getElementById("in").addEventListener("click", () => zoom(1.5));
document.getElementById("out").addEventListener("click", () => zoom(1 / 1.5));
document.getElementById("whole").addEventListener("click", () => zoom(0));
document.getElementById("true-scale").addEventListener("change", event => {
  place = event.target.checked ? toScale : squeezed;
  zoom(1);
});
window.addEventListener("resize", () => {
  makeRoomForTexts();
  zoom(1);
});

// ---- the text above: as high as the longest one, so that none is cut and the picture stands still

function makeRoomForTexts() {
  const shown = told.textContent;
  told.style.height = "auto";
  const lengths = picture.marks.map(mark => mark.text).sort((a, b) => b.length - a.length);
  told.textContent = lengths.length && lengths[0].length > hint.length ? lengths[0] : hint;
  const height = told.offsetHeight;
  told.textContent = shown;
  told.style.height = `${height}px`;
}

// ---- the first sight: a mark that the address names, as in page.html#mark-r3, is chosen

makeRoomForTexts();
drawAll();
width = Math.max(roomForAll(), moments.length * 16);
drawAll();
const asked = location.hash.replace("#mark-", "");
if (marks.has(asked)) {
  goTo(document.getElementById(asked));
  choose(asked);
}
