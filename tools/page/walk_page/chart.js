// The chart of score and lamp, and the facts of the line.

const chart = byId("chart");
const EDGES = { left: 40, right: 40, top: 12, bottom: 20 };
const MARKED = ["treasure found", "treasure home", "hint", "closing", "closed", "died"];
const scale = { width: 0, height: 0 }; // until they are measured, and again after each change
// A score that is drawn under that of the walk, and the line at which each of its lines is; a page
// that changes its walk has here how it was before.
const under = { score: [], lineOf: (at) => at };

// ---- scales

// The least and the greatest of some figures and of two more.
function extentOf(columns, low, high) {
  for (const figures of columns) {
    for (let at = 0; at < figures.length; at += 1) {
      if (figures[at] < low) low = figures[at];
      if (figures[at] > high) high = figures[at];
    }
  }
  return [low, high];
}

function setScale() {
  if (!scale.width) {
    const box = chart.getBoundingClientRect();
    Object.assign(scale, { width: Math.max(box.width, 200), height: Math.max(box.height, 80) });
  }
  scale.lines = Math.max(...walks.map((it) => columnOf(it, last(it))), 1);
  const [, score] = extentOf([under.score, ...walks.map((it) => it.score)], 0, 10);
  const [low, lamp] = extentOf(walks.map((it) => it.lamp), 0, 10);
  scale.score = [0, score * 1.08];
  scale.lamp = [low, lamp * 1.08];
}

const xOf = (column) => EDGES.left
  + ((scale.width - EDGES.left - EDGES.right) * column) / scale.lines;
const yOf = (value, [low, high]) => scale.height - EDGES.bottom
  - ((scale.height - EDGES.top - EDGES.bottom) * (value - low)) / (high - low);

// Where a line of a walk is.
const xIn = (it, at) => xOf(columnOf(it, at));

// Round numbers for the marks of an axis.
function ticks(low, high, count) {
  const rough = Math.max((high - low) / count, 1);
  const power = 10 ** Math.floor(Math.log10(rough));
  const step = [1, 2, 5, 10].map((it) => it * power).find((it) => it >= rough);
  const found = [];
  for (let at = Math.ceil(low / step) * step; at <= high; at += step) found.push(at);
  return found;
}

// ---- lines of the chart

// The points of the figures of lines, at most three at a half of a pixel: the last of those that
// share it, and the least and the greatest of them.
function pointsOf(figures, columnAt, from = 1, until = figures.length) {
  const points = [];
  let bucket = null;
  const end = () => bucket && points.push(...[...new Set([bucket.low, bucket.high, bucket.last])]
    .map((value) => [bucket.x, value]));
  for (let at = Math.max(from, 1); at <= until; at += 1) {
    const [x, value] = [Math.round(xOf(columnAt(at)) * 2) / 2, figures[at - 1]];
    if (!bucket || bucket.x !== x) {
      end();
      bucket = { x, low: value, high: value, last: value };
    }
    bucket.low = Math.min(bucket.low, value);
    bucket.high = Math.max(bucket.high, value);
    bucket.last = value;
  }
  end();
  return points;
}

const pointsIn = (it, name, from, until) =>
  pointsOf(it[name], (at) => columnOf(it, at), from, until);

function stairs(points, range) {
  const rows = points.map(([x, value]) => [x, yOf(value, range).toFixed(1)]);
  return rows.map(([x, y], at) => (at ? `H${x}V${y}` : `M${x},${y}`)).join("");
}

function scorePath(it, from, until) {
  return stairs(pointsIn(it, "score", from, until), scale.score);
}

const SHAPES = {
  "treasure found": "M0,-5L5,0L0,5L-5,0z",
  "treasure home": "M0,-6L6,0L0,6L-6,0z",
  hint: "M-4,4L0,-5L4,4z",
  closing: "M-4,-4H4V4H-4z",
  closed: "M-5,-5H5V5H-5z",
  died: "M-5,-5L5,5M5,-5L-5,5",
};

function marksOf(it) {
  const marks = [];
  const isOne = it.happened.words.map((words) =>
    words.split(",").some((name) => MARKED.includes(name)));
  for (let at = 1; at <= last(it); at += 1) {
    if (!isOne[it.happened.rows[at - 1]]) continue;
    for (const event of eventsAt(it, at).filter((name) => MARKED.includes(name))) {
      if (it !== walk() && isShared(at, it)) continue;
      const [x, y] = [xIn(it, at), yOf(it.score[at - 1], scale.score)];
      const title = draw("title", {}, `at ${inLog(at)}: ${event}`);
      marks.push(draw("path", { d: SHAPES[event], "data-event": event,
        class: `event-mark ${event.replace(" ", "-")} ${colour(it)}`,
        transform: `translate(${x.toFixed(1)} ${y.toFixed(1)})` }, title));
    }
  }
  return marks;
}

function axes() {
  const parts = [];
  const [left, right, foot] = [EDGES.left, scale.width - EDGES.right, scale.height - EDGES.bottom];
  for (const value of ticks(...scale.score, 3)) {
    const y = yOf(value, scale.score);
    parts.push(draw("path", { class: "grid", d: `M${left},${y}H${right}` }),
      draw("text", { x: left - 6, y: y + 4, "text-anchor": "end" }, String(value)));
  }
  for (const value of ticks(...scale.lamp, 3)) {
    parts.push(draw("text", { x: right + 6, y: yOf(value, scale.lamp) + 4, class: "lamp-axis" },
      String(value)));
  }
  for (const value of ticks(0, last(walk()) - 1, Math.max(scale.width / 90, 2))) {
    parts.push(draw("text", { x: xIn(walk(), value + 1), y: foot + 15, "text-anchor": "middle" },
      String(value)));
  }
  return parts;
}

function drawChart() {
  setScale();
  const path = (name, d) => draw("path", { class: name, d });
  const mine = pointsIn(walk(), "score");
  const foot = yOf(0, scale.score);
  const lamp = pointsIn(walk(), "lamp")
    .map(([x, value], at) => `${at ? "L" : "M"}${x},${yOf(value, scale.lamp).toFixed(1)}`).join("");
  const parts = [...axes()];
  if (mine.length) {
    parts.push(path("area", `${stairs(mine, scale.score)}V${foot}H${mine[0][0]}z`));
  }
  parts.push(path("lamp", lamp));
  if (under.score.length) {
    parts.push(path("score before", stairs(pointsOf(under.score, under.lineOf), scale.score)));
  }
  if (data.parting) {
    for (const at of [sharedOf(walk()), metOf(walk())]) {
      if (at >= last(walk())) continue;
      const x = xIn(walk(), at + 1);
      parts.push(path("part", `M${x},${EDGES.top}V${foot}`));
    }
    const until = Math.min(metOf(other()) + 1, last(other()));
    parts.push(path(`score ${colour(other())}`, scorePath(other(), sharedOf(other()), until)));
  }
  parts.push(path(`score ${colour(walk())}`, stairs(mine, scale.score)));
  for (const it of walks) parts.push(...marksOf(it));
  chart.setAttribute("viewBox", `0 0 ${scale.width} ${scale.height}`);
  renew(chart, [...parts, draw("g", { id: "cursor" })]);
  showLegend();
  showCursor();
}

function showLegend() {
  const entry = (shown, name) => make("li", {},
    draw("svg", { viewBox: "-8 -6 16 12", "aria-hidden": "true" }, shown), name);
  const stroke = (name) => draw("path", { class: name, d: "M-8,0H8" });
  const several = walks.length > 1;
  const entries = walks.map((it) => entry(stroke(`score ${colour(it)}`),
    several ? `score of ${it.name}` : "score"));
  if (under.score.length) entries.push(entry(stroke("score before"), "score before"));
  entries.push(entry(stroke("lamp"), "lamp"));
  for (const event of MARKED) {
    if (!walks.some((it) => it.happened.words.some((words) => words.split(",").includes(event)))) {
      continue;
    }
    const name = `event-mark ${event.replace(" ", "-")}`;
    const shape = draw("path", { class: name, d: SHAPES[event] });
    entries.push(entry(shape, event));
  }
  renew(byId("legend"), entries);
}

// ---- the line that is looked at

function showCursor() {
  const x = xIn(walk(), now.at);
  const parts = [draw("path", { class: "cursor",
    d: `M${x},${EDGES.top - 6}V${scale.height - EDGES.bottom}` })];
  for (const it of isShared(now.at) ? [walk()] : [...walks].reverse()) {
    const at = it === walk() ? now.at : beside(now.at);
    if (!at) continue;
    parts.push(draw("circle", { class: `dot ${colour(it)}`, r: 5, cx: xIn(it, at),
      cy: yOf(it.score[at - 1], scale.score) }));
  }
  byId("cursor").replaceChildren(...parts);
  chart.setAttribute("aria-valuemin", 0);
  chart.setAttribute("aria-valuemax", last(walk()));
  chart.setAttribute("aria-valuenow", now.at);
  chart.setAttribute("aria-valuetext", spoken());
}

// The line in a sentence, as a screen reader says it.
function spoken() {
  if (!now.at) return "the opening";
  const happened = eventsAt(walk(), now.at);
  return [`at ${inLog(now.at)}: ${walk().lines[now.at - 1]}`, titleOf(placeAt(walk(), now.at)),
    `score ${figure(walk(), "score", now.at)}`, `lamp ${figure(walk(), "lamp", now.at)}`,
    ...happened].filter(Boolean).join(", ");
}

function lineAtX(x) {
  const box = chart.getBoundingClientRect();
  const part = (x - box.left - EDGES.left) / (box.width - EDGES.left - EDGES.right);
  return atColumn(walk(), Math.round(part * scale.lines));
}

// ---- facts

function scoreFact() {
  const gain = gainAt(walk(), now.at);
  const parts = [`${figure(walk(), "score", now.at)} of ${walk().maximum}`];
  if (gain) parts.push(`, ${signed(gain)} at this line`);
  if (walks[1] && !isShared(now.at)) {
    const at = beside(now.at);
    parts.push("; ", make("span", { class: colour(other()) },
      `${figure(other(), "score", at)} in ${other().name}`));
  }
  return parts;
}

function placeFact() {
  const [from, to] = [figure(walk(), "from", now.at), placeAt(walk(), now.at)];
  const shown = to ? `${to} ${titleOf(to)}` : "nowhere";
  return from && from !== to ? `${shown} \u2190 ${from}` : shown;
}

const listed = (names) => names.join(", ").toLowerCase() || "nothing";
const numbers = (count) => (count ? `${count} drawn` : "none drawn");

function factsOf(at) {
  const facts = [["Place", placeFact(), "wide title"]];
  if (!at) return facts;
  const happened = eventsAt(walk(), at).join(", ");
  const [question, ended] = ["question", "ended"].map((name) => word(walk(), name, at));
  facts.push(["At", `${inLog(at)}, of ${last(walk())} lines`],
    ["Turn", String(figure(walk(), "turns", at))],
    ["Score", scoreFact(), "wide"],
    ["Lamp", String(figure(walk(), "lamp", at)), "wide"],
    ["Carried", listed(carriedAt(walk(), at)), "wide"],
    ["Here", listed(thingsByPlace(walk(), at).get(placeAt(walk(), at)) ?? []), "wide"],
    ["Chance", `${numbers(figure(walk(), "draws", at))}, stream at ${figure(walk(), "stream", at)}`,
      "wide"]);
  if (happened) facts.push(["Happened", happened, "wide"]);
  if (question !== NONE) facts.push(["Question", question, "wide"]);
  if (ended !== NONE) facts.push(["Ended", ended, "wide"]);
  return facts;
}

function showFacts() {
  renew(byId("facts"), factsOf(now.at).flatMap(([name, value, kind = ""]) =>
    [make("dt", {}, name), make("dd", { class: kind, "data-fact": name }, ...[value].flat())]));
}
