// What moves the page: keys, clicks, links, the search; and what each move shows.

const field = byId("search");
const search = { wanted: "", found: [] };
let linking = 0;

// ---- moves

const onShown = []; // what a page that shows more does after each move

function go(at, isSaid = true) {
  now.at = Math.min(Math.max(at, 0), last(walk()));
  showMap();
  showCursor();
  showFacts();
  showFound();
  byId("visited").value = String(placeAt(walk(), now.at));
  if (isSaid && document.activeElement !== list) byId("said-now").textContent = spoken();
  clearTimeout(linking);
  linking = setTimeout(() => history.replaceState(null, "", addressOf(now.at)), 150);
  for (const show of onShown) show();
  showLine(); // last, as it measures what the others may have moved
}

const OPENING = "#opening";
const addressOf = (at) => (at ? `#${inLog(at)}` : OPENING);

function goByAddress() {
  const found = /^#(\d{1,9})$/.exec(location.hash);
  if (found) go(Number(found[1]) + 1);
  else if (location.hash === OPENING) go(0);
  return Boolean(found) || location.hash === OPENING;
}

// The visits of a place, one after another, and then again from the first.
function visit(place, step = 1) {
  const visits = walk().visits.get(place);
  if (!visits) return say(`${place} ${titleOf(place)}: never visited in ${walk().name}`);
  const next = step > 0 ? visits.find((at) => at > now.at) ?? visits[0]
    : visits.findLast((at) => at < now.at) ?? visits.at(-1);
  go(next);
  if (visits.length > 1) say(`visit ${visits.indexOf(next) + 1} of ${visits.length}: ${spoken()}`);
}

const say = (text) => { byId("said-now").textContent = text; };

function swap() {
  if (!walks[1]) return;
  const at = beside(now.at);
  Object.assign(now, { walk: 1 - now.walk, at });
  begin();
  lookAtFirst();
  go(now.at);
}

// ---- the search

// A text as it is searched: small letters, and a blank where a line ends.
const lowered = (text) => text.toLowerCase().replaceAll("\n", " ");

function lookFor(text) {
  search.wanted = lowered(text);
  findAll();
  redrawBlocks();
}

// The lines that have what is looked for, in themselves or in what was said.
function findAll() {
  search.found = [];
  if (!search.wanted) return;
  const has = new Map();
  const isIn = (at) => {
    const said = walk().said[at];
    if (!has.has(said)) has.set(said, lowered(saidAt(walk(), at)).includes(search.wanted));
    return has.get(said);
  };
  for (let at = 0; at <= last(walk()); at += 1) {
    const line = at ? lowered(walk().lines[at - 1]) : "";
    if (line.includes(search.wanted) || isIn(at)) search.found.push(at);
  }
}

function goToMatch(step, isFromHere = false) {
  const { found } = search;
  if (!found.length) return showFound();
  const next = isFromHere ? found.find((at) => at >= now.at)
    : step > 0 ? found.find((at) => at > now.at) : found.findLast((at) => at < now.at);
  go(next ?? (step > 0 ? found[0] : found.at(-1)));
}

function showFound() {
  const at = search.found.indexOf(now.at);
  const count = search.found.length;
  byId("found").textContent = !search.wanted ? "" : !count ? "nowhere"
    : at < 0 ? `${count} lines` : `${at + 1} of ${count}`;
}

// ---- keys

const KEYS = {
  ArrowDown: () => go(now.at + 1), ArrowRight: () => go(now.at + 1),
  ArrowUp: () => go(now.at - 1), ArrowLeft: () => go(now.at - 1),
  PageDown: () => go(now.at + 10), PageUp: () => go(now.at - 10),
  Home: () => go(0), End: () => go(last(walk())),
  v: () => visit(placeAt(walk(), now.at)), V: () => visit(placeAt(walk(), now.at), -1),
  n: () => goToMatch(1), N: () => goToMatch(-1), "?": showKeys, c: copyLine,
  "/": () => { field.focus(); field.select(); }, o: swap,
  "+": () => nearer(1.3), "=": () => nearer(1.3), "-": () => nearer(1 / 1.3), 0: wholeOrNear,
};

function showKeys() {
  byId("keys").toggleAttribute("open");
}

// ---- a line of a script

const scriptLine = (at) => `replace ${inLog(at)} ${walk().lines[at - 1]}`;

// A page from a disk has no clipboard of its own, but a field that is selected can be copied.
function copyLine() {
  if (!now.at) return say("the opening is no line");
  const held = make("textarea", { class: "hidden", tabindex: "-1", "aria-hidden": "true" });
  const focused = document.activeElement;
  held.value = scriptLine(now.at);
  document.body.append(held);
  held.select();
  const isCopied = document.execCommand("copy");
  held.remove();
  focused?.focus({ preventScroll: true });
  say(isCopied ? `copied: ${scriptLine(now.at)}` : "this browser lets no text be copied");
}

function wholeOrNear() {
  if (sight.isWhole) lookReadably();
  else lookAtWhole();
}

function onKey(event) {
  const target = event.target;
  if (event.ctrlKey || event.metaKey || event.altKey) return;
  if (target === field) return onSearchKey(event);
  if (target.matches("select")) return;
  if (event.key === "Escape") return byId("keys").removeAttribute("open");
  if ((event.key === "Enter" || event.key === " ") && target.dataset.place) {
    event.preventDefault();
    return visit(Number(target.dataset.place));
  }
  const move = KEYS[event.key];
  if (!move) return;
  event.preventDefault();
  move();
  if (target.dataset.place) places.get(placeAt(walk(), now.at))?.group.focus();
}

function onSearchKey(event) {
  if (event.key === "Enter") {
    event.preventDefault();
    goToMatch(event.shiftKey ? -1 : 1);
  } else if (event.key === "Escape") {
    event.preventDefault();
    list.focus();
  }
}

document.addEventListener("keydown", onKey);
field.addEventListener("input", () => {
  lookFor(field.value);
  goToMatch(1, true);
});
byId("after").addEventListener("click", () => goToMatch(1));
byId("before").addEventListener("click", () => goToMatch(-1));
byId("other").addEventListener("click", swap);
byId("copy").addEventListener("click", copyLine);
addEventListener("hashchange", goByAddress);

// ---- the pointer

list.addEventListener("click", (event) => {
  const line = event.target.closest("[data-at]");
  if (line && !String(getSelection())) go(Number(line.dataset.at));
});
let scrolling = 0;
list.addEventListener("scroll", () => {
  cancelAnimationFrame(scrolling);
  scrolling = requestAnimationFrame(showBlocks);
}, { passive: true });

chart.addEventListener("pointerdown", (event) => {
  chart.setPointerCapture(event.pointerId);
  go(lineAtX(event.clientX));
});
chart.addEventListener("pointermove", (event) => {
  if (event.buttons) go(lineAtX(event.clientX));
});

const drag = { from: null, moved: false };
drawing.addEventListener("pointerdown", (event) => {
  Object.assign(drag, { from: { x: event.clientX, y: event.clientY, ...sight }, moved: false });
  drag.from.sight = { ...sight };
});
drawing.addEventListener("pointermove", (event) => {
  if (!drag.from || !event.buttons) return;
  const [dx, dy] = [event.clientX - drag.from.x, event.clientY - drag.from.y];
  if (!drag.moved && Math.hypot(dx, dy) < 5) return;
  if (!drag.moved) drawing.setPointerCapture(event.pointerId);
  drag.moved = true;
  drawing.classList.add("dragged");
  const unit = sight.width / size().width;
  look(drag.from.sight.x - dx * unit, drag.from.sight.y - dy * unit, sight.width);
});
addEventListener("pointerup", () => {
  drag.from = null;
  drawing.classList.remove("dragged");
});
drawing.addEventListener("click", (event) => {
  const place = event.target.closest("[data-place]");
  if (place && !drag.moved) visit(Number(place.dataset.place));
});
drawing.addEventListener("wheel", (event) => {
  event.preventDefault();
  const factor = Math.exp(-event.deltaY / 400);
  const box = size();
  const [px, py] = [(event.clientX - box.left) / box.width, (event.clientY - box.top) / box.height];
  const width = Math.min(Math.max(sight.width / factor, 120), wholeWidth());
  look(sight.x + px * (sight.width - width),
    sight.y + py * (heightOf(sight.width) - heightOf(width)), width);
}, { passive: false });
overview.addEventListener("pointerdown", (event) => {
  const box = overview.getBoundingClientRect();
  const unit = Math.max(whole[2] / box.width, whole[3] / box.height);
  const x = whole[0] + whole[2] / 2 + (event.clientX - box.left - box.width / 2) * unit;
  const y = whole[1] + whole[3] / 2 + (event.clientY - box.top - box.height / 2) * unit;
  glideTo(x - sight.width / 2, y - heightOf(sight.width) / 2, sight.width);
});
byId("nearer").addEventListener("click", () => nearer(1.3));
byId("farther").addEventListener("click", () => nearer(1 / 1.3));
byId("whole").addEventListener("click", wholeOrNear);
byId("visited").addEventListener("change", (event) => {
  go(walk().visits.get(Number(event.target.value))?.[0] ?? now.at);
});

// ---- print, which shows the whole map and all lines

let seenBefore = null;
addEventListener("beforeprint", () => {
  seenBefore = { ...sight };
  lookAtWhole();
  blocks.forEach(fillBlock);
});
addEventListener("afterprint", () => {
  look(seenBefore.x, seenBefore.y, seenBefore.width);
  showLine();
});

// ---- the page as it opens

function showParting() {
  if (!walks[1]) return;
  const name = make("span", { class: colour(other()) }, other().name);
  byId("parting").replaceChildren(...partingFrom(name));
  byId("parting").hidden = false;
  byId("other").hidden = false;
  byId("other").replaceChildren("Look at ", name.cloneNode(true));
}

// Where the walks part, and what both lead to.
function partingFrom(name) {
  if (!data.parting) return ["Plays as ", name, " does."];
  const line = (it) => make("code", {}, it.lines[sharedOf(it)] ?? "its end");
  const [ours, theirs] = [walk(), other()].map((it) => figure(it, "score", last(it)));
  const more = ours === theirs ? ", as it does."
    : `, ${Math.abs(ours - theirs)} ${ours < theirs ? "less" : "more"} than ${theirs}.`;
  return ["Parts from ", name, ` at ${sharedOf(walk())} by `, line(walk()), ", not ",
    line(other()), meetingText(), `; ends with ${ours}${more}`];
}

function meetingText() {
  if (!data.meeting) return "";
  const [at, there] = [metOf(walk()), metOf(other())];
  return `; comes together again at ${at}${at === there ? "" : `, ${there} there`}`;
}

// ---- the score's own table

function showTable() {
  const [head, ...rows] = walk().table ?? [[]];
  byId("score-box").hidden = !rows.length;
  const cells = (tag, row) => row.map((text) => make(tag, {}, text));
  byId("score-table").replaceChildren(
    make("thead", {}, make("tr", {}, ...cells("th", head))),
    make("tbody", {}, ...rows.map((row) => make("tr", {}, ...cells("td", row)))));
}

// What is said of a walk as a whole, and the places that it visits.
function showSum() {
  byId("sum").textContent = walk().sum.replace(/^-- /, "");
  const visited = [...walk().visits.keys()].filter(Boolean).sort((a, b) => a - b).join();
  if (byId("visited").dataset.places === visited) return;
  byId("visited").dataset.places = visited;
  byId("visited").replaceChildren(...visited.split(",").filter(Boolean).map((place) =>
    make("option", { value: place }, `${place} ${titleOf(place)}`)));
}

function begin() {
  const kind = walks[1] ? colour(walk()) : "";
  byId("name").replaceChildren(make("span", { class: kind }, walk().name));
  showSum();
  showParting();
  showTable();
  makeBlocks();
  lookFor(field.value);
  drawChart();
}

function lookAtFirst() {
  if (wholeWidth() * 0.9 < size().width) lookAtWhole();
  else lookReadably();
}

new ResizeObserver(() => {
  scale.width = 0;
  drawChart();
}).observe(chart);
new ResizeObserver(() => {
  room = null;
  if (sight.isWhole) lookAtWhole();
  else look(sight.x, sight.y, Math.min(size().width / READABLE, sight.width));
}).observe(drawing);
now.at = data.parting ? Math.min(sharedOf(walk()) + 1, last(walk())) : 0;
begin();
lookAtFirst();
if (!goByAddress()) go(now.at, false);
list.focus({ preventScroll: true });
