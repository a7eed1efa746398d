// The map: the place of the line, the trail that led there, places that weren't seen yet.

const drawing = byId("drawing");
const TRAIL = 10;
const whole = drawing.dataset.whole.split(" ").map(Number);
const sight = { x: 0, y: 0, width: 0, isWhole: false };
const MOST_PLACES = 2 ** 26; // more than a number of a place can be
const READABLE = 1.12; // pixels of a unit, ten of which are a letter
const places = new Map();
const ways = new Map();

for (const group of drawing.querySelectorAll("[data-place]")) {
  const box = group.querySelector("path, polygon, ellipse").getBBox();
  const middle = { x: box.x + box.width / 2, y: box.y + box.height / 2 };
  places.set(Number(group.dataset.place), { group, box, middle });
}
for (const group of drawing.querySelectorAll("[data-way]")) {
  const name = group.dataset.way;
  ways.set(name, [...(ways.get(name) ?? []), group]);
}

// ---- what was seen when

// At which line a walk first takes each way; one by forced motions, when both its ends are known.
function firstsOf(it) {
  const found = { places: new Map(), ways: new Map() };
  for (const [place, visits] of it.visits) found.places.set(place, visits[0]);
  const taken = new Set();
  for (let at = 1; at <= last(it); at += 1) {
    const [from, to] = [it.from[at - 1], it.to[at - 1]];
    if (from === to) continue;
    const way = Math.min(from, to) * MOST_PLACES + Math.max(from, to);
    if (taken.has(way)) continue;
    taken.add(way);
    for (const name of [`${from}.${to}`, `${to}.${from}`]) found.ways.set(name, at);
  }
  return found;
}

// A way that the map says was taken, and places that it says were seen, although no single line
// shows it: they are seen as soon as all around them is.
function addForced(first) {
  for (let round = 0; round < 3; round += 1) {
    for (const [name, [group]] of ways) {
      if (!group.classList.contains("seen") || first.ways.has(name)) continue;
      const ends = name.split(".").map((it) => first.places.get(Number(it)));
      const known = ends.filter((it) => it !== undefined);
      if (known.length === 2) first.ways.set(name, Math.max(...known));
      for (const end of name.split(".").map(Number)) {
        const isNew = places.get(end)?.group.matches(".forced.seen") && !first.places.has(end);
        if (isNew && known.length) first.places.set(end, Math.max(...known));
      }
    }
  }
}

for (const it of walks) addForced((it.first = firstsOf(it)));

function showSeen() {
  const first = walk().first;
  const isPale = (at) => at === undefined || at > now.at;
  for (const [place, { group }] of places) {
    group.classList.toggle("pale", isPale(first.places.get(place)));
    group.classList.toggle("reached", walk().visits.has(place));
    nameOf(place, group);
  }
  for (const [name, groups] of ways) {
    for (const group of groups) group.classList.toggle("pale", isPale(first.ways.get(name)));
  }
}

// What a place is called by a screen reader; those that were visited are buttons.
function nameOf(place, group) {
  const count = walk().visits.get(place)?.length ?? 0;
  if (group.dataset.named === `${now.walk} ${count}`) return;
  group.dataset.named = `${now.walk} ${count}`;
  group.setAttribute("role", count ? "button" : "img");
  const visits = count === 1 ? "1 visit" : count ? `${count} visits` : "never visited";
  group.setAttribute("aria-label", `${place} ${titleOf(place)}, ${visits}`);
}

// ---- the trail

// A bent line from a place to another, with a vertex in the middle, which has the arrow's head.
function bow(from, to) {
  const [dx, dy] = [to.x - from.x, to.y - from.y];
  const bend = { x: (from.x + to.x) / 2 - dy * 0.15, y: (from.y + to.y) / 2 + dx * 0.15 };
  const half = (a, b) => ({ x: (a.x + b.x) / 2, y: (a.y + b.y) / 2 });
  const [one, two] = [half(from, bend), half(bend, to)];
  const middle = half(one, two);
  const text = (it) => `${it.x.toFixed(1)},${it.y.toFixed(1)}`;
  return `M${text(from)} Q${text(one)} ${text(middle)} Q${text(two)} ${text(to)}`;
}

function trailOf(it, until) {
  const parts = [];
  for (let at = Math.max(until - TRAIL + 1, 1); at <= until; at += 1) {
    const [from, to] = [places.get(it.from[at - 1]), places.get(it.to[at - 1])];
    if (!from || !to || from === to) continue;
    const age = (until - at) / TRAIL;
    parts.push(draw("path", { class: `trail ${colour(it)}`, d: bow(from.middle, to.middle),
      opacity: (0.95 - 0.7 * age).toFixed(2), "marker-mid": `url(#head-${colour(it)}-arrow)` }));
  }
  return parts;
}

function arrow(kind) {
  const head = draw("path", { id: `head-${kind}`, d: "M0,0 L10,5 L0,10 L3,5 z" });
  return draw("marker", { id: `head-${kind}-arrow`, viewBox: "0 0 10 10", refX: 5, refY: 5,
    markerWidth: 3.2, markerHeight: 3.2, orient: "auto" }, head);
}

drawing.prepend(draw("defs", {}, arrow("mine"), arrow("theirs")));

function showTrails() {
  const theirs = walks[1] && beside(now.at);
  const parts = walks[1] && !isShared(now.at) ? trailOf(other(), theirs) : [];
  renew(byId("trails"), [...parts, ...trailOf(walk(), now.at)]);
  const mark = (name, place) => {
    for (const it of drawing.querySelectorAll(`.place.${name}`)) it.classList.remove(name);
    places.get(place)?.group.classList.add(name);
  };
  const [mine, second] = colour(walk()) === "mine" ? ["here", "there"] : ["there", "here"];
  mark(second, walks[1] && !isShared(now.at) ? placeAt(other(), theirs) : undefined);
  mark(mine, placeAt(walk(), now.at));
}

// ---- what is in sight

const size = () => drawing.getBoundingClientRect();
let room = null; // the width and height, which are measured once, and again after each change
const roomNow = () => (room ??= size());
const heightOf = (width) => (width * roomNow().height) / Math.max(roomNow().width, 1);
const wholeWidth = () =>
  Math.max(whole[2], (whole[3] * roomNow().width) / Math.max(roomNow().height, 1));

function look(x, y, width) {
  sight.width = Math.min(Math.max(width, 120), wholeWidth());
  const height = heightOf(sight.width);
  const within = (from, least, most, extent) => (extent >= most
    ? least - (extent - most) / 2 : Math.min(Math.max(from, least), least + most - extent));
  sight.x = within(x, whole[0], whole[2], sight.width);
  sight.y = within(y, whole[1], whole[3], height);
  sight.isWhole = sight.width >= wholeWidth() * 0.999;
  drawing.setAttribute("viewBox", `${sight.x} ${sight.y} ${sight.width} ${height}`);
  showSight(height);
}

let glide = 0;

function glideTo(x, y, width) {
  cancelAnimationFrame(glide);
  if (isCalm.matches || document.hidden) return look(x, y, width);
  const [from, begun] = [{ ...sight }, performance.now()];
  const step = (time) => {
    const part = Math.min(Math.max((time - begun) / 220, 0), 1);
    const eased = 1 - (1 - part) ** 3;
    const between = (a, b) => a + (b - a) * eased;
    look(between(from.x, x), between(from.y, y), between(from.width, width));
    if (part < 1) glide = requestAnimationFrame(step);
  };
  glide = requestAnimationFrame(step);
}

// The place of the line, or the last one before it if a death has left the player at none.
function placeInView() {
  let { at } = now;
  while (at > 0 && !placeAt(walk(), at)) at -= 1;
  return places.get(placeAt(walk(), at));
}

// The place of the line comes into the middle, unless it is well in sight.
function follow(isForced = false) {
  const place = placeInView();
  if (!place || sight.isWhole) return;
  const height = heightOf(sight.width);
  const { x, y } = place.middle;
  const isNear = (at, from, extent) => at > from + extent * 0.2 && at < from + extent * 0.8;
  if (!isForced && isNear(x, sight.x, sight.width) && isNear(y, sight.y, height)) return;
  glideTo(x - sight.width / 2, y - height / 2, sight.width);
}

function nearer(factor) {
  const place = placeInView()?.middle;
  const [height, width] = [heightOf(sight.width), sight.width / factor];
  const middle = { x: sight.x + sight.width / 2, y: sight.y + height / 2 };
  const at = sight.isWhole && place ? place : middle;
  look(at.x - width / 2, at.y - heightOf(width) / 2, width);
}

function lookAtWhole() {
  cancelAnimationFrame(glide);
  look(whole[0], whole[1], Infinity);
}

function lookReadably() {
  look(whole[0], whole[1], size().width / READABLE);
  const place = placeInView()?.middle;
  if (place) look(place.x - sight.width / 2, place.y - heightOf(sight.width) / 2, sight.width);
}

// ---- the small map, which shows what part is in sight

const overview = byId("overview");
const sightBox = draw("rect", { class: "sight" });
for (const it of places.values()) {
  const { x, y, width, height } = it.box;
  it.spot = draw("rect", { class: "spot", x, y, width, height });
  overview.append(it.spot);
}
overview.append(sightBox);
overview.setAttribute("viewBox", whole.join(" "));

function showSight(height) {
  overview.toggleAttribute("hidden", sight.isWhole);
  const box = { x: sight.x, y: sight.y, width: sight.width, height };
  for (const [name, value] of Object.entries(box)) sightBox.setAttribute(name, value);
}

function showMap() {
  showSeen();
  showThings();
  showTrails();
  for (const it of places.values()) {
    it.spot.classList.toggle("reached", !it.group.classList.contains("pale"));
    it.spot.classList.toggle("here", it.group.classList.contains("here")
      || it.group.classList.contains("there"));
    it.group.setAttribute("tabindex", "-1");
  }
  places.get(placeAt(walk(), now.at))?.group.setAttribute("tabindex", "0");
  follow();
}
