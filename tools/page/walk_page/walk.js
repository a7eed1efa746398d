// What is in the page: walks, their lines and what each says. At 0 is the opening, at N what N
// lines lead to. The last of these lines has the place N - 1 in the log, as scripts count.

const data = JSON.parse(document.getElementById("data").textContent);
const walks = data.walks;
const NONE = "-";
const now = { walk: 0, at: 0 };
const SVG = "http://www.w3.org/2000/svg";
const isCalm = matchMedia("(prefers-reduced-motion: reduce)");

const byId = (id) => document.getElementById(id);

// An element with attributes and what it holds: elements, and texts, which are never markup.
function fill(made, attributes, held) {
  for (const [name, value] of Object.entries(attributes)) made.setAttribute(name, value);
  made.append(...held);
  return made;
}

const make = (tag, attributes = {}, ...held) =>
  fill(document.createElement(tag), attributes, held);
const draw = (tag, attributes = {}, ...held) =>
  fill(document.createElementNS(SVG, tag), attributes, held);

// Puts elements into one in place of those that it has. One that is as it was stays, so that the
// browser neither lays it out nor paints it again.
function renew(held, made) {
  const old = [...held.children];
  made.forEach((it, at) => {
    if (!old[at]) held.append(it);
    else if (!it.isEqualNode(old[at])) old[at].replaceWith(it);
  });
  for (const it of old.slice(made.length)) it.remove();
}

const walk = () => walks[now.walk];
const other = () => walks[1 - now.walk];
const last = (it) => it.lines.length;
const inLog = (at) => at - 1; // the place in the log
const colour = (it) => (it === walks[0] ? "mine" : "theirs");

const figure = (it, column, at) => (at > 0 ? it[column][at - 1] : data.opening[column]);
const placeAt = (it, at) => figure(it, "to", at);
const word = (it, column, at) => (at > 0 ? it[column].words[it[column].rows[at - 1]] : NONE);
const linesSaid = (it, at) => data.texts[it.said[at]];
const saidAt = (it, at) => linesSaid(it, at).map((line) => data.lines[line]).join("\n");
const titleOf = (place) => (place ? data.places[place] ?? "" : "");

function eventsAt(it, at) {
  const happened = word(it, "happened", at);
  return happened === NONE ? [] : happened.split(",");
}

// What a line gained or, below zero, lost.
const gainAt = (it, at) => (at > 0 ? figure(it, "score", at) - figure(it, "score", at - 1) : 0);
const signed = (number) => (number > 0 ? `+${number}` : `\u2212${Math.abs(number)}`);
const isComment = (line) => line.startsWith("#") || !/[^ \t]/.test(line);

// What each line leaves in the hands, and which objects it moved: each with its number and name.
function unpackObjects(it) {
  const named = (object) => ({ object, name: data.names[object] });
  it.carriedThings = it.hands.map((list) => data.lists[list].map(named));
  it.carried = it.carriedThings.map((things) => things.length);
  it.moved = it.lines.map(() => []);
  for (const [row, moves] of it.moves) it.moved[row] = moves.map(unpackMove);
}

const unpackMove = ([object, first, second]) =>
  ({ object, name: data.names[object], first, second });

if (data.opening.moves) data.opening.moved = data.opening.moves.map(unpackMove);
for (const it of walks) if (it.hands) unpackObjects(it);

// The lines at which a walk reaches each place.
function visitsOf(it) {
  const visits = new Map();
  const note = (place, at) => visits.set(place, [...(visits.get(place) ?? []), at]);
  note(placeAt(it, 0), 0);
  for (let at = 1; at <= last(it); at += 1) {
    if (it.from[at - 1] !== it.to[at - 1]) visits.has(it.to[at - 1])
      ? visits.get(it.to[at - 1]).push(at) : note(it.to[at - 1], at);
  }
  return visits;
}

for (const it of walks) it.visits = visitsOf(it);

// How many lines of a walk are before the two part, or null if they don't; and before they come
// together again.
const sharedOf = (it) => data.parting && data.parting[walks.indexOf(it)];
const metOf = (it) => (data.meeting ? data.meeting[walks.indexOf(it)] : Infinity);
const isShared = (at, it = walk()) => !data.parting || at <= sharedOf(it) || at > metOf(it);

// The column of each line: two walks are laid beside each other, so that a line that both have is
// in one column, and any other in a column of its own.
function layBeside() {
  const [ours, theirs] = walks;
  const ends = [last(ours), last(theirs)];
  for (const it of walks) it.columns = [0];
  let column = 0;
  const alone = (it, until) => {
    while (it.columns.length <= until) it.columns.push((column += 1));
  };
  for (const [first, second, count] of [...data.beside, [...ends, 0]]) {
    alone(ours, first);
    alone(theirs, second);
    for (let more = 0; more < count; more += 1) {
      column += 1;
      ours.columns.push(column);
      theirs.columns.push(column);
    }
  }
}

if (data.beside) layBeside();

const columnOf = (it, at) => (it.columns ? it.columns[at] : at);

// The last line of a walk that isn't after a column.
function atColumn(it, column) {
  if (!it.columns) return Math.min(Math.max(column, 0), last(it));
  let [low, high] = [0, last(it)];
  while (low < high) {
    const middle = (low + high + 1) >> 1;
    if (it.columns[middle] <= column) low = middle;
    else high = middle - 1;
  }
  return low;
}

// The line of the other walk that is beside one of this walk, and whether it is the same line.
const beside = (at) => atColumn(other(), columnOf(walk(), at));
const isAlone = (at) => Boolean(walks[1]) && at > 0
  && columnOf(other(), beside(at)) !== columnOf(walk(), at);
