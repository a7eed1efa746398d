// The walk of the held log: what the server sends of it is put in, line by line.

const held = walks[0];
const NUMBERED = ["from", "to", "turns", "score", "lamp", "draws", "stream"];
const NAMED_COLUMNS = ["question", "ended", "happened"];
const HIGH = /[\x80-\xff]/;
const utf8 = new TextDecoder("utf-8", { fatal: true });
const known = { lines: new Map(), texts: new Map([["", 0]]) };

// ---- texts, each of which is kept once

// A line of bytes as people read it: as UTF-8, or otherwise as Latin-1.
function readable(line) {
  if (!HIGH.test(line)) return line;
  try {
    return utf8.decode(Uint8Array.from(line, (it) => it.charCodeAt(0)));
  } catch {
    return line;
  }
}

function numberOfLine(line) {
  if (!known.lines.has(line)) {
    known.lines.set(line, data.lines.length);
    data.lines.push(readable(line));
  }
  return known.lines.get(line);
}

function numberOfText(said) {
  if (!known.texts.has(said)) {
    known.texts.set(said, data.texts.length);
    data.texts.push(said.replace(/\n$/, "").split("\n").map(numberOfLine));
  }
  return known.texts.get(said);
}

function numberOfWords(column, words) {
  const at = column.words.indexOf(words);
  return at < 0 ? column.words.push(words) - 1 : at;
}

// ---- lines of the walk

// A column with some of its cells taken out, and others put in their place.
function spliced(column, at, removed, added) {
  if (removed !== added.length) {
    return column.slice(0, at).concat(added, column.slice(at + removed));
  }
  const made = column.slice(); // one copy, as most changes leave as many lines as there were
  added.forEach((it, row) => { made[at + row] = it; });
  return made;
}

function putLines(at, removed, lines) {
  const splice = (column, cell) => spliced(column, at, removed, lines.map(cell));
  for (const name of NUMBERED) held[name] = splice(held[name], (it) => it[name]);
  held.lines = splice(held.lines, (it) => it.line);
  held.said = spliced(held.said, at + 1, removed, lines.map((it) => numberOfText(it.said)));
  held.said[0] = openingSaid();
  held.carried = splice(held.carried, (it) => it.carried.length);
  held.carriedThings = splice(held.carriedThings, (it) => it.carried);
  held.moved = splice(held.moved, (it) => it.moved);
  for (const name of NAMED_COLUMNS) {
    const cell = (it) => (name === "happened" ? it.happened.join(",") : it[name]) || NONE;
    held[name].rows = splice(held[name].rows, (it) => numberOfWords(held[name], cell(it)));
  }
}

const openingSaid = () => data.opening.said ?? 0;

function putOpening(line) {
  const { to, score, lamp, moved } = line;
  Object.assign(data.opening, { to, score, lamp, moved, said: numberOfText(line.said) });
  held.said[0] = openingSaid();
}

function addTurns(at, turns) {
  if (turns) held.turns = held.turns.map((it, row) => (row < at ? it : it + turns));
}

// What follows from all lines: when places were visited, and ways first taken.
function countAgain() {
  held.visits = visitsOf(held);
  addForced((held.first = firstsOf(held)));
  const turns = last(held) ? held.turns.at(-1) : 0;
  held.maximum = data.live.most;
  held.sum = `score ${figure(held, "score", last(held))} of ${held.maximum}, turns ${turns}`;
}

// ---- what is where at a line

// Each object that is somewhere once `at` lines are played, with its places: 0 is nowhere, and -1
// in the hands.
function thingsAt(at) {
  const lastMove = (moves) => moves.findLast((it) => it.at <= at)?.thing;
  const things = [...movesOf(held)].map(([object, moves]) => [object, lastMove(moves)]);
  return new Map(things.filter(([, thing]) => thing));
}
