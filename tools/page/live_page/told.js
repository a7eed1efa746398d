// What a change led to: marks at the lines that were replayed, the old curve, and a sentence.

const told = { marked: null, before: null, timer: 0 };
const MARKED_MS = 2600;
const MOST_TOLD = 2; // of lines, deaths and objects each
const MOST_LETTERS = 90;

// ---- what was before a patch is put

function keepCurve(head) {
  const { score, said, lines, happened } = held;
  told.before = { score, said, lines, happened: { ...happened }, first: head.from,
    tail: lines.length - head.was,
    ended: word(held, "ended", last(held)), final: figure(held, "score", last(held)) };
  under.score = score;
  const shift = head.until - head.was;
  under.lineOf = (at) => {
    if (at <= head.from) return at;
    return at > head.was ? at + shift : Math.min(at, head.until);
  };
}

// How many lines at both ends are as they were, and how many more lines there are. No line before
// those that were replayed is another one, and none after them.
function endsAlike() {
  const [old, after] = [told.before.lines, held.lines];
  if (told.before.alike?.after === after) return told.before.alike;
  const least = Math.min(old.length, after.length);
  let { first, tail } = told.before;
  while (first < least && old[first] === after[first]) first += 1;
  while (tail < least - first && old.at(-1 - tail) === after.at(-1 - tail)) tail += 1;
  told.before.alike = { first, tail, shift: after.length - old.length, after };
  return told.before.alike;
}

// The old line that a line was; 0 if it is a new one.
function oldOf(at, { first, tail, shift }) {
  if (at <= first) return at;
  return at > last(held) - tail ? at - shift : 0;
}

// ---- parts of the sentence

const FIRST_SENTENCE = /^[^.!?]*[.!?]*/;

function shortly(text) {
  const first = FIRST_SENTENCE.exec(text.replaceAll("\n", " ").trim())[0];
  return first.length > MOST_LETTERS ? `${first.slice(0, MOST_LETTERS - 1)}\u2026` : first;
}

const grouped = (number) => String(number).replace(/\B(?=(\d{3})+$)/g, ",");
const quoted = (at) =>
  `at ${inLog(at)} ${held.lines[at - 1]}: \u201c${shortly(saidAt(held, at))}\u201d`;

function meeting(head) {
  const replayed = `${grouped(head.played)} of ${grouped(head.count)} lines replayed`;
  return `Meets ${head.met === null ? "nowhere" : `at place ${head.met}`}: ${replayed}.`;
}

// Lines that aren't new, and say something else than before.
function linesOtherwise(head, alike) {
  const found = [];
  for (let at = head.from + 1; at <= head.until && found.length < MOST_TOLD; at += 1) {
    const old = oldOf(at, alike);
    if (old && held.said[at] !== told.before.said[old] && saidAt(held, at)) found.push(at);
  }
  return found.map(quoted);
}

// The lines at which a player dies, by the columns of a walk.
function deathsOf({ words, rows }) {
  const died = new Set(words.flatMap((it, at) => (it.split(",").includes("died") ? [at] : [])));
  return died.size ? rows.flatMap((row, at) => (died.has(row) ? [at + 1] : [])) : [];
}

function deathsOtherwise(alike) {
  const [old, after] = [deathsOf(told.before.happened), deathsOf(held.happened)];
  const wasThere = new Set(old);
  const come = after.filter((at) => !wasThere.has(oldOf(at, alike)));
  const parts = come.slice(0, MOST_TOLD).map((at) => `dies ${quoted(at)}`);
  if (after.length < old.length) parts.push(after.length ? "dies less often" : "dies no more");
  return parts;
}

function endOtherwise() {
  const [old, after] = [told.before.ended, word(held, "ended", last(held))];
  if (old === after) return [];
  if (after === NONE) return [`no longer ends as ${old}`];
  return [`ends as ${after}${old === NONE ? "" : ` in place of ${old}`}`];
}

// The objects of which the last state says something else, in the words of the program.
function thingsOtherwise({ gone, come }) {
  const form = /^object (?:\d+ )?(\S+): (.*)$/;
  const facts = (lines) => new Map(lines.map((it) => form.exec(it)).filter(Boolean)
    .map((it) => [it[1], it[2]]));
  const [before, after] = [facts(gone), facts(come)];
  const parts = [...new Set([...after.keys(), ...before.keys()])].map((name) => {
    const [old, fact] = [before.get(name), after.get(name) ?? "as it began"];
    return `${name}: ${fact}${old ? `, in place of ${old}` : ""}`;
  });
  const more = parts.length - MOST_TOLD;
  return parts.slice(0, MOST_TOLD).concat(more > 0 ? [`${more} more objects`] : []);
}

// ---- the sentence

function otherwise(head) {
  const alike = endsAlike();
  const score = head.score === told.before.final ? []
    : [`score ${head.score} in place of ${told.before.final}`];
  const parts = [...score, ...linesOtherwise(head, alike), ...deathsOtherwise(alike),
    ...endOtherwise(), ...thingsOtherwise(head.facts)];
  if (!parts.length) return "Nothing else is otherwise.";
  const text = parts.join("; ");
  return `${text[0].toUpperCase()}${text.slice(1)}.`;
}

function showTold(head) {
  const facts = [...head.facts.gone.map((it) => ["gone", `\u2212 ${it}`]),
    ...head.facts.come.map((it) => ["come", `+ ${it}`])];
  const list = facts.map(([kind, it]) => make("li", { class: kind }, it));
  const parts = [make("strong", { id: "meeting" }, meeting(head)), " ",
    make("span", { id: "otherwise" }, otherwise(head))];
  if (facts.length) {
    const summary = make("summary", {}, `The last state: ${facts.length} facts`);
    const named = { id: "facts-otherwise", "aria-label": "The last state" };
    parts.push(" ", make("details", named, summary, make("ul", {}, ...list)));
  }
  byId("told").replaceChildren(...parts);
}

// ---- marks

const isMarked = (at) => Boolean(told.marked) && at > told.marked.from && at <= told.marked.until;

function markReplayed(head) {
  told.marked = head;
  clearTimeout(told.timer);
  told.timer = setTimeout(() => {
    told.marked = null;
    for (const it of list.querySelectorAll(".replayed")) it.classList.remove("replayed");
  }, MARKED_MS);
}
