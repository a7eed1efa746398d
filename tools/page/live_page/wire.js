// What crosses to the server and back: what this page asks, and what it gets of the log.

const wire = { number: -1, asked: Promise.resolve(), isAsking: false, goTo: null, waiting: null,
  isEnded: false };
const FIRST_LINES = 400; // that are shown before all others have come
const MOST_SENT = 4_000_000; // letters of what is asked: the server reads no more

// ---- reading

// Reads events, each a line of JSON with lines of a walk after it. `onPart` gets what has arrived
// of a long one, and `onWhole` gives the rest.
async function readEvents(response, onPart, onWhole) {
  const events = [];
  let [rest, event] = ["", null];
  const take = (lines) => {
    for (const line of lines) {
      if (!event) {
        event = { head: JSON.parse(line), raw: [], shown: 0 };
      } else {
        event.raw.push(line);
      }
      if (event.raw.length === event.head.lines) {
        events.push(event.head);
        onWhole(event.head, parsed(event.raw.slice(event.shown)), event.shown);
        event = null;
      }
    }
  };
  const reader = response.body.pipeThrough(new TextDecoderStream("latin1")).getReader();
  for (;;) {
    const { value, done } = await reader.read();
    if (done) return events;
    const lines = (rest + value).split("\n");
    rest = lines.pop();
    take(lines);
    if (event && !event.shown && onPart(event.head, event.raw)) event.shown = event.raw.length;
  }
}

const parsed = (lines) => JSON.parse(`[${lines.join(",")}]`);

// ---- asking

// What the server answers, as its events; a head of the kind `lost` if there is no server any more.
async function ask(method, name, said) {
  try {
    const body = said && JSON.stringify(said);
    if (body?.length > MOST_SENT) return [{ kind: "malformed", message: "That is too much." }];
    const headers = said ? { "Content-Type": "application/json" } : {};
    const response = await fetch(name, { method, headers, body, cache: "no-store" });
    return await readEvents(response, showPart, showEvent);
  } catch (wrong) {
    if (wrong.name === "AbortError") return [];
    return [{ kind: "lost" }];
  }
}

// Asks for a change, once all that was asked before is answered; gives the head of the answer. What
// is asked is found out then. The page looks at the line `at` afterwards, if there is one.
function askForChange(name, saidOf, at = null) {
  wire.asked = wire.asked.then(() => askAlone(name, saidOf(), at));
  return wire.asked;
}

async function askAlone(name, said, at) {
  if (wire.isEnded) return { kind: "lost" };
  Object.assign(wire, { isAsking: true, goTo: at });
  wire.waiting?.abort();
  try {
    return (await ask("POST", name, { ...said, number: wire.number })).at(-1) ?? { kind: "lost" };
  } finally {
    Object.assign(wire, { isAsking: false, goTo: null });
    listen();
  }
}

// Waits for what other pages do to the log, as long as the page is there.
async function listen() {
  if (wire.isAsking || wire.isEnded || wire.number < 0) return;
  const waiting = new AbortController();
  wire.waiting = waiting;
  try {
    const response = await fetch(`news?after=${wire.number}`, { signal: waiting.signal });
    await readEvents(response, showPart, showEvent);
  } catch (wrong) {
    if (wrong.name === "AbortError" || waiting.signal.aborted) return;
    endHere("The server has ended. What wasn't saved is in the file that it names.");
  }
  if (wire.waiting === waiting) listen();
}

// ---- events

const isPatch = (head) => head.from !== undefined;
const isKnown = (head) => head.number !== undefined && head.number <= wire.number;

// Shows a patch as soon as its first lines are there, in place of as many old ones. Until the rest
// comes, the old lines after them stay.
function showPart(head, raw) {
  if (!isPatch(head) || isKnown(head) || head.opening || raw.length < FIRST_LINES) return false;
  const shift = head.until - head.was;
  const isPart = raw.length >= Math.abs(shift) + FIRST_LINES
    && raw.length <= head.lines - head.others;
  if (!isPart) return false;
  keepCurve(head);
  putLines(head.from, raw.length - shift, parsed(raw));
  showPatch(head, head.from, head.from + raw.length, false);
  return true;
}

function showEvent(head, lines, shown) {
  if (isKnown(head)) return;
  if (head.kind === "whole") showWhole(head, lines);
  else if (head.kind === "reload") openAgain();
  else if (isPatch(head)) putPatch(head, lines, shown);
  if (head.number === undefined) return;
  wire.number = head.number;
  showState(head);
}

// Opens the page again, which then has all that the server holds: nothing has to be asked.
function openAgain() {
  file.isUnsaved = false;
  location.reload();
}

function showWhole(head, lines) {
  const [opening, ...rest] = lines;
  putOpening(opening);
  putLines(0, held.lines.length, rest);
  countAgain();
  changes.list = head.list;
  if (!goByAddress()) showAgain(Math.min(now.at, last(held)), begin);
  else showAgain(now.at, begin);
}

function putPatch(head, lines, shown) {
  if (!shown) keepCurve(head);
  const given = [...lines];
  if (head.opening) putOpening(given.shift());
  const others = given.splice(given.length - head.others, head.others);
  const from = head.from + shown;
  const removed = shown ? given.length : head.was - head.from;
  putLines(from, removed, given);
  addTurns(head.until, head.turns);
  for (const it of others) putLines(it.place, 1, [it]);
  countAgain();
  noteChange(head);
  showPatch(head, from, head.until, true);
}
