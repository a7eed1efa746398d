// The page of a held log: what is added to the page of a walk, and how it begins.

const clock = { begun: 0 };
const REHEARSALS = 6;

// From when on the time is counted until a change is shown.
function startClock(event) {
  clock.begun = event.timeStamp;
}

function stopClock({ milliseconds }) {
  if (!clock.begun) return;
  const start = clock.begun;
  clock.begun = 0;
  requestAnimationFrame(() => setTimeout(() => {
    performance.measure("shown", { start, end: performance.now(), detail: milliseconds });
  }));
}

// ---- changes

// Sends a change; gives what is wrong with it, or nothing if it was made. The page then looks at
// the line `at`, or stays where it is if that is 0.
async function sendChange(edits, { at }) {
  const head = await askForChange("change", () => ({ edits }), at);
  return isWrong(head) ? wrongOf(head) : "";
}

// The line that is looked at after a patch: the one that was asked for; after undo and redo the
// first that is another one; otherwise the one that was looked at.
function landing() {
  if (wire.goTo > 0) return wire.goTo;
  const { first, shift } = endsAlike();
  if (wire.isAsking && wire.goTo === null) return first + 1;
  return now.at > first ? now.at + shift : now.at;
}

// Shows what is otherwise by a patch: the lines after one and up to another, and once all lines are
// there, what follows from them.
function showPatch(head, after, until, isWhole) {
  markReplayed(head);
  byId("notice").hidden = true;
  const at = Math.max(Math.min(landing(), last(held)), 0);
  const { first, shift } = endsAlike();
  if (!wire.isAsking && editor.at > first) editor.at = Math.max(editor.at + shift, 0);
  const isMoved = head.until !== head.was || Boolean(head.turns);
  showAgain(at, () => {
    drawAgain(head.opening ? -1 : after, until, isMoved);
    if (isWhole) drawWhole();
  });
  decorate(); // the lines that are drawn as they were have their marks too
  if (isWhole) showTold(head);
  stopClock(head);
}

function drawWhole() {
  showSum();
  findAll();
  drawChart();
}

// Draws the lines again that are after one, and up to another; and where later lines have another
// place or turn, those of them that are drawn.
function drawAgain(after, until, isMoved) {
  fitBlocks();
  const [first, final] = [after + 1, until].map((at) => Math.floor(at / BLOCK));
  blocks.slice(first).forEach((block, row) => {
    if (first + row <= final || (isMoved && block.isFull)) redrawBlock(block);
  });
  const size = last(held) + 1;
  for (const it of list.querySelectorAll("[data-at]")) it.setAttribute("aria-setsize", size);
}

// Shows the walk as it is now, with the line that is looked at where it was on the screen.
function showAgain(at, drawLines) {
  const anchorAt = Math.min(now.at, at);
  const row = byId(`line-${anchorAt}`);
  const before = row ? topOf(row) : null;
  const caret = document.activeElement === typedField ? typedField.selectionStart : -1;
  editor.isMoving = true;
  now.at = at;
  drawLines();
  go(at, false);
  const after = byId(`line-${anchorAt}`);
  if (before !== null && after) {
    list.scrollTop += topOf(after) - before;
    keepInSight(byId(`line-${at}`));
    showBlocks();
  }
  attachEditor();
  if (caret >= 0 && editor.isOpen) {
    typedField.focus({ preventScroll: true });
    typedField.setSelectionRange(caret, caret);
  }
  editor.isMoving = false;
}

// Does what a change does a few times before the first of them, without one, so that it is quick
// then: the browser has prepared by then all that it runs, and laid out all that it draws.
function rehearse(times = REHEARSALS) {
  if (times > 1) requestIdleCallback(() => rehearse(times - 1));
  else performance.mark("rehearsed");
  if (told.before || wire.isAsking || editor.isOpen || !last(held)) return;
  const at = Math.max(now.at, 1);
  keepCurve({ from: at - 1, until: at, was: at });
  putLines(at, 0, []);
  countAgain();
  const top = list.scrollTop;
  showAgain(now.at, () => {
    drawAgain(at - 1, at, false);
    drawWhole();
  });
  list.scrollTop = top;
  otherwise({ from: at - 1, until: at, score: told.before.final, facts: { gone: [], come: [] } });
  told.before = null;
  under.score = [];
  drawChart();
}

// What each event says of the log as a whole.
function showState(head) {
  file.isUnsaved = head.unsaved;
  changes.done = head.done;
  const seed = byId("seed");
  seed.dataset.opened ??= head.seed;
  if (document.activeElement !== seed) seed.value = head.seed;
  seed.dataset.held = head.seed;
  byId("save").classList.toggle("unsaved", head.unsaved);
  byId("unsaved").textContent = head.unsaved ? "not saved" : "saved";
  document.title = `${head.unsaved ? "\u2022 " : ""}${held.name}`;
  showChanges();
  if (head.kind === "ended") {
    endHere(head.unsaved ? "The server has ended. It says where the changes are that weren't saved."
      : "The server has ended.");
  }
}

// ---- keys that hold everywhere

function onCommonKey(event, isTyping) {
  if (!(event.ctrlKey || event.metaKey) || event.altKey) return false;
  const key = event.key.toLowerCase();
  if (key === "s") {
    if (editor.isOpen) commit(() => save());
    else save();
  } else if (key === "z" && !isTyping) {
    startClock(event);
    moveByUndo(event.shiftKey ? redo : undo);
  } else if (key === "y" && !isTyping) {
    startClock(event);
    moveByUndo(redo);
  } else {
    return false;
  }
  event.preventDefault();
  return true;
}

function moveByUndo(move) {
  if (!editor.isOpen || closeEditor()) move();
}

// ---- what is on the page

const button = (id, text, label) => make("button", { type: "button", id,
  ...(label ? { "aria-label": label } : {}) }, text);

function liveTools() {
  const seed = make("input", { id: "seed", type: "text", inputmode: "numeric", size: 6,
    autocomplete: "off" });
  const list = make("details", { id: "changes", "aria-label": "Changes" },
    make("summary", {}, "Changes ", make("span", { id: "changes-count" }, "0")),
    make("ol", { id: "change-list" }));
  const files = [["log", "The log"], ["script", "The script of all changes"],
    ["undo", "The script that takes them back"]];
  const away = make("details", { id: "away", "aria-label": "Take away" },
    make("summary", {}, "Take away"), make("ul", {}, ...files.map(([name, text]) =>
      make("li", {}, make("a", { href: name, download: "" }, text)))));
  return make("div", { id: "live-tools", role: "group", "aria-label": "Edit" },
    make("label", { for: "seed" }, "Seed"), seed, button("new-line", "New line"),
    button("delete", "Delete"), button("undo", "Undo"), button("redo", "Redo"), list,
    button("save", "Save"), make("output", { id: "unsaved" }), away, button("end", "End"));
}

const EDIT_KEYS = [["Enter", "types over the line; then makes a line below"],
  ["Backspace", "in an empty line takes it out; Delete takes out lines that are chosen"],
  ["Shift \u2193 \u2191", "chooses lines, to be copied, cut, pasted over or taken out"],
  ["Tab", "completes a word, or puts the next one in"],
  ["Esc", "gives up what was typed"],
  ["Ctrl Z Y", "undo and redo"], ["Ctrl S", "saves"]];

function buildPage() {
  document.querySelector("header").append(liveTools());
  document.querySelector("header").after(make("p", { id: "notice", role: "alert", hidden: "" }),
    make("div", { id: "told", role: "status" },
      "Type over a line. What becomes of the rest is said here."));
  document.querySelector("#keys dl").prepend(...EDIT_KEYS.flatMap(([key, what]) =>
    [make("dt", {}, make("kbd", {}, key)), make("dd", {}, what)]));
  const on = (id, kind, call) => byId(id).addEventListener(kind, call);
  on("undo", "click", (event) => { startClock(event); moveByUndo(undo); });
  on("redo", "click", (event) => { startClock(event); moveByUndo(redo); });
  on("save", "click", () => (editor.isOpen ? commit(() => save()) : save()));
  on("end", "click", endServer);
  on("new-line", "click", () => openEditor(now.at, { isNew: true }));
  on("delete", "click", (event) => { startClock(event); takeOutChosen(); });
  on("changes", "toggle", showChanges);
  on("seed", "keydown", onSeedKey);
  on("seed", "change", changeSeed);
}

// ---- the seed

function onSeedKey(event) {
  event.stopPropagation();
  if (onCommonKey(event, true)) return;
  if (event.key === "Escape") event.target.value = event.target.dataset.held;
}

async function changeSeed() {
  const seed = byId("seed");
  seed.removeAttribute("aria-invalid");
  if (seed.value.trim() === seed.dataset.held) return;
  const isNumber = /^\d{1,10}$/.test(seed.value.trim());
  const edits = [{ kind: "seed", place: Number(seed.value.trim()) }];
  const wrong = isNumber ? await sendChange(edits, { at: now.at })
    : "A seed is a number of 1 to 10 digits.";
  seed.setAttribute("aria-invalid", Boolean(wrong));
  if (wrong) sayWrong(wrong);
}

// ---- lines as they are drawn

function decorate() {
  for (const it of list.querySelectorAll("[data-at]")) {
    it.classList.toggle("replayed", isMarked(Number(it.dataset.at)));
  }
  showChosen();
  attachEditor();
}

buildPage();
onShown.push(showChosen, showNear);
new MutationObserver((changed) => {
  if (changed.some((it) => it.target.matches?.(".block"))) decorate();
}).observe(list, { childList: true, subtree: true });
ask("GET", "walk").then(() => {
  listen();
  requestIdleCallback(() => rehearse());
});
