// Several lines that are chosen together: copied, cut, pasted over and taken out as one change.

// Where the chosen lines begin; they go up to the one that is looked at. None are chosen if it is
// null.
const chosen = { anchor: null };

const chosenRange = () => {
  const ends = [chosen.anchor ?? now.at, now.at];
  return { from: Math.max(Math.min(...ends), 1), until: Math.max(...ends) };
};
const isChosen = (at) => {
  const { from, until } = chosenRange();
  return chosen.anchor !== null && at >= from && at <= until;
};

function showChosen() {
  for (const it of list.querySelectorAll("[data-at]")) {
    it.classList.toggle("chosen", isChosen(Number(it.dataset.at)));
  }
  const { from, until } = chosenRange();
  const count = until - from + 1;
  byId("delete").disabled = count < 1;
  byId("delete").textContent = count > 1 ? `Delete ${count} lines` : "Delete";
  list.setAttribute("aria-multiselectable", chosen.anchor !== null);
}

function choose(at) {
  chosen.anchor ??= now.at;
  go(at);
}

function chooseNone() {
  chosen.anchor = null;
  showChosen();
}

const chosenLines = () => {
  const { from, until } = chosenRange();
  return held.lines.slice(from - 1, until);
};

// ---- edits, each with the line that this page has at its place

const insertion = (place, text, isBare = false) =>
  ({ kind: "insert", place, text, was: isBare ? null : held.lines[place] ?? null });
const replacement = (place, text) => ({ kind: "replace", place, text, was: held.lines[place] });
const deletion = (place, was = held.lines[place]) => ({ kind: "delete", place, was });
const insertions = (place, lines) =>
  lines.map((it, row) => insertion(place + row, it, row > 0));

// ---- changes of several lines

async function takeOutChosen() {
  const { from, until } = chosenRange();
  if (until < 1) return;
  const edits = chosenLines().map((it) => deletion(inLog(from), it));
  chooseNone();
  const wrong = await sendChange(edits, { at: Math.min(from, last(held) - edits.length) });
  if (wrong) sayWrong(wrong);
}

// Puts lines in the place of those that are chosen, or below the one that is looked at.
async function pasteLines(lines) {
  const { from } = chosenRange();
  const isOver = chosen.anchor !== null;
  const gone = isOver ? chosenLines().map((it) => deletion(inLog(from), it)) : [];
  const place = isOver ? inLog(from) : now.at;
  const come = lines.map((it, row) => insertion(place + row, it, isOver || row > 0));
  chooseNone();
  const wrong = await sendChange([...gone, ...come], { at: place + lines.length });
  if (wrong) sayWrong(wrong);
}

async function insertBelow(text) {
  const wrong = await sendChange([insertion(now.at, text)], { at: now.at + 1 });
  if (wrong) sayWrong(wrong);
}

// ---- keys and the clipboard, where no field has them

const isInField = () => document.activeElement?.matches("input, textarea, select");

function onListKey(event) {
  if (isInField() || event.target.closest?.("button, summary, a, [data-place]")) return;
  if (onCommonKey(event, false)) return event.stopPropagation();
  if (event.ctrlKey || event.metaKey || event.altKey) {
    if (event.key.toLowerCase() === "a" && !event.altKey) {
      event.preventDefault();
      chosen.anchor = 1;
      go(last(held));
    }
    return;
  }
  const move = { ArrowUp: -1, ArrowDown: 1 }[event.key];
  if (event.shiftKey && move) {
    choose(now.at + move);
  } else if (event.key === "Enter" || event.key === "F2") {
    if (now.at) openEditor(now.at);
    else openEditor(0, { isNew: true });
  } else if (event.key === "Delete" && !event.repeat) {
    startClock(event);
    takeOutChosen();
  } else {
    if (move || event.key === "Escape") chooseNone();
    return;
  }
  event.preventDefault();
  event.stopPropagation();
}

document.addEventListener("keydown", onListKey, { capture: true });
document.addEventListener("copy", (event) => {
  if (isInField() || String(getSelection())) return;
  event.clipboardData.setData("text/plain", `${chosenLines().join("\n")}\n`);
  event.preventDefault();
});
document.addEventListener("cut", (event) => {
  if (isInField()) return;
  event.clipboardData.setData("text/plain", `${chosenLines().join("\n")}\n`);
  event.preventDefault();
  takeOutChosen();
});
document.addEventListener("paste", (event) => {
  if (isInField()) return;
  event.preventDefault();
  const text = event.clipboardData.getData("text/plain").replace(/\r\n?/g, "\n");
  if (text) pasteLines(text.replace(/\n$/, "").split("\n"));
});
list.addEventListener("click", (event) => {
  const row = event.target.closest("[data-at]");
  if (!row || typedBox.contains(event.target)) return;
  const at = Number(row.dataset.at);
  if (!event.shiftKey) {
    chooseNone();
    if (event.target.closest(".command code") && at) openEditor(at);
  }
});
// Before the line is looked at, a click with the shift key notes where the chosen lines begin.
list.addEventListener("pointerdown", (event) => {
  if (event.shiftKey && event.target.closest("[data-at]")) {
    event.preventDefault();
    getSelection().removeAllRanges();
    chosen.anchor ??= now.at;
  }
});
