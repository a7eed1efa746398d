// The line that is typed over: one field, at the line that is edited or below it.

// `at` is the line, `isNew` whether it isn't in the log yet and comes after it, `was` its text in
// the log. What was refused stays as it was typed, with what was said about it, until it is right.
// While a line is sent, what is typed goes on: `lines` are those that were ended meanwhile, and the
// text from `begun` on is the next one.
const editor = { isOpen: false, at: 0, isNew: false, was: "", refused: "", completed: null,
  isSending: false, isMoving: false, lines: [], begun: 0 };

const typedField = make("input", { id: "typed", type: "text", autocomplete: "off",
  spellcheck: "false", autocapitalize: "off", role: "combobox", "aria-autocomplete": "list",
  "aria-expanded": "false", "aria-controls": "completions", "aria-describedby": "typed-wrong" });
const shadow = make("div", { class: "shadow", "aria-hidden": "true" });
const completions = make("ul", { id: "completions", role: "listbox", "aria-label": "Words" });
const typedWrong = make("div", { id: "typed-wrong", role: "alert" });
const typedBox = make("div", { class: "typed" },
  make("div", { class: "field" }, shadow, typedField), completions, typedWrong);

// ---- opening and closing

function openEditor(at, { isNew = false, text = null } = {}) {
  if (editor.refused && !closeEditor()) return;
  const was = isNew ? "" : held.lines[at - 1];
  if (was === undefined) return;
  Object.assign(editor, { isOpen: true, at, isNew, was, refused: "", completed: null });
  typedField.value = text ?? was;
  typedField.setAttribute("aria-label", isNew ? `A new line at ${at}` : `The line at ${inLog(at)}`);
  if (now.at !== at) go(at, false);
  attachEditor();
  showTyped();
  typedField.focus({ preventScroll: true });
  typedField.setSelectionRange(typedField.value.length, typedField.value.length);
}

// Takes the field away; not if it has what was refused, unless it is given up. The lines have the
// focus then, if nothing is opened after it.
function closeEditor({ isGivenUp = false, isLast = true } = {}) {
  if (editor.refused && !isGivenUp) {
    typedField.focus({ preventScroll: true });
    return false;
  }
  const hadFocus = typedBox.contains(document.activeElement);
  Object.assign(editor, { isOpen: false, refused: "", completed: null });
  detachEditor();
  if (hadFocus && isLast) list.focus({ preventScroll: true });
  return true;
}

function detachEditor() {
  const row = typedBox.closest(".line");
  row?.setAttribute("role", "option");
  row?.removeAttribute("aria-label");
  row?.classList.remove("edited", "followed");
  typedBox.remove();
}

// Puts the field into its line, as often as the line is drawn.
function attachEditor() {
  if (!editor.isOpen) return;
  const row = byId(`line-${editor.at}`);
  if (!row || row.contains(typedBox)) return;
  const [hadFocus, caret] = [document.activeElement === typedField, typedField.selectionStart];
  const { isMoving } = editor;
  editor.isMoving = true; // a field that is moved loses the focus, and isn't left
  detachEditor();
  const body = row.lastElementChild;
  row.classList.add(editor.isNew ? "followed" : "edited");
  row.setAttribute("role", "group");
  row.setAttribute("aria-label", typedField.getAttribute("aria-label"));
  if (editor.isNew) body.append(typedBox);
  else body.firstElementChild.prepend(typedBox);
  if (hadFocus) {
    typedField.focus({ preventScroll: true });
    typedField.setSelectionRange(caret, caret);
  }
  editor.isMoving = isMoving;
}

// ---- what is typed

function showTyped() {
  const line = typedField.value;
  shadow.replaceChildren(...runsOf(line).map(({ text, isUnknown }) =>
    make("span", isUnknown ? { class: "unknown" } : {}, text)));
  requestAnimationFrame(moveShadow); // by then all is laid out
  const unknown = unknownIn(line);
  const doubt = unknown.length ? `The cave doesn't know ${unknown.join(" and ")}.` : "";
  typedWrong.textContent = editor.refused || doubt;
  typedBox.classList.toggle("refused", Boolean(editor.refused));
  typedField.setAttribute("aria-invalid", Boolean(editor.refused));
  showCompletions();
}

function moveShadow() {
  shadow.style.transform = `translateX(${-typedField.scrollLeft}px)`;
}

function showCompletions() {
  const { words } = editor.completed ?? completionsOf(typedField.value, typedField.selectionStart);
  const chosenAt = editor.completed?.at ?? -1;
  const rows = words.map((it, at) => make("li", { role: "option", id: `completion-${at}`,
    "aria-selected": at === chosenAt, "data-word": it }, it));
  completions.replaceChildren(...rows);
  completions.hidden = !words.length;
  typedField.setAttribute("aria-expanded", Boolean(words.length));
  if (chosenAt < 0) typedField.removeAttribute("aria-activedescendant");
  else typedField.setAttribute("aria-activedescendant", `completion-${chosenAt}`);
}

// Puts the next word in that completes the one before the caret; returns whether there is one.
function complete(step) {
  editor.completed ??= { ...completionsOf(typedField.value, typedField.selectionStart), at: -1,
    end: typedField.selectionStart };
  const { words, at } = editor.completed;
  if (!words.length) {
    editor.completed = null;
    return false;
  }
  putWord(at < 0 && step < 0 ? words.length - 1 : (at + step + words.length) % words.length);
  return true;
}

function putWord(at) {
  const { begin, end, words } = editor.completed;
  const [line, word] = [typedField.value, words[at]];
  typedField.value = line.slice(0, begin) + word + line.slice(end);
  Object.assign(editor.completed, { at, end: begin + word.length });
  typedField.setSelectionRange(begin + word.length, begin + word.length);
  showTyped();
}

// ---- the change that is typed

// The line that the field is for, once it is in the log.
const lineTyped = () => editor.at + (editor.isNew ? 1 : 0);

// What the field has to say of the log: one edit, or none.
function typedEdits() {
  const text = typedField.value;
  if (editor.isNew) return text ? [insertion(editor.at, text)] : [];
  return text === editor.was ? [] : [replacement(inLog(editor.at), text)];
}

// Plays what was typed, and closes the field; then it does what comes after, if it wasn't refused.
// The line `next` is looked at by then.
async function commit(then = () => {}, { extra = [], next = lineTyped() } = {}) {
  const edits = [...typedEdits(), ...extra];
  if (!editor.isOpen || editor.isSending) return;
  if (!edits.length) {
    closeEditor({ isGivenUp: true });
    return then();
  }
  Object.assign(editor, { lines: [], begun: typedField.value.length });
  if (await isRefused(edits, next)) return;
  const { lines } = editor;
  const text = typedField.value.slice(editor.begun);
  const hadFocus = typedBox.contains(document.activeElement);
  closeEditor({ isGivenUp: true, isLast: false });
  then(text || null);
  if (hadFocus && !editor.isOpen) list.focus({ preventScroll: true });
  if (lines.length && editor.isOpen) sendMore(lines);
}

// Plays what was typed as the field is left for something else. What is refused is back in it.
async function leave() {
  const { at, isNew } = editor;
  const [text, edits] = [typedField.value, typedEdits()];
  closeEditor({ isGivenUp: true });
  const wrong = edits.length ? await sendChange(edits, { at: 0 }) : "";
  if (!wrong) return;
  openEditor(at, { isNew, text });
  editor.refused = wrong;
  showTyped();
}

// Sends the lines that were typed while another one was sent, as one change; then those that were
// ended while these were sent.
async function sendMore(lines) {
  const { at } = editor;
  Object.assign(editor, { isSending: editor.isNew, lines: [], begun: 0 });
  const wrong = await sendChange(insertions(at, lines), { at: at + lines.length });
  const more = editor.lines;
  const text = typedField.value.slice(editor.begun);
  Object.assign(editor, { isSending: false, refused: wrong });
  if (!wrong) editor.at += lines.length;
  typedField.value = wrong ? [...lines, ...more, text].join(" ") : text;
  attachEditor();
  showTyped();
  if (more.length && editor.isOpen && !wrong) sendMore(more);
}

// Sends what was typed; if it is refused, the field says so.
async function isRefused(edits, at) {
  editor.isSending = true;
  const wrong = await sendChange(edits, { at });
  Object.assign(editor, { isSending: false, refused: wrong });
  if (wrong) showTyped();
  return Boolean(wrong);
}

// ---- keys of the field

const after = () => editor.at + (editor.isNew && typedField.value ? 1 : 0);

const EDITOR_KEYS = {
  Enter: () => {
    if (editor.isSending) {
      editor.lines.push(typedField.value.slice(editor.begun));
      editor.begun = typedField.value.length;
      return;
    }
    const at = lineTyped();
    const isBlank = editor.isNew && !typedField.value;
    const extra = isBlank ? [insertion(editor.at, "")] : [];
    commit((text) => openEditor(at, { isNew: true, text }), { extra });
  },
  ArrowUp: () => {
    const at = editor.isNew ? editor.at : editor.at - 1;
    commit(() => (at > 0 ? openEditor(at) : go(0, false)), { next: at });
  },
  ArrowDown: () => {
    const at = after() + 1;
    commit(() => (at <= last(held) ? openEditor(at) : go(last(held), false)), { next: at });
  },
  Escape: () => closeEditor({ isGivenUp: true }),
};

function takeOutEmptyLine() {
  const { at, isNew } = editor;
  const above = isNew ? at : at - 1;
  const open = () => (above > 0 ? openEditor(above) : go(0));
  if (isNew) {
    closeEditor({ isGivenUp: true });
    return open();
  }
  const edits = [deletion(inLog(at))];
  closeEditor({ isGivenUp: true });
  return sendChange(edits, { at: above }).then((wrong) => (wrong ? say(wrong) : open()));
}

function onTypedKey(event) {
  event.stopPropagation();
  if (onCommonKey(event, typedField.value !== editor.was)) return;
  if (event.ctrlKey || event.metaKey || event.altKey) return;
  if (event.key === "Tab") {
    if (complete(event.shiftKey ? -1 : 1)) event.preventDefault();
    return;
  }
  if (event.key === "Backspace" && !typedField.value) {
    event.preventDefault();
    startClock(event);
    if (!event.repeat) takeOutEmptyLine(); // a key that is held empties a line, and stops there
    return;
  }
  const move = EDITOR_KEYS[event.key];
  if (!move) return;
  event.preventDefault();
  startClock(event);
  move();
}

function onTypedPaste(event) {
  const text = event.clipboardData.getData("text/plain").replace(/\r\n?/g, "\n");
  if (!text.includes("\n")) return;
  event.preventDefault();
  const { value, selectionStart, selectionEnd } = typedField;
  const lines = (value.slice(0, selectionStart) + text.replace(/\n$/, "")
    + value.slice(selectionEnd)).split("\n");
  typedField.value = lines[0];
  const place = lineTyped();
  const more = lines.slice(1).map((it, row) => insertion(place + row, it, row > 0 || editor.isNew));
  const at = place + more.length;
  const first = editor.isNew && !lines[0] ? [insertion(editor.at, "")] : [];
  startClock(event);
  isRefused([...first, ...typedEdits(), ...more], at)
    .then((isSo) => isSo || closeEditor({ isGivenUp: true }));
}

typedField.addEventListener("keydown", onTypedKey);
typedField.addEventListener("paste", onTypedPaste);
typedField.addEventListener("scroll", showTyped);
typedField.addEventListener("input", () => {
  editor.completed = null;
  showTyped();
});
typedField.addEventListener("blur", () => {
  // Not if the whole window is left, if the field is moved, or if what it has was refused.
  const isLeft = typedBox.isConnected && !editor.isMoving && document.hasFocus();
  if (editor.isOpen && !editor.isSending && !editor.refused && isLeft) leave();
});
completions.addEventListener("pointerdown", (event) => {
  event.preventDefault();
  const row = event.target.closest("[data-word]");
  if (!row) return;
  editor.completed ??= { ...completionsOf(typedField.value, typedField.selectionStart), at: -1,
    end: typedField.selectionStart };
  putWord(editor.completed.words.indexOf(row.dataset.word));
});
