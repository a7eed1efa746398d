// Undo, redo, and the list of changes, each of which can be looked at and gone back to.

const changes = { list: [], done: 0 };

function noteChange(head) {
  if (head.kind === "change") changes.list = [...changes.list.slice(0, head.done - 1), head.last];
}

// Takes changes back, or makes them again, until as many are made as a call says.
async function goToChange(countOf) {
  const head = await askForChange("go", () => ({ count: Math.max(countOf(), 0) }));
  if (isWrong(head) && head.kind !== "nothing") sayWrong(wrongOf(head));
}

const undo = () => goToChange(() => changes.done - 1);
const redo = () => goToChange(() => changes.done + 1);

function showChanges() {
  const count = changes.list.length;
  byId("undo").disabled = changes.done === 0;
  byId("redo").disabled = changes.done === count;
  const made = changes.done === count ? "" : `${changes.done} of `;
  byId("changes-count").textContent = `${made}${count}`;
  if (byId("changes").open) showList();
}

function showList() {
  const rows = [rowOf(null, 0), ...changes.list.map((it, at) => rowOf(it, at + 1))];
  byId("change-list").replaceChildren(...rows.reverse());
}

// A row of the list: what the change is, what it did, its script, and a way to it.
function rowOf(change, count) {
  const isHere = count === changes.done;
  const title = change ? change.title : "As it was opened";
  const row = make("li", { class: count > changes.done ? "undone" : "", "data-count": count,
    ...(isHere ? { "aria-current": "step" } : {}) }, make("code", {}, title));
  if (change) {
    const script = make("pre", {});
    const look = make("details", { "aria-label": `Script of: ${title}` },
      make("summary", {}, "Script"), script);
    look.addEventListener("toggle", async () => {
      const answer = await fetch(`change?number=${change.number}`);
      script.textContent = answer.ok ? await answer.text() : "It is no longer there.";
    }, { once: true });
    row.append(make("small", {}, change.report), look);
  }
  if (!isHere) {
    const to = make("button", { type: "button", "aria-label": `Go to: ${title}` },
      count < changes.done ? "Go back to here" : "Go on to here");
    to.addEventListener("click", () => goToChange(() => count));
    row.append(to);
  }
  return row;
}
