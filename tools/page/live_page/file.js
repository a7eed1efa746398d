// The file of the log: saving it, what changed there meanwhile, and leaving the page.

const file = { isUnsaved: false };

async function save(isTold = false) {
  const head = await askForChange("save", () => ({ told: isTold }));
  if (head.kind === "saved") return showNotice(`Saved as ${head.file}.`, savedSeed());
  if (head.kind === "changed") {
    const over = make("button", { type: "button", id: "save-over" }, "Save over it");
    over.addEventListener("click", () => save(true));
    showNotice(`Not saved: ${head.message} changed on disk since it was opened.`, [over]);
  } else {
    sayWrong(wrongOf(head));
  }
}

// The seed isn't a part of a log.
const savedSeed = () => (byId("seed").value === byId("seed").dataset.opened ? []
  : [make("span", {}, `The seed isn't part of it: play it with --seed ${byId("seed").value}.`)]);

async function endServer() {
  const isSure = !file.isUnsaved
    || confirm("There are changes that aren't saved. They will be left in a file beside the log.");
  if (!isSure) return;
  await askForChange("end", () => ({}));
}

function endHere(said) {
  wire.isEnded = true;
  document.body.classList.add("ended");
  for (const it of document.querySelectorAll("#live-tools button, #seed")) it.disabled = true;
  showNotice(said, []);
}

// ---- what is said of the whole

function showNotice(text, parts) {
  byId("notice").replaceChildren(make("span", {}, text), " ", ...parts);
  byId("notice").hidden = false;
}

const isWrong = (head) => !isPatch(head) && head.kind !== "saved" && head.kind !== "ended";

// What is said about a request that failed.
function wrongOf(head) {
  switch (head.kind) {
    case "refused": return head.message.replace(/^cave: change:\d+: /, "");
    case "malformed": return head.message;
    case "stale": return "Another page has changed the log meanwhile. Look at it, and try again.";
    case "lost": return "The server doesn't answer: it has ended.";
    default: return "That can't be done now.";
  }
}

function sayWrong(message) {
  showNotice(message, []);
}

addEventListener("beforeunload", (event) => {
  if (file.isUnsaved && !wire.isEnded) event.preventDefault();
});
