// The transcript: lines are drawn in blocks, only those in sight and some around them.

const list = byId("lines");
const BLOCK = 25;
const SHELF = 40; // blocks that are laid out together, so that the others aren't when one changes
const BETWEEN_TEXTS = 36; // pixels of a line of the log without what was said, as is guessed
const OF_A_TEXT = 21;
let blocks = [];

// ---- a line

// A text with the places marked at which it has what is looked for.
function marked(text) {
  const wanted = search.wanted;
  if (!wanted) return [text];
  const parts = [];
  const lower = lowered(text);
  let begun = 0;
  for (let at = lower.indexOf(wanted); at >= 0; at = lower.indexOf(wanted, begun)) {
    parts.push(text.slice(begun, at), make("mark", {}, text.slice(at, at + wanted.length)));
    begun = at + wanted.length;
  }
  return [...parts, text.slice(begun)];
}

function badgesOf(at) {
  const kind = (event) => (event === "died" ? "bad" : event.split(" ")[0]);
  const badges = eventsAt(walk(), at)
    .map((event) => make("span", { class: `event ${kind(event)}` }, event));
  const gain = gainAt(walk(), at);
  if (gain) badges.push(make("span", { class: `gained${gain < 0 ? " lost" : ""}` }, signed(gain)));
  return badges;
}

function lineAt(at) {
  const line = at ? walk().lines[at - 1] : "";
  const isSilent = at > 0 && isComment(line);
  const turn = at && !isSilent ? `turn ${figure(walk(), "turns", at)}` : "";
  const number = make("div", { class: "number" }, at ? String(inLog(at)) : "opening");
  if (turn) number.append(make("small", {}, turn));
  const body = make("div");
  if (at) {
    const command = make("code", {}, isSilent ? "" : "> ", ...marked(line));
    body.append(make("div", { class: "command" }, command, ...badgesOf(at)));
  }
  const said = saidAt(walk(), at);
  if (said) body.append(make("div", { class: "said" }, ...marked(said)));
  const kind = `${isSilent ? " comment" : ""}${isAlone(at) ? " alone" : ""}`;
  return make("div", { class: `line${kind}`, role: "option", id: `line-${at}`,
    "data-at": at, "aria-selected": at === now.at, "aria-posinset": at + 1,
    "aria-setsize": last(walk()) + 1 }, number, body);
}

// ---- blocks of lines

// The line after those of a block.
const endOf = (block) => Math.min(block.from + BLOCK, last(walk()) + 1);

function guessHeight(block) {
  let height = 0;
  for (let at = block.from; at < endOf(block); at += 1) {
    height += BETWEEN_TEXTS + OF_A_TEXT * linesSaid(walk(), at).length;
  }
  block.box.style.height = `${height}px`;
}

function addBlock() {
  const isFirst = blocks.length % SHELF === 0;
  if (isFirst) list.append(make("div", { class: "shelf", role: "presentation" }));
  const box = make("div", { class: "block", role: "presentation" });
  list.lastElementChild.append(box);
  blocks.push({ box, from: blocks.length * BLOCK, isFull: false });
}

function dropBlock() {
  blocks.pop().box.remove();
  if (!list.lastElementChild.childElementCount) list.lastElementChild.remove();
}

// As many blocks as the lines take.
function fitBlocks() {
  const count = Math.floor(last(walk()) / BLOCK) + 1;
  while (blocks.length > count) dropBlock();
  while (blocks.length < count) addBlock();
}

function makeBlocks() {
  blocks = [];
  list.replaceChildren();
  fitBlocks();
  blocks.forEach(guessHeight);
}

function fillBlock(block) {
  if (block.isFull) return;
  block.isFull = true;
  const made = [];
  for (let at = block.from; at < endOf(block); at += 1) made.push(lineAt(at));
  renew(block.box, made);
  block.box.style.height = "";
}

function emptyBlock(block) {
  if (!block.isFull) return;
  block.isFull = false;
  block.box.style.height = `${block.box.offsetHeight}px`;
  block.box.replaceChildren();
}

// The first block that ends below a height, found by halves.
function blockBelow(top) {
  let [low, high] = [0, blocks.length - 1];
  while (low < high) {
    const middle = (low + high) >> 1;
    const { offsetTop, offsetHeight } = blocks[middle].box;
    if (offsetTop + offsetHeight <= top) low = middle + 1;
    else high = middle;
  }
  return low;
}

const topOf = (made) => made.getBoundingClientRect().top - list.getBoundingClientRect().top;

// The first line in sight that is drawn; it stays where it is as blocks before it change.
function anchor() {
  const block = blocks[blockBelow(list.scrollTop - list.offsetTop)];
  return [...block?.box.children ?? []].find((it) => topOf(it) + it.offsetHeight > 0);
}

function showBlocks() {
  const held = anchor();
  const before = held && topOf(held);
  const reach = list.clientHeight;
  const top = list.scrollTop + list.offsetTop;
  const first = blockBelow(top - reach);
  const final = blockBelow(top + 2 * reach);
  blocks.forEach((block, at) => {
    if (at >= first && at <= final) fillBlock(block);
    else if (at < first - 1 || at > final + 1) emptyBlock(block);
  });
  if (held?.isConnected) list.scrollTop += topOf(held) - before;
}

function redrawBlock(block) {
  if (!block.isFull) return guessHeight(block);
  block.isFull = false;
  return fillBlock(block);
}

const redrawBlocks = () => blocks.filter((it) => it.isFull).forEach(redrawBlock);

// ---- the line that is looked at

function showLine() {
  const block = blocks[Math.floor(now.at / BLOCK)];
  for (const it of list.querySelectorAll('[aria-selected="true"]')) {
    it.setAttribute("aria-selected", "false");
  }
  fillBlock(block);
  const line = byId(`line-${now.at}`);
  line.setAttribute("aria-selected", "true");
  list.setAttribute("aria-activedescendant", line.id);
  keepInSight(line);
  showBlocks();
  keepInSight(line);
}

function keepInSight(line) {
  const [top, height, room] = [topOf(line), line.offsetHeight, list.clientHeight];
  const margin = Math.min(room * 0.2, Math.max((room - height) / 2, 0));
  const isFar = top < -room || top > 2 * room;
  if (isFar) list.scrollTop += top - Math.max((room - height) / 2, 0);
  else if (top < margin) list.scrollTop += top - margin;
  else if (top + height > room - margin) {
    list.scrollTop += Math.min(top + height - room + margin, top - 4);
  }
}
