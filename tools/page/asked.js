// What tests ask of a page, and do with it: each page that they open has this in `tests`.

const tests = (() => {
  const all = (query) => [...document.querySelectorAll(query)];
  const named = (name) => document.getElementById(name);
  const numberOf = (it) => Number(it.closest("[data-at]").dataset.at);
  const saidOf = (it) => it.querySelector(".said")?.textContent ?? "";

  // ---- what is seen of lines

  // A line's number wherever the page shows it, its place, its trail, its facts.
  function seen() {
    const chosen = all('#lines [aria-selected="true"]');
    const list = named("lines").getBoundingClientRect();
    const box = chosen[0].getBoundingClientRect();
    const middle = (place) => {
      const { x, y, width, height } = place.querySelector("path, polygon, ellipse").getBBox();
      return [x + width / 2, y + height / 2].map((at) => at.toFixed(1)).join();
    };
    const ends = all("#trails .trail.mine").map((it) => it.getAttribute("d").split(" ").at(-1));
    const here = all(".place.here");
    return {
      "the lines": chosen.map(numberOf),
      "what a screen reader is at": named("lines").getAttribute("aria-activedescendant"),
      "the chart": Number(named("chart").getAttribute("aria-valuenow")),
      "is in sight": box.top < list.bottom && box.bottom > list.top
        && (box.top >= list.top - 1 || box.height > list.height),
      "the place": here.map((it) => Number(it.dataset.place)),
      "the trail": ends.length,
      "the trail leads to the place":
        !ends.length || !here.length || ends.at(-1) === middle(here[0]),
      "the facts": Object.fromEntries(all("#facts dd").map(({ dataset: { fact }, textContent }) =>
        [fact, fact === "Place" ? textContent.split(" ")[0] : textContent])),
    };
  }

  const said = () => all("#lines [data-at]").map((it) => [numberOf(it), saidOf(it)]);
  const drawn = () => all("#lines [data-at]").map((it) => [numberOf(it),
    it.querySelector(".command > code")?.textContent.replace(/^> /, "") ?? "", saidOf(it)]);
  const events = () => all("#lines .event").map((it) => [numberOf(it), it.textContent]);

  // What a page that is edited has of the opening and of each line.
  function walked() {
    const at = (row) => row + 1;
    return { opening: saidAt(held, 0), lines: held.lines.map((line, row) => [row, line,
      saidAt(held, at(row)), held.from[row], held.to[row], held.turns[row], held.score[row],
      held.lamp[row], held.carried[row], held.draws[row], held.stream[row],
      word(held, "question", at(row)), word(held, "ended", at(row)), eventsAt(held, at(row))]) };
  }

  // Notes the last line that is marked from here on, since marks are soon taken away.
  function noteMarks() {
    window.lastMarked = 0;
    new MutationObserver(() => all("#lines .replayed").forEach((it) => {
      window.lastMarked = Math.max(window.lastMarked, numberOf(it));
    })).observe(list, { subtree: true, childList: true, attributes: true });
  }

  // Whether lines are drawn all over the visible part of their list.
  function isFullSight() {
    const { left, top, bottom } = named("lines").getBoundingClientRect();
    return [top + 20, (top + bottom) / 2, bottom - 20].every((y) =>
      document.elementFromPoint(left + 60, y)?.closest("[data-at]"));
  }

  // ---- the map and the chart

  const knownPlaces = () => all(".place:not(.pale):not(.forced)")
    .map((it) => Number(it.dataset.place)).sort((a, b) => a - b);
  const bothPlaces = () => ["here", "there"].map((name) =>
    Number(document.querySelector(`.place.${name}`)?.dataset.place));
  const sightOfMap = () => named("drawing").getAttribute("viewBox").split(" ").map(Number);

  function isPlaceInSight() {
    const { middle } = placeInView();
    return middle.x > sight.x && middle.x < sight.x + sight.width && middle.y > sight.y
      && middle.y < sight.y + heightOf(sight.width);
  }

  // How far right of the chart's middle a mark is, what it says, and half of the chart's width.
  function mark(at) {
    const found = all("#chart .event-mark")[at];
    const [box, whole] = [found, named("chart")].map((it) => it.getBoundingClientRect());
    const half = whole.width / 2;
    return [box.x + box.width / 2 - whole.x - half, found.textContent, half];
  }

  // ---- moves

  function visit(place) {
    named("visited").value = place;
    named("visited").dispatchEvent(new Event("change"));
  }

  // Moves by keys, each of which is laid out before the next.
  function move(keys) {
    for (const key of keys) {
      named("lines").dispatchEvent(new KeyboardEvent("keydown", { key, bubbles: true }));
      document.body.getBoundingClientRect();
    }
  }

  function scroll(part) {
    named("lines").scrollTop = named("lines").scrollHeight * part;
  }

  // What the clipboard gets, or gives, as keys would copy, cut or paste.
  function clip(kind, text) {
    const clipboardData = new DataTransfer();
    clipboardData.setData("text/plain", text);
    document.activeElement.dispatchEvent(
      new ClipboardEvent(kind, { clipboardData, bubbles: true, cancelable: true }));
    return clipboardData.getData("text/plain");
  }

  // ---- looks

  // How many parts are wider than the window.
  const tooWide = () => all("main > section, header, footer, #told, #live-tools")
    .filter((it) => it.getBoundingClientRect().right > innerWidth + 1).length
    + (document.documentElement.scrollWidth > innerWidth ? 1 : 0);

  const numbers = (colour) => colour.match(/[\d.]+/g).map(Number);
  const light = (colour) => numbers(colour).slice(0, 3).map((it) => it / 255)
    .map((it) => (it <= 0.04045 ? it / 12.92 : ((it + 0.055) / 1.055) ** 2.4))
    .reduce((sum, it, at) => sum + it * [0.2126, 0.7152, 0.0722][at], 0);

  function ground(it) {
    for (let at = it; at; at = at.parentElement) {
      const colour = getComputedStyle(at).backgroundColor;
      if (numbers(colour).length < 4 || numbers(colour)[3] > 0.9) return colour;
    }
    return "rgb(255, 255, 255)";
  }

  function contrast(a, b) {
    const [low, high] = [light(a), light(b)].sort((x, y) => x - y);
    return (high + 0.05) / (low + 0.05);
  }

  // Whether there are texts, and those whose contrast with what is behind them is too low.
  function hardToRead(least) {
    const texts = all("body *").filter((it) => it instanceof HTMLElement
      && [...it.childNodes].some((node) => node.nodeType === 3 && node.data.trim())
      && it.checkVisibility() && !it.closest(".hidden, .shadow, script, noscript, option"));
    return [texts.length > 30, texts
      .map((it) => [`${it.tagName}.${it.className}`,
        contrast(getComputedStyle(it).color, ground(it)).toFixed(1)])
      .filter(([, found]) => found < least).map((it) => it.join(" "))];
  }

  // How many lines are printed, whether the whole map is, and how tools are shown then.
  function printed() {
    dispatchEvent(new Event("beforeprint"));
    const found = [all("#lines [data-at]").length, sight.isWhole,
      getComputedStyle(document.querySelector(".tools")).display];
    dispatchEvent(new Event("afterprint"));
    return found;
  }

  function reached() {
    const it = document.activeElement;
    return it.dataset.place ? "a place" : it.id || it.tagName;
  }

  return { seen, said, drawn, events, walked, noteMarks, isFullSight, knownPlaces, bothPlaces,
    sightOfMap, isPlaceInSight, mark, visit, move, scroll, clip, tooWide, hardToRead, printed,
    reached };
})();
