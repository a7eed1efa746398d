// What can be done from the line that is looked at: the motions of its place, and objects to take.
// A click on one puts its line below.

const near = make("div", { id: "near", role: "group", "aria-label": "From here" });

// The ways that lead from a place, each with where it leads and by which motions.
function waysFrom(place) {
  return Object.entries(data.live.motions).flatMap(([name, [there, back]]) => {
    const [from, to] = name.split(".").map(Number);
    const ways = [];
    if (from === place && there.length) ways.push({ name, to, motions: there });
    if (to === place && back.length) ways.push({ name, to: from, motions: back });
    return ways;
  });
}

const isThere = (thing, place) => thing.first === place || thing.second === place;

function thingsHere(place) {
  const things = [...thingsAt(now.at).values()].filter((it) => place && isThere(it, place));
  return things.filter((it) => it.name);
}

function nearButton(line, title, isWay) {
  const button = make("button", { type: "button", class: isWay ? "motion" : "thing", title },
    line, " ", make("small", {}, title));
  button.addEventListener("click", (event) => {
    startClock(event);
    insertBelow(line);
  });
  return button;
}

function showNear() {
  const place = placeAt(held, now.at);
  const ways = waysFrom(place);
  const motions = ways.map(({ to, motions: [first, ...more] }) => nearButton(first.toLowerCase(),
    `to ${to} ${titleOf(to)}${more.length ? ` (or ${more.join(", ").toLowerCase()})` : ""}`, true));
  const takes = thingsHere(place).map(({ name }) =>
    nearButton(`take ${name.toLowerCase()}`, "", false));
  near.replaceChildren(...motions, ...takes);
  near.hidden = !near.childElementCount;
  showLeads(new Map(ways.map((it) => [it.name, it.motions[0]])));
  showTaken(place);
}

// The objects that are here, on the map, each by itself.
function showTaken(place) {
  const text = drawing.querySelector(`[data-things="${place}"]`);
  const names = thingsHere(place).map((it) =>
    draw("tspan", { "data-object": it.object }, it.name.toLowerCase()));
  text?.replaceChildren(...names.flatMap((it, at) => (at ? [", ", it] : [it])));
}

// The ways on the map that lead from here.
function showLeads(leads) {
  for (const [name, groups] of ways) {
    for (const group of groups) {
      group.classList.toggle("leads", leads.has(name));
      if (leads.has(name)) group.dataset.motion = leads.get(name).toLowerCase();
      else delete group.dataset.motion;
    }
  }
}

drawing.addEventListener("click", (event) => {
  if (drag.moved) return;
  const thing = event.target.closest("[data-object]");
  const way = event.target.closest("[data-motion]");
  const name = thing && thingsAt(now.at).get(Number(thing.dataset.object))?.name;
  const line = name ? `take ${name.toLowerCase()}` : way?.dataset.motion;
  if (!line) return;
  event.stopImmediatePropagation();
  startClock(event);
  insertBelow(line);
}, { capture: true });

byId("chart-box").before(near);
