// Where objects are at each line, and what is carried.

const SHOWN_THINGS = 3; // of the objects at a place
const moveIndex = new WeakMap();

// The moves of each object, one after another; those of the opening are at 0.
function movesOf(it) {
  if (moveIndex.has(it.moved)) return moveIndex.get(it.moved);
  const found = new Map();
  const note = (moved, at) => {
    for (const thing of moved) {
      if (!found.has(thing.object)) found.set(thing.object, []);
      found.get(thing.object).push({ at, thing });
    }
  };
  note(data.opening.moved, 0);
  it.moved.forEach((moved, row) => { if (moved.length) note(moved, row + 1); });
  const inOrder = new Map([...found].sort(([one], [other]) => one - other));
  moveIndex.set(it.moved, inOrder);
  return inOrder;
}

const nameOfThing = (thing) => thing.name ?? `object ${thing.object}`;

// The objects at each place after a line; one with two places is at both.
function thingsByPlace(it, at) {
  const found = new Map();
  const note = (place, thing) => {
    if (place > 0) found.set(place, [...(found.get(place) ?? []), nameOfThing(thing)]);
  };
  for (const moves of movesOf(it).values()) {
    const last = moves.findLast((move) => move.at <= at)?.thing;
    if (!last) continue;
    note(last.first, last);
    if (last.second !== last.first) note(last.second, last);
  }
  return found;
}

const carriedAt = (it, at) => (at > 0 ? it.carriedThings[at - 1] : []).map(nameOfThing);

// ---- on the map

const thingTexts = draw("g", { id: "things", "aria-hidden": "true" });
drawing.append(thingTexts);

function showThings() {
  const found = thingsByPlace(walk(), now.at);
  const texts = [];
  for (const [place, names] of found) {
    const box = places.get(place)?.box;
    if (!box) continue;
    const more = names.length > SHOWN_THINGS ? ` +${names.length - SHOWN_THINGS}` : "";
    texts.push(draw("text", { x: box.x + box.width / 2, y: box.y + box.height + 7,
      "text-anchor": "middle", "data-things": place },
    names.slice(0, SHOWN_THINGS).join(", ").toLowerCase() + more,
    draw("title", {}, names.join(", "))));
  }
  renew(thingTexts, texts);
}
