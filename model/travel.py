"""Travel, arrival and description (docs/PLAY.md)."""

import dwarves
from state import DWARVES
from tables import TABLES, phrases, rule, tables
from terms import rows_of

MOST_FORCED = 20
assert dwarves  # whose rows of anger are done as the player arrives

# ---- Motions

def travel(game, motion):
    """The player travels by a motion."""
    game.motion = motion
    TABLES["motions"].apply(game)

def look_round(game):
    """The place is described again, as to one who saw by light before."""
    game.visits[game.here], game.was_dark = 0, False
    arrive(game, game.here)

def set_out(game):
    game.older, game.last = game.last, game.here

def go_back(game):
    """By the first motion of a row that leads to where the player came from."""
    TABLES["way back"].apply(game)
    cave, to, rows = game.cave, game.back, game.cave.travel.get(game.here, [])
    game.straight = [motions[0] for target, motions in rows if target % 1000 == to]
    game.roundabout = [motions[0] for target, motions in rows if cave.is_forced(target % 1000)
                       and cave.travel[target % 1000][0][0] % 1000 == to]
    TABLES["BACK"].apply(game)

# ---- The travel table

def follow_rows(game, motion):
    """The rows of the place from the first one on that lists the motion, or lists motion 1."""
    set_out(game)
    rows, failed = game.cave.travel.get(game.here, []), None
    first = next((it for it, row in enumerate(rows) if motion in row[1] or 1 in row[1]), None)
    if first is None:
        game.motion = motion
        TABLES["motions without a row"].apply(game)
        return
    for target, _ in rows[first:]:
        if target == failed:
            rule("row: passed over with one that failed")
            continue
        game.condition, game.destination = divmod(target, 1000)
        TABLES["holds"].apply(game)
        if game.holds:
            TABLES["outcome_at"].apply(game)
        if game.holds:
            return
        failed = target
    rule("row: none holds")
    game.say("no-way")
    arrive(game, game.here)

def other_end(game, ends):
    """The other one of two places than this one, or None if this is neither."""
    if game.here not in ends or None in ends or min(ends) < 1:
        return None
    return ends[1] if game.here == ends[0] else ends[0]

def beyond_passage(game):
    return other_end(game, [game.cave.place("alcove"), game.cave.place("plover")])

def beyond_bridge(game):
    """The other end of the troll's bridge; None without a troll, or from elsewhere."""
    troll = game.thing("TROLL")
    return other_end(game, game.home(troll)) if troll else None

def is_with(game, may_lie_here):
    """Whether the object of a condition is in the hands, or may lie here."""
    x = (game.condition - 1) % 100 + 1
    return game.is_in_hands(x) or may_lie_here and game.is_here(x)

def is_carried_past_troll(game, x):
    """Whether x is carried once the toll is paid, on which what is in the bottle may depend."""
    after = game.copy()
    TABLES["toll"].apply(after)
    return after.is_carried(x)

# ---- Arrival

def arrive(game, place):
    """The player arrives at a place, or is held back where the player is."""
    game.new = place
    TABLES["blocked ways"].apply(game)
    game.here, game.hits = game.new, 0
    if not TABLES["arrival"].apply(game):
        TABLES["anger"].apply(game)
        TABLES["knife deaths"].apply(game)

def a_dwarf_bars_the_way(game):
    """Whether one that has seen the player was at the place where the player wants to arrive."""
    is_safe = game.cave.is_forced(game.here) or game.cave.has(game.here, 3)
    return game.new != game.here and not is_safe and any(
        game.dwarf_saw[it] and game.dwarf_was[it] == game.new for it in DWARVES)

# ---- Description

def tell_text(game, kind):
    """Says the long or the short text of the place."""
    game.said.add((f"{kind} text", game.here))
    game.show(getattr(game.cave, kind).get(game.here))

def count_the_visit(game):
    game.visits[game.here] = (game.visits.get(game.here, 0) + 1) % 10_000

def see_k(game, prop):
    """An object is seen for the first time, and counted as a treasure that was."""
    game.prop[game.names["k"]] = prop
    game.unseen = max(game.unseen - 1, 0)
    TABLES["last treasure"].apply(game)
    TABLES["text of an object"].apply(game)

# ---- What rows say, and the rows, in the order of the pages

phrases({
    "that is this place": lambda game: game.back == game.here,
    "a row leads there": lambda game: game.straight != [],
    "a row leads there by a place of forced motion": lambda game: game.roundabout != [],
    "the passage is here": lambda game: beyond_passage(game) is not None,
    "the bridge is here": lambda game: beyond_bridge(game) is not None,
    "nothing is in the hands but EMERALD":
        lambda game: game.in_hands() in ([], [game.thing("EMERALD")]),
    "{A} is carried once TROLL let the player pass": is_carried_past_troll,
    "motion is forced at the last place": lambda game: game.cave.is_forced(game.last),
    "motion is forced": lambda game: game.cave.is_forced(game.here),
    "the place has bit {N}": lambda game, bit: game.cave.has(game.here, bit),
    "visits here are {N}": lambda game, count: game.visits.get(game.here, 0) == count,
    "visits here are a multiple of {N}": lambda game, of: game.visits.get(game.here, 0) % of == 0,
    "the place has no short text": lambda game: game.here not in game.cave.short,
    "all that are unseen are lost": lambda game: game.unseen == game.lost,
    "this is the second place of k": lambda game: game.here == game.held[game.names["k"]],
}, {
    "it holds by chance": lambda game: vars(game).update(holds=game.happens(game.condition)),
    "it holds with its object in the hands( or here|)":
        lambda game, here: vars(game).update(holds=is_with(game, here != "")),
    "it holds with another prop": lambda game: vars(game).update(
        holds=game.prop[game.condition % 100] != game.condition // 100 - 3),
    "follow the rows": lambda game: follow_rows(game, game.motion),
    "follow the first": lambda game: follow_rows(game, game.straight[0]),
    "follow the last": lambda game: follow_rows(game, game.roundabout[-1]),
    "arrive(?: again)?": lambda game: arrive(game, game.here),
    "arrive there": lambda game: arrive(game, game.destination),
    "pass through": lambda game: arrive(game, beyond_passage(game)),
    "pass the passage or the bridge": lambda game:
        TABLES["narrow passage" if game.destination == 301 else "bridge"].apply(game),
    "the message": lambda game: game.message(game.destination - 500),
    "{A} is at both its homes":
        lambda game, x: (game.move(x, game.home(x)[0]), game.anchor(x, game.home(x)[1])),
    "move {A} across": lambda game, x: game.move(x, beyond_bridge(game)),
    "die across": lambda game: game.die(beyond_bridge(game)),
    "cross": lambda game: arrive(game, beyond_bridge(game)),
    "travel by {N}": travel,
    "move on": rows_of("move on"),
    "it is described": rows_of("description"),
    "the place is described": rows_of("described again"),
    "the (long|short) text": tell_text,
    "k is seen with prop {N}": see_k,
    "the lamp burns {N} at most": lambda game, most: vars(game).update(lamp=min(game.lamp, most)),
    "die before": lambda game: game.die(game.older),
    "text of k": lambda game: game.object_text(game.names["k"], game.prop[game.names["k"]]),
})

tables("travel.txt", globals())
