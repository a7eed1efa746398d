"""The phrases of the tables of rules: what they ask and what they do (docs/VERBS.md, Terms)."""

import operator

from state import HANDS, Game
from tables import TABLES, phrases

COMPARED = {"is": operator.eq, "is other than": operator.ne, "is below": operator.lt,
            "is at most": operator.le, "is at least": operator.ge, "is above": operator.gt}

def move_to_role(game, x, role):
    """To the place of a role; if that isn't bound, nothing is moved."""
    if place := game.cave.place(role):
        game.move(x, place)

def rows_of(name):
    """What tries the rows of a table."""
    return lambda game: TABLES[name].apply(game)

TREASURES = range(50, 80)
EACH = {"object": lambda game: range(1, 101), "treasure": lambda game: TREASURES,
        "object in the hands": lambda game: game.in_hands()[::-1],
        "object of the list": lambda game: [abs(it) for it in game.lists.get(game.here, [])]}

def rows_for_each(game, name, objects):
    """Tries the rows of a table for each of these objects, as k."""
    for game.names["k"] in EACH[objects](game):
        TABLES[name].apply(game)

def lay_down(game, x):
    game.names["k"] = x
    TABLES["lay down"].apply(game)

def put_down_x(game):
    for kind in ("vessel", "caged bird", "free bird"):
        TABLES[f"put: {kind}"].apply(game)
    game.move(game.names["k"], game.here)

phrases({
    # A part of the state is named as there: `lamp is at most 30`.
    "{W} (%s) {N}" % "|".join(COMPARED):
        lambda game, part, how, number: COMPARED[how](getattr(game, part), number),
    "{W} (%s) (deep|outside)" % "|".join(COMPARED): lambda game, part, how, role:
        COMPARED[how](getattr(game, part), game.cave.place(role)),
    "{W} is one of ([\\d ]+)": lambda game, part, of: str(getattr(game, part)) in of.split(),
    "{A} prop (%s) {N}" % "|".join(COMPARED):
        lambda game, x, how, number: x != 0 and COMPARED[how](game.prop[x], number),
    "{A} is carried": Game.is_carried,
    "{A} is in the hands": Game.is_in_hands,
    "{A} is here": Game.is_here,
    "{A} is at hand": Game.is_at_hand,
    "{A} is nowhere": lambda game, x: x != 0 and game.where[x] == 0,
    "{A} is fixed": lambda game, x: game.held[x] != 0,
    "{A} is {A}": lambda game, x, y: x != 0 and x == y,
    "{A} is other than {A}": lambda game, x, y: x not in (0, y),
    "{A} is {A} or {A}": lambda game, x, *of: x != 0 and x in of,
    "{A} is a treasure": lambda game, x: 50 <= x <= 79,
    "{A} is in the bottle": lambda game, x: x != 0 and x == game.liquid(),
    "nothing is in the bottle": lambda game: game.liquid() is None,
    "something is in the bottle": lambda game: game.liquid() is not None,
    "the lake is {A}": lambda game, x: x != 0 and x == game.lake(),
    "there is no lake": lambda game: game.lake() is None,
    "a dwarf is here": lambda game: game.dwarf_here() is not None,
    "the cave is (closing|closed)": getattr,
    "it is dark": Game.is_dark,
    "it was dark": lambda game: game.was_dark,
    "the player is at {W}": lambda game, role: game.here == game.cave.place(role),
    "the player is at home of {A}": lambda game, x: x != 0 and game.home(x)[0] == game.here,
    "the player is at home of {A} or {A}":
        lambda game, *of: game.here in [game.home(x)[0] for x in of if x],
    "the player is away from home of {A}": lambda game, x: x != 0 and game.home(x)[0] != game.here,
    "the score has a class": lambda game: game.classes != [],
    "a class follows it": lambda game: game.classes[1:] != [],
    "by itself": lambda game: game.names["x"] == 0,
    "hint 2 was taken": lambda game: 2 in game.taken,
    "draw {N} of {N}": lambda game, least, below: game.draw(below) < least,
}, {
    "{W} becomes {N}": setattr,
    "{W} becomes {W}": lambda game, part, other: setattr(game, part, getattr(game, other)),
    "{W} (rises|falls) by 1": lambda game, part, how:
        setattr(game, part, getattr(game, part) + (1 if how == "rises" else -1)),
    "say {W}": Game.say,
    "prop {A} {N}": Game.set_prop,
    "{A} vanishes": lambda game, x: game.move(x, 0),
    "bring {A}": lambda game, x: game.move(x, game.here),
    "carry {A}": lambda game, x: game.move(x, HANDS),
    "move {A} to {W}": move_to_role,
    "fix {A}": lambda game, x: game.anchor(x, -1),
    "loosen {A}": lambda game, x: game.anchor(x, 0),
    "juggle {A}": Game.juggle,
    "k becomes {A}": lambda game, x: game.names.update(k=x),
    "put down x": put_down_x,
    "lay down {A}": lay_down,
    "text {A} {N}": Game.object_text,
    "I see no W here": lambda game: game.out.append(f"I see no {game.word} here."),
    "panic": rows_of("panic"),
    "the troll leaves": Game.troll_leaves,
    "ask ([A-Z]\\w+)": Game.open_question,
    "hint {N} is taken": lambda game, hint: game.taken.add(hint),
    "end ([a-z ]+)": Game.end,
    "its class": Game.tell_class,
    "how many points are missing": Game.tell_missing,
    "a treasure is lost": Game.lose,
    "a treasure is lost to the snake": rows_of("lost to the snake"),
    "die here": lambda game: game.die(game.here),
    "the rows of (.+) for each ([a-z ]+)": rows_for_each,
    "the rows of (.+)": lambda game, name: TABLES[name].apply(game),
    "nothing": lambda game: None,
})
