"""Verbs: the tables of docs/VERBS.md, row by row."""

import re

import travel  # what its phrases say, rows of verbs say too
from state import Game
from tables import phrases, rule, tables

ACTIONS = {name: number for number, name in enumerate(
    """TAKE DROP SAY OPEN NOTHING LOCK ON OFF WAVE CALM WALK KILL POUR EAT DRINK RUB THROW QUIT FIND
    INVENTORY FEED FILL BLAST SCORE FOO BRIEF READ BREAK WAKE SUSPEND HOURS""".split(), 1)}
def verbs_in(label):
    """The verbs that the name of a table has, or that of one of its rows."""
    return [it for it in re.split("[ /:]", label) if it in ACTIONS]

MOST_IN_HANDS, MAGIC_WORDS, MOST_ANGER = 7, 4, 13

# ---- What verbs that are said by themselves mean, and what is one of several things

def there(game, *tests):
    """The objects of the names whose tests hold, except absent ones."""
    return [x for name, is_so in tests if (x := game.thing(name)) and is_so(x)]

def poured(game):
    """What POUR pours: x, or what is in the bottle."""
    x = game.names["x"]
    return game.liquid() or 0 if x == 0 or game.is_thing(x, "BOTTLE") else x

def meant_by_open(game):
    return [*there(game, ("GRATE", game.is_here), ("DOOR", game.is_here),
                   ("OYSTER", game.is_at_hand), ("CLAM", game.is_at_hand)), 0][0]

def meant_by_read(game):
    pages = there(game, *((it, game.is_at_hand) for it in ("MAGAZINE", "TABLET", "MESSAGE")))
    return pages[0] if len(pages) == 1 else 0

def only_one_here(game):
    """The object of the only half in the list of this place, or 0."""
    halves = game.lists.get(game.here, [])
    return abs(halves[0]) if len(halves) == 1 else 0

def foes(game):
    """What KILL by itself may be meant for."""
    return there(game, ("DWARF", lambda _: game.dwarf_here() is not None),
                 ("SNAKE", game.is_at_hand), ("TROLL", game.is_here),
                 ("DRAGON", lambda x: game.is_here(x) and game.prop[x] == 0),
                 ("BEAR", lambda x: game.is_at_hand(x) and game.prop[x] == 0))

def preys(game):
    """What it may be meant for if there is no foe."""
    throws = game.player_verb == ACTIONS["THROW"]
    return there(game, ("BIRD", lambda x: game.is_at_hand(x) and not throws),
                 ("CLAM", lambda x: game.is_at_hand(x) or game.is_at_hand(game.thing("OYSTER"))))

Game.letters.update(y=poured, m=meant_by_open, r=meant_by_read, o=only_one_here,
                    f=lambda game: foes(game)[0], p=lambda game: preys(game)[0])

# ---- Magic words, eggs, and what else only verbs ask and do

def number_of_magic(game):
    return game.cave.specials.get(game.word, 0)

def carried_list(game):
    """What INVENTORY lists: what is carried but BEAR."""
    return [x for x in range(1, 101) if game.is_carried(x) and not game.is_thing(x, "BEAR")]

def ask_back(game):
    game.out.append(f"{game.word} what?")
    game.unfinished = "asks back"

def turn_fissure(game):
    x = game.thing("FISSURE")
    shown, game.prop[x] = game.prop[x] + 1, 1 - game.prop[x]
    game.object_text(x, shown)

def water_plant(game):
    plant = game.thing("PLANT")
    game.object_text(plant, game.prop[plant] + 1)
    game.prop[plant] = (game.prop[plant] + 2) % 6
    game.set_prop(game.thing("PLANT2"), game.prop[plant] // 2)

def kill_the_dwarf(game):
    it = game.dwarf_here()
    game.dwarf_at[it], game.dwarf_saw[it] = 0, False
    game.kills += 1

phrases({
    "it is meant for {A}": lambda game, x: x != 0,
    "{A} is absent": lambda game, x: x == 0,
    "{A} is at home": lambda game, x: x != 0 and game.where[x] == game.home(x)[0],
    "{A} is carried to their home": lambda game, x:
        game.is_carried(x) and game.here == game.home(x)[0],
    "two foes or more": lambda game: len(foes(game)) > 1,
    "one foe": lambda game: len(foes(game)) == 1,
    "two preys": lambda game: len(preys(game)) == 2,
    "one prey": lambda game: len(preys(game)) == 1,
    "to ([A-Z]+)": lambda game, verb: game.verb == ACTIONS[verb],
    "water is at hand": lambda game: game.is_at_hand(game.thing("BOTTLE"))
        and game.liquid() == game.thing("WATER") != 0,
    "{A} is ROD with ROD2 carried": lambda game, x:
        game.is_thing(x, "ROD") and game.is_carried(game.thing("ROD2")),
    "{A} is one of ([A-Z ]+)": lambda game, x, names:
        any(game.is_thing(x, it) for it in names.split()),
    "seven objects are in the hands": lambda game: len(game.in_hands()) >= MOST_IN_HANDS,
    "by itself or with BOTTLE": lambda game: game.names["x"] in (0, game.thing("BOTTLE")),
    "the list is empty": lambda game: not carried_list(game),
    "it is the turn of the word": lambda game:
        number_of_magic(game) != 0 and game.magic == 1 - number_of_magic(game),
    "the word is the last": lambda game: number_of_magic(game) == MAGIC_WORDS,
}, {
    "{A} go home": lambda game, x: game.move(x, game.home(x)[0]),
    "list what is carried": lambda game: [game.object_text(x, None) for x in carried_list(game)],
    "default": lambda game: game.message(game.cave.defaults.get(game.verb, 0)),
    "as ([A-Z]+)": lambda game, verb: perform(game, ACTIONS[verb], 0),
    "as ([A-Z]+) {A}": lambda game, verb, x: perform(game, ACTIONS[verb], x),
    "the same verb with {A}": lambda game, x: perform(game, game.verb, x),
    "come to the word": lambda game: vars(game).update(magic=number_of_magic(game)),
    "anger them": lambda game: vars(game).update(anger=min(game.anger + 1, MOST_ANGER)),
})

# ---- The tables. A verb has one by itself, one with an object, or one for both.

TABLES = tables("verbs.txt", {**vars(travel), **globals()})
ALONE, WITH = {}, {}
for heading, table in sorted(TABLES.items(), key=lambda it: "alone" in it[0]):
    verbs = {ACTIONS[it]: table for it in verbs_in(heading)}
    ALONE.update(verbs)
    WITH.update(verbs if "alone" not in heading else {})

def perform(game, verb, x):
    """Does a verb with an object, or by itself if x is 0, by its only table if it has no other."""
    game.verb, game.names["x"] = verb, x
    rows = (WITH if x else ALONE).get(verb)
    if rows:
        rows.apply(game)
    else:
        rule("verb: one without rules")
        game.message(game.cave.defaults.get(verb, 0))
