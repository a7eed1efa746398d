"""The order of a turn: lines, commands, questions, clocks, lamp and hints.

docs/PLAY.md, The rules and Commands; docs/TURN.md.
"""

import travel
import verbs
from lines import FIELD, fields_of, folded, seed_of
from state import asked_by
from tables import TABLES, phrases, tables
from travel import arrive

SAY, POUR = verbs.ACTIONS["SAY"], verbs.ACTIONS["POUR"]
KINDS = {"nothing": None, "a motion": 0, "an object": 1, "a special word": 3}

# ---- Lines

def play_line(game, line):
    """Plays a line of a log; `game.out` is then what it said."""
    game.out = []
    if not line.startswith("#") and FIELD.search(line):
        game.seed = seed_of(line)
        game.words = [folded(it, game.cave.letters) for it in fields_of(line)[:2]]
        TABLES["line"].apply(game)

def reply(game):
    """What the first word of a line answers."""
    return {"Y": "yes", "YES": "yes", "N": "no", "NO": "no"}.get(game.words[0][:5])

def a_command(game):
    """A turn."""
    game.question = None
    game.turns += 1
    game.magic = -game.magic if game.magic > 0 else 0
    game.was_dark, game.forced_left = game.is_dark(), travel.MOST_FORCED
    TABLES["knife left behind"].apply(game)
    if clocks_let_go_on(game):
        read_words(game)
    else:
        game.half_verb = game.half_object = game.last_object = 0
    end_turn(game)

def an_answer(game):
    """A line answers the question that is open, with its yes or no."""
    game.was_dark, game.forced_left = False, travel.MOST_FORCED
    asked = game.question
    TABLES["replies"].apply(game)
    if asked not in ("hint", "take hint"):
        end_turn(game)

# ---- Commands. While the words are read, `verb_so_far` and `x_so_far` are what they say with half
# a command that was kept, and `unfinished` is why some is kept then. `word` is the word that is
# read, and `after` the one after it, or None; `pours` is for words as WATER PLANT.

def read_words(game):
    """Reads one word or two, and keeps half a command or forgets it."""
    game.verb_so_far, game.x_so_far, game.unfinished = game.half_verb, game.half_object, ""
    game.word, game.after = (game.words + [None])[:2]
    game.pours = False
    TABLES["reading 1: line"].apply(game)
    TABLES["half commands"].apply(game)

def read(game, word, after=None, rows="reading 3: single word"):
    """Reads a word by what it means, or says it aloud."""
    is_pour = game.pours and word == "POUR"
    game.word, game.after = word, after
    game.kind, game.number = (2, POUR) if is_pour else game.cave.lexicon.get(word, (None, 0))
    TABLES[rows].apply(game)

def read_it(game):
    """An object is read if the ladder gives one, and then what follows it."""
    game.names["k"], game.meant = game.number, 0
    TABLES["word for an object"].apply(game)
    if game.meant:
        game.x_so_far = game.meant
        TABLES["an object"].apply(game)

def do_the_verb(game):
    game.player_verb = game.verb_so_far
    verbs.perform(game, game.verb_so_far, game.x_so_far)

def pour_the_first_word(game):
    game.pours = True
    game.after = "POUR"
    read_both(game)

def read_both(game):
    read(game, game.word, game.after, "reading 4: first word")

def draw_twice(game):
    game.unfinished = "has an unknown word"
    game.drawn = [game.happens(20), game.happens(20)]

def ask_for_a_verb(game):
    game.out.append(f"What do you want to do with the {game.word}?")
    game.unfinished = "asks for a verb"

# ---- Clocks and lamp

def clocks_let_go_on(game):
    """Clocks and lamp go on. Whether the words of the line are read then."""
    was_closed = game.closed
    TABLES["clocks"].apply(game)
    if game.closed == was_closed:
        TABLES["burning"].apply(game)
        TABLES["lamp"].apply(game)
    return game.closed == was_closed and game.ended is None

def first_clock_goes(game):
    is_deep = game.here >= game.cave.place("deep") and game.here != game.cave.place("y2")
    return game.unseen == 0 and is_deep and game.clock1 > 0

STORE = """BOTTLE ne -2, PLANT ne -1, OYSTER ne -1, LAMP ne -1, ROD ne -1, DWARF ne -1, GRATE sw -1,
    SNAKE sw -2, BIRD sw -2, CAGE sw -1, ROD2 sw -1, PILLOW sw -1, MIRROR ne -1"""

def move_all_to_the_repository(game):
    for name, role, prop in map(str.split, STORE.split(",")):
        game.move(game.thing(name), game.cave.place(role))
        game.set_prop(game.thing(name), int(prop))
    game.anchor(game.thing("MIRROR"), game.cave.place("sw"))
    game.here = game.last = game.cave.place("ne")
    for x in game.in_hands():
        game.move(x, 0)

# ---- Answers

def the_price(game):
    points = game.cave.hints[game.hint][1]
    game.out.append("I am prepared to give you a hint, but it will cost you"
                    f" {points} point{'s' * (points != 1)}.")

# ---- The end of a turn

def end_turn(game):
    if game.is_over():
        return
    TABLES["closed cave, carried"].apply(game)
    for game.clue in sorted(game.cave.hints):
        if game.clue >= 4 and game.clue not in game.taken:
            TABLES["hint turns"].apply(game)

def wait(game, turns):
    game.waited[game.clue] = min(turns, 10_000)

def offer_it(game):
    wait(game, 0)
    game.hint = game.clue
    game.open_question("Hint")

# ---- What rows say, and the rows, in the order of the pages

phrases({
    "it is a seed line": lambda game: game.seed is not None,
    "the game has ended": lambda game: game.ended is not None,
    "a question is open": lambda game: game.question is not None,
    "the question is ([A-Z]\\w+)": lambda game, name: game.question == asked_by(name),
    "it was ([A-Z]\\w+)": lambda game, name: game.answered == asked_by(name),
    "the answer is (yes|no)": lambda game, answer: reply(game) == answer,
    "a knife lies elsewhere": lambda game: game.knife > 0 and game.knife != game.here,
    "SAY was kept": lambda game: game.half_verb == SAY,
    "a word comes after": lambda game: game.after is not None,
    "the (first|second) word is ([A-Z ]+(?:or [A-Z]+)?)": lambda game, which, of:
        game.words[which == "second"][:5] in [it[:5] for it in of.split(" or ")],
    "that is here": lambda game: game.is_here(game.thing(game.words[1][:5])),
    "it means (nothing|a motion|an object|a special word)":
        lambda game, kind: game.kind == KINDS[kind],
    "it means action {N}": lambda game, action: (game.kind, game.number) == (2, action),
    "it means motion 62 or 65 or 71": lambda game: game.kind == 0 and game.number in (62, 65, 71),
    "the first happens": lambda game: game.drawn[0],
    "the second happens": lambda game: game.drawn[1],
    "a knife was thrown here": lambda game: game.knife == game.here,
    "the verb is FIND or INVENTORY": lambda game: game.verb_so_far in (19, 20),
    "{A} is here or carried": lambda game, x: game.is_here(x) or game.is_carried(x),
    "{A} is in {A} at hand or in the lake": lambda game, x, bottle:
        x == game.liquid() and game.is_at_hand(bottle) or x == game.lake(),
    "it (asks back|asks for a verb|has an unknown word)": lambda game, why: game.unfinished == why,
    "place {N} of {A} is one": lambda game, number, x: game.home(x)[number - 1] > 0,
    "{A} is at a place of {A}": lambda game, x, y: 0 < game.where[x] in game.home(y),
    "the first clock goes": first_clock_goes,
    "the second clock goes": lambda game: game.clock1 == -1 and game.clock2 >= 0,
    "the cave can be closed": lambda game:
        None not in (game.cave.place("ne"), game.cave.place("sw")),
    "the player is in the area of the hint": lambda game: game.cave.has(game.here, game.clue),
    "the hint was waited for": lambda game: game.waited.get(game.clue, 0) > 0,
    "the hint is due": lambda game: game.waited[game.clue] >= game.cave.hints[game.clue][0],
    "{A} is the last object": lambda game, x: x != 0 and game.last_object == x,
    "nothing is around": lambda game: not any(
        game.lists.get(it) for it in (game.here, game.last, game.older)),
    "two objects are in the hands": lambda game: len(game.in_hands()) >= 2,
}, {
    "chance goes on from it": lambda game: vars(game).update(stream=game.seed % 1_048_576),
    "close the question": lambda game: vars(game).update(answered=game.question, question=None),
    "ask whether it is wanted": lambda game: game.message(game.cave.hints[game.hint][2]),
    "the score so far": lambda game: game.out.append("If you were to quit now, you would score"
        f" {game.score()} out of a possible {game.cave.greatest_score()}."),
    "the prop of {A} is turned": lambda game, x: game.set_prop(x, -1 - game.prop[x]),
    "travel by it": lambda game: travel.travel(game, game.number),
    "read the word alone": lambda game: read(game, game.word),
    "read the next word alone": lambda game: read(game, game.after),
    "say the word aloud": lambda game: read(game, game.word, None, "word aloud"),
    "say the next word aloud": lambda game: read(game, game.after, None, "word aloud"),
    "it is the verb": lambda game: vars(game).update(verb_so_far=game.number),
    "do the verb by itself": lambda game: (vars(game).update(x_so_far=0), do_the_verb(game)),
    "its message": lambda game: game.message(game.number),
    "it means {A}": lambda game, x: vars(game).update(meant=x),
    "say that it is okay": lambda game: game.out.append(f'Okay, "{game.word}".'),
    "the dwarves are gone": lambda game: vars(game).update(dwarf_at=[0] * 6, dwarf_saw=[False] * 6),
    "{N} turns more": lambda game, more: game.light(more),
    "arrive at the start": lambda game: arrive(game, game.cave.place("start")),
    "count a death": lambda game: vars(game).update(deaths=game.deaths + 1),
    "the lair is half-way between the places of {A}":
        lambda game, x: vars(game).update(lair=sum(game.home(x)) // 2),
    "the lair is place {N} of {A}":
        lambda game, number, x: vars(game).update(lair=game.home(x)[number - 1]),
    "move {A} to the lair": lambda game, x: game.move(x, game.lair),
    "the player is put at {W}": lambda game, role:
        vars(game).update(here=game.cave.place(role), last=game.cave.place(role)),
    "move {A} to where the player died": lambda game, x: game.move(x, game.older),
    "the lamp has a turn less": lambda game: vars(game).update(lamp=max(game.lamp - 1, -1)),
    "the text of the hint": lambda game: game.message(game.cave.hints[game.hint][3]),
    "it is taken": lambda game: game.taken.add(game.hint),
    "30 turns more for each point": lambda game: game.light(30 * game.cave.hints[game.hint][1]),
    "wait anew": lambda game: wait(game, 0),
    "wait one turn more": lambda game: wait(game, game.waited.get(game.clue, 0) + 1),
})

tables("turn.txt", globals())
