"""Directed games by the rows of games.txt: small caves in which there is little but what a game is
about, and the lines of their logs.
"""

import re
from collections import namedtuple
from itertools import count, product

from database import NAMES, SECONDS
from generate import DIRECTIONS, FIXED, GO, MAGIC, TREASURES
from lines import text_of
from seeds import seeds_about
from verbs import ACTIONS

Directed = namedtuple("Directed", "name database bindings lines is_long")

OTHERS = [it for it in NAMES if it not in FIXED and it not in TREASURES]
NUMBERS = FIXED | dict(zip(OTHERS, count(1))) | dict(zip(TREASURES, count(50)))
# The parts of a cave that say something of their first words, and those that only list words.
OF_WORDS = {"homes": {}, "ways": {}, "bits": {}, "numbers": {},
            "bound": {"start": ["9"], "building": ["10"], "outside": ["1"], "deep": ["299"]}}
LISTS: dict[str, list] = {
    it: [] for it in "known rows dark hints classes lacks words welcome long".split()}
LISTS["places"] = [[it] for it in ("3", "9", "10", "16", "17", "18")]
MESSAGES = {1: "Question.", 2: "Hint."}
MOST_PROPS = 6  # of an object that have a text

class World:
    """A cave, by its parts as games.txt has them."""

    def __init__(self, parts):
        self.of = {it: dict(said) for it, said in OF_WORDS.items()}
        self.lists = dict(LISTS)
        for kind, said in (it.partition(" ")[::2] for it in parts):
            words = [it.split() for it in said.split(",") if it.strip()]
            if kind in self.of:
                self.of[kind] |= {first: more for first, *more in words}
            elif kind in LISTS:
                self.lists[kind] = words or [[kind]] * (kind == "long")
            else:
                raise ValueError(f"a cave has no part {kind}")
        lacks, known = ([it for it, in self.lists[kind]] for kind in ("lacks", "known"))
        own = {name: NUMBERS.get(it) or int(it) for name, (it,) in self.of["numbers"].items()}
        self.numbers = {it: at for it, at in (NUMBERS | own).items() if it not in lacks}
        self.known = {*known}
        self.places = sorted({int(it) for words in self.lists["places"] for it in words})

    def rows(self, kind):
        """The rows that a part lists."""
        return map(" ".join, self.lists[kind])

    def number(self, name):
        return self.numbers[SECONDS[name]] + 1 if name in SECONDS else self.numbers[name]

    def travel_rows(self):
        """The rows of the travel table: those that a game requires of a place come first."""
        yield from self.rows("rows")
        for place in self.places:
            to = self.of["ways"].get(str(place))
            for it in self.places if to is None else map(int, to):
                yield f"{place} {it} {GO + it % 1000}"

    def word_rows(self):
        yield from self.rows("words")
        yield from (f"{1000 + number} {name}" for name, number in self.numbers.items())
        yield from (f"{motion} {word}" for motion, word in DIRECTIONS.items())
        yield from (f"{GO + it} G{it}" for it in self.places)
        yield from (f"{2000 + number} {word}" for word, number in ACTIONS.items())
        yield "9 OVER"
        for number, word in enumerate(MAGIC, 1):
            yield f"{2000 + ACTIONS['FOO']} {word}"
            yield f"{3000 + number} {word}"

    def object_rows(self):
        """The texts of what is anywhere or known; a treasure that isn't known has none."""
        for name in sorted({*self.of["homes"], *self.known}):
            number = self.number(name)
            if number < 100 and (name in self.known or not 50 <= number <= 79):
                yield f"{number} {name}"
                yield from (f"{prop}00 {name} at {prop}." for prop in range(MOST_PROPS))

    def database(self):
        dark = {*self.rows("dark")}
        bits = {"0": [it for it in map(str, self.places) if it not in dark]} | self.of["bits"]
        sections = {
            1: [f"{it} Place {it}." for it in self.places],
            2: [f"{it} At {it}." for it in self.places],
            3: self.travel_rows(), 4: self.word_rows(), 5: self.object_rows(),
            6: [f"{it} {text}" for it, text in MESSAGES.items()],
            7: [" ".join([f"{self.number(it)}", *[*places, "0"][:2]])
                for it, places in self.of["homes"].items()],
            9: [" ".join([bit, *places]) for bit, places in bits.items()],
            10: [f"{it} Class {it}." for it in self.rows("classes")],
            11: [f"{it} 1 2" for it in self.rows("hints")]}
        rows = [it for section, rows in sections.items() for it in (section, *rows, -1)]
        return text_of([*rows, 0])

    def bindings(self):
        return text_of(f"{'num' if role == 'letters' else 'place'}.{role} {number}"
                       for role, (number,) in self.of["bound"].items() if number != "0")

# ---- Games

DRAWS = re.compile(r"\| draws (\d+) of (\d+)(?: after (\d+))?")

def filled(text, given):
    """A text with the values of variables in it, and with ranges of numbers written out."""
    text = re.sub(r"\{(.+?)\}", lambda it: str(eval(it[1], {}, given)), text)
    return re.sub(r"(\d+)\.\.(\d+)",
                  lambda it: " ".join(map(str, range(int(it[1]), int(it[2]) + 1))), text)

def parts_of(text, mark, names, given):
    """The parts of a text between marks, some of them several times, with names written out."""
    for part in map(str.strip, filled(text, given).split(mark)):
        word, _, times = part.partition(" * ")
        found = parts_of(names[word], mark, names, given) if word.isupper() else [word]
        yield from [it for it in found if it] * int(times or 1)

def game(row, names, given, where=""):
    """The game of a row, with a value for each of its variables."""
    name, _, rest = row.partition(": ")
    lines, cave, *_ = f"{rest}|".split("|")
    world = World(parts_of(cave, ";", names, given))
    welcome = [*world.rows("welcome"), "no"][0]
    return Directed(filled(name, given) + where, world.database(), world.bindings(),
                    [welcome, *parts_of(lines, ",", names, given)], bool(world.lists["long"]))

def games(rows, names):
    """The games of rows, some of which only give a name to lines, or to parts of a cave."""
    for row in rows:
        if defined := re.fullmatch(r"([A-Z_]+) = (.*)", row):
            names = names | {defined[1]: defined[2]}
            continue
        variables = dict(re.findall(r"\| ([a-z]+): ([^|]+)", row))
        values = ([int(it) if it.isdigit() else it for it in filled(of, {}).split()]
                  for of in variables.values())
        for given in (dict(zip(variables, it)) for it in product(*values)):
            if draws := DRAWS.search(filled(row, given)):
                seeds = seeds_about(*(int(it or 0) for it in draws.groups()))
                yield from (game(row, names | {"DRAW": f"seed {seed}"}, given, where)
                            for where, seed in zip(("-below", "-at"), seeds))
            else:
                yield game(row, names, given)
