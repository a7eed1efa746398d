"""Databases and bindings, with their faults (docs/DATABASE.md)."""

from collections import namedtuple
from itertools import groupby

from lines import (FIELD, LINE_LENGTH, MARKS, Fault, fields_of, folded, is_blank, is_near,
                   lines_of, number_of)

PLACE, MESSAGE = (1, 300), (1, 499)
LONGEST_LIST = 40

# For each section: the parts of a row, the ranges of its numbers, how many of them it has to have
# (before its list, if it has one), what is expected, what its ranges are, and its limits. The kinds
# of rows: a number and a text; a number and a word; numbers; numbers with a list after them.
Section = namedtuple("Section", "kind ranges fewest expects within limit limits")
TEXT, NUMBERS = "a line of text has at most 255 bytes", "of them numbers of 1 to 9 digits"
OF_PLACE = f"a place is from 1 to 300, and {TEXT}"
OF_MESSAGE = f"a message is from 1 to 499, and {TEXT}"
SECTIONS = {number: Section(*of) for number, *of in [
    (1, "text", [PLACE], 1, "a place and a line of its long text", OF_PLACE, None, ""),
    (2, "text", [PLACE], 1, "a place and a line of its short text", OF_PLACE, None, ""),
    (3, "list", [PLACE, (0, 999_999), (1, 999)], 2,
     f"a place, a target and at least one motion, all {NUMBERS}",
     "a place is from 1 to 300, a target from 0 to 999999, and a motion from 1 to 999",
     2000, "section 3 has at most 2,000 rows, and a row at most 40 motions"),
    (4, "word", [(1, 999), (1001, 1100), (2001, 2099), (3001, 3499)], 1,
     "a number of 1 to 9 digits and a word",
     "a word's number is from 1 to 999, from 1001 to 1100, from 2001 to 2099 or from 3001 to 3499",
     1000, "section 4 has at most 1,000 rows"),
    (5, "text", [(1, 99)], 1,
     "the number of an object, or a hundred times a prop, and a line of its text",
     "an object is from 1 to 99, a prop's line is one of 0, 100, 200 to 9900 after an object's, and"
     f" {TEXT}", None, ""),
    (6, "text", [MESSAGE], 1, "a message and a line of its text", OF_MESSAGE, None, ""),
    (7, "numbers", [(1, 100), (0, 300), (-1, 300)], 1,
     f"an object and at most two places of it, all {NUMBERS}",
     "an object is from 1 to 100, its first place from 0 to 300, and its second from -1 to 300",
     None, ""),
    (8, "numbers", [(1, 99), (0, 499)], 2, f"an action and a message, both {NUMBERS}",
     "an action is from 1 to 99, and its message from 0 to 499", None, ""),
    (9, "list", [(0, 20), PLACE], 1, f"a bit and the places that have it, all {NUMBERS}",
     "a bit is from 0 to 20, and a place from 1 to 300",
     None, "a row of section 9 has at most 40 places"),
    (10, "text", [(0, 9999)], 1, "the greatest score of a class and its text",
     "a score is from 0 to 9999, and a text has at most 255 bytes",
     50, "section 10 has at most 50 rows"),
    (11, "numbers", [(1, 20), (0, 9999), (0, 100), (0, 499), (0, 499)], 5,
     f"a hint, its turns, its points, its question and its text, all {NUMBERS}",
     "a hint is from 1 to 20, its turns from 0 to 9999, its points from 0 to 100, and its messages"
     " from 0 to 499", None, ""),
    (12, "text", [MESSAGE], 1, "a message and a line of its text", OF_MESSAGE, None, ""),
]}
CAUSES = ["a number or a word is missing: section {0} expects {1.expects}, or -1 at its end",
          "a number or a text is out of its range: {1.within}", "too many rows: {1.limits}"]

ROLES = """
    answer around axe-bear axe-dragon axe-first axe-kill axe-miss axe-thrown axe-troll back-no
    back-none bear-bars bear-chained bear-fed bear-fight bear-follows bear-friend bird-dead
    bird-dragon bird-eaten bird-feed bird-no bird-rod bird-snake blocked booty bottle-full
    bridge-falls brief cant-pour cave-in cave-out chain-free chain-lock chain-locked chest-hid
    clam-held clam-tool closing closing-exit crawl dark dead-already die1 die2 die3 disturbed
    door-oiled door-wet drunk dwarf-feed dwarf-one eaten empty enough facing feed-what feet-wet
    filled-oil filled-water foo-order forced-limit give-up held-it here-it hint-take hit-many
    hit-one holding hollow immovable inout instructions keys-what killed-closing klutz knife
    knife-one lamp-dead lamp-low lamp-low-find lamp-low-used lamp-off lamp-on lock-what locked
    magic mirror-break mirror-no miss-all miss-one no-appetite no-bottle no-cage no-dir no-keys
    no-lake no-latch no-lock no-lock-here no-motion no-way no-word no-word-2 no-word-3
    none-to-kill not-held not-hungry off-scale ok oyster-ask oyster-held oyster-hint oyster-open
    oyster-tool pearl pit plant-oil plant-roots pour-ground quit read-magazine read-message
    read-oyster read-tablet reborn1 reborn2 reborn3 replaced repository ridiculous rub-odd
    rustle rusty score-quit shell snake-no success too-much too-tight top-class troll-feed
    troll-flees troll-no troll-paid unlocked vase-break vase-dry vase-smash wake-dwarf
    was-locked was-unlocked welcome where with-what wrong-way""".split()
PLACES = """
    start building outside deep alcove plover y2 chest message dwarfalt dwarf1 dwarf2 dwarf3
    dwarf4 dwarf5 culdesac witt ne sw""".split()
USUAL = {"place.start": 1, "place.building": 3, "place.outside": 8, "place.deep": 15,
         "num.letters": 5}
KEYS = [f"msg.{it}" for it in ROLES] + [f"place.{it}" for it in PLACES] + ["num.letters"]
FAMILIES = {"msg.": MESSAGE, "place.": PLACE}

NAMES = """
    KEYS LAMP GRATE CAGE ROD STEPS BIRD DOOR PILLOW SNAKE FISSURE TABLET CLAM OYSTER MAGAZINE DWARF
    KNIFE FOOD BOTTLE WATER OIL MIRROR PLANT AXE DRAGON CHASM TROLL BEAR MESSAGE VENDING BATTERIES
    GOLD COINS CHEST EGGS TRIDENT VASE EMERALD PYRAMID PEARL RUG SPICES CHAIN""".split()
SECONDS = {"ROD2": "ROD", "PLANT2": "PLANT", "TROLL2": "TROLL"}
SILENT = [">$<"]  # a text that prints nothing

def is_within(number, bounds):
    return bounds[0] <= number <= bounds[1]

def row_of(line, at, section, rows):
    """The row that a line of a section says; `rows` are those before it."""
    kind, ranges, fewest, *_, limit, _ = SECTIONS[section]
    fields, text, listed = fields_of(line), line[FIELD.search(line).end() + 1:], []
    numbers = [number_of(it) for it in fields]
    first, heads = numbers[0], numbers[:fewest if kind == "list" else len(ranges)]
    if kind == "text":
        row, is_there = (first, text), first is not None
        is_prop = is_there and section == 5 and rows and first % 100 == 0 and 0 <= first <= 9900
        fits = is_there and (is_prop or is_within(first, ranges[0])) and len(text) <= LINE_LENGTH
    elif kind == "word":
        row, is_there = (first, *fields[1:2]), first is not None and len(fields) > 1
        fits = is_there and any(is_within(first, it) for it in ranges)
    else:
        listed = numbers[fewest:] if kind == "list" else []
        listed = listed[:listed.index(0)] if 0 in listed else listed
        row = [*heads, listed] if kind == "list" else heads
        is_there = len(heads) >= fewest and None not in heads + listed and (listed or section != 3)
        fits = is_there and all(map(is_within, heads, ranges)) and all(
            is_within(it, ranges[-1]) for it in listed)
    is_short = len(listed) <= LONGEST_LIST and len(rows) != limit
    for holds, cause in zip((is_there, fits, is_short), CAUSES):
        if not holds:
            raise Fault(at, cause.format(section, SECTIONS[section]))
    return row

def numbered_rows(text):
    """Each row of a database with its line and its section, up to its first fault."""
    sections, section, at = {it: [] for it in SECTIONS}, 0, 0
    for at, line in enumerate(lines_of(text), 1):
        if not (first := FIELD.search(line)):
            continue
        value = number_of(first[0])
        if section and value != -1:
            sections[section].append(row_of(line, at, section, sections[section]))
            yield at, section, sections[section][-1]
        elif section:
            section = 0
        elif value == 0:
            return
        elif value in SECTIONS:
            section = value
        else:
            raise Fault(at, "not a section number: expected the number of a section, 1 to 12, or 0"
                            " at the end of the database")
    ends = f"section {section} has to end with -1, and the database with 0"
    says = ends if section else "its last line has to be 0"
    raise Fault(at + 1, f"the database has no end: {says}")

def sections_of(text):
    """The rows of each section of a database, or its first fault."""
    sections = {it: [] for it in SECTIONS}
    for _, section, row in numbered_rows(text):
        sections[section].append(row)
    return sections

def last_runs(rows):
    """The lines of the last run of each key: adjacent rows of a key are one run."""
    return {key: [line for _, line in run] for key, run in groupby(rows, lambda row: row[0])}

def keyed_by_object(rows):
    """The rows of section 5, each with its object, and with its prop or None."""
    owner = 0
    for number, line in rows:
        is_prop = number % 100 == 0
        owner = owner if is_prop else number
        yield (owner, number // 100 if is_prop else None), line

def with_mark(judge, text):
    """What a judge says about a text whose first line a byte order mark may spoil."""
    try:
        return judge(text)
    except Fault as fault:
        cause = fault.message.split(": ")[0]
        if fault.line == 1 and text.startswith(MARKS):
            more = "the file begins with a byte order mark: save it without one"
        elif fault.line == 1 and cause == "not a section number" and (
                text.strip(" \t")[0] not in "0123456789-"):
            more = ("expected the number of a section, 1 to 12; if this is a log, CAVE comes before"
                    " it")
        else:
            raise
        raise Fault(1, f"{cause}: {more}") from None

def bindings_of(text):
    """What a text binds, or its first fault."""
    bound = {}
    for at, line in enumerate(lines_of(text), 1):
        if is_blank(line):
            continue
        key, number = (fields_of(line) + [""])[:2]
        if len(fields_of(line)) != 2 or number.startswith("-") or number_of(number) is None:
            raise Fault(at, "not a binding: expected two fields, `msg.NAME N`, `place.NAME N`"
                            " or `num.letters N`, with N of 1 to 9 digits")
        family = (5, 8) if key == "num.letters" else FAMILIES.get(key[:key.find(".") + 1])
        if family and not is_within(int(number), family):
            raise Fault(at, "the number of a binding is out of its range: in `msg.NAME N` it is"
                            " from 1 to 499, in `place.NAME N` from 1 to 300, in `num.letters N`"
                            " from 5 to 8")
        if key in bound:
            raise Fault(at, "the key was bound before: delete one of the two lines")
        if key not in KEYS:
            near = [it for it in KEYS if is_near(key, it)]
            clue = (f"did you mean {near[0]}?" if len(near) == 1 else
                    "expected `msg.` or `place.` with a name that the game knows, or `num.letters`")
            raise Fault(at, f"the key is not known: {clue}")
        bound[key] = int(number)
    return bound

def first_line(text):
    """The first line of a text, if there is one that prints something."""
    return "" if text in (None, SILENT) else text[0]

class Cave:
    """A database read together with its bindings. A text is the list of its lines."""

    def __init__(self, sections, bound):
        self.bound = {**USUAL, **bound}
        self.letters = self.bound["num.letters"]
        self.long, self.short = last_runs(sections[1]), last_runs(sections[2])
        self.messages = last_runs(sections[6])
        self.object_texts = last_runs(keyed_by_object(sections[5]))
        self.travel = {}
        for place, target, motions in sections[3]:
            self.travel.setdefault(place, []).append((target, motions))
        self.word_rows = sections[4]
        self.words = [(it // 1000, it % 1000, folded(word, self.letters))
                      for it, word in sections[4]]
        self.first_words = dict(reversed(sections[4]))
        self.homes = {row[0]: (*row[1:], 0, 0)[:2] for row in sections[7]}
        self.defaults = dict(sections[8])
        self.bits = {}
        for bit, places in sections[9]:
            for place in places:
                self.bits.setdefault(place, set()).add(bit)
        self.classes = sections[10]
        self.hints = {row[0]: row[1:] for row in sections[11]}
        # The first row of a word counts.
        self.lexicon = {word: (kind, it) for kind, it, word in reversed(self.words)}
        self.specials = {word: it for kind, it, word in reversed(self.words) if kind == 3}
        things = {word[:5]: it for kind, it, word in reversed(self.words) if kind == 1}
        self.things = {name: things.get(name[:5], 0) for name in NAMES}
        for second, name in SECONDS.items():  # one number after that of the name
            self.things[second] = self.things[name] + 1 if 0 < self.things[name] < 100 else 0
        for liquid in ("WATER", "OIL"):
            if self.things[liquid] == self.things["BOTTLE"]:
                self.things[liquid] = 0
        self.treasures = [it for it in range(50, 80) if (it, None) in self.object_texts]

    def place(self, role):
        """The place of a role; None if it isn't bound."""
        return self.bound.get(f"place.{role}")

    def has(self, place, bit):
        return bit in self.bits.get(place, ())

    def is_forced(self, place):
        """Whether motion is forced at a place: its first row begins with motion 1."""
        rows = self.travel.get(place)
        return bool(rows) and rows[0][1][0] == 1

    def class_of(self, score):
        """The place of a score's class among the classes, or None."""
        return next((at for at, (bound, _) in enumerate(self.classes) if bound >= score), None)

    def worth(self, treasure):
        chest = self.things["CHEST"]
        return 12 if not chest or treasure < chest else 14 if treasure == chest else 16

    def greatest_score(self):
        return 132 + sum(map(self.worth, self.treasures))
