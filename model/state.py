"""A game: its state, what is done to objects, what is asked of them, and what is said.

docs/PLAY.md, What a state keeps; docs/VERBS.md, Terms; docs/TURN.md, The score, Questions, Death.
"""

from copy import copy, deepcopy

import scores
from database import SILENT
from tables import TABLES

HANDS, NATURE = -1, -1  # where a first half is that is in the hands, and what holds a second half
DWARVES, PIRATE = range(5), 5
QUESTIONS = {"ScoreQuit": "score quit", "Die": "revive", "Take": "take hint"}

def asked_by(name):
    """A question that the pages call by this name, as a state keeps it."""
    return QUESTIONS.get(name, name.lower())

class Game:
    """A game in a cave. `out` is what the line that is played has said so far."""

    letters: dict = {}  # what the letters of tables stand for, except x and k

    def __init__(self, cave, seed):
        self.cave, self.out, self.turns = cave, [], 0
        self.names = {**cave.things, "x": 0, "k": 0}
        self.here = self.last = self.older = cave.place("start")
        self.where, self.held, self.prop = [0] * 101, [0] * 101, [0] * 101
        self.lists = {}  # for each place the halves there, latest first; -x is the second half of x
        self.visits = {}
        self.lamp, self.warned = 330, False
        self.clock1, self.clock2 = 30, 50
        self.closing = self.closed = self.panicked = False
        self.unseen, self.lost, self.deaths = len(cave.treasures), 0, 0
        self.half_verb = self.half_object = self.last_object = 0
        self.brief, self.details, self.magic = False, 0, 0
        self.dwarf_at = [cave.place(f"dwarf{it + 1}") or 0 for it in DWARVES]
        self.dwarf_at.append(cave.place("chest") or 0)
        self.dwarf_was, self.dwarf_saw = self.dwarf_at[:], [False] * 6
        self.anger, self.kills, self.knife = 0, 0, 0  # a knife at -1 has vanished
        self.waited, self.taken = {}, set()
        self.question, self.hint, self.ended = None, 0, None
        self.stream = seed % 1_048_576
        self.said = set()  # the texts of the cave that were said, for `cover`
        # What belongs to a line alone.
        self.was_dark, self.forced_left = False, 20
        self.word, self.verb, self.player_verb = "", 0, 0
        self.put_objects()
        self.first = deepcopy((self.where, self.held, self.prop, self.lists))
        self.open_question("Welcome")

    def put_objects(self):
        """Puts each object where it is as a game begins: first those with two places."""
        for treasure in self.cave.treasures:
            self.prop[treasure] = -1
        homes = self.cave.homes.items()
        for x, (first, second) in sorted(homes, key=lambda it: (it[1][1] > 0, it), reverse=True):
            self.anchor(x, second)
            self.move(x, first)

    def copy(self):
        """A copy that can be played apart from this game."""
        new = copy(self)
        vars(new).update((name, value.copy()) for name, value in vars(self).items()
                         if isinstance(value, (list, dict, set)))
        new.lists = {place: halves[:] for place, halves in self.lists.items()}
        return new

    # ---- Chance

    def draw(self, below):
        drawn = below * self.stream >> 20
        self.stream = (1093 * self.stream + 221_587) % 1_048_576
        return drawn

    def happens(self, percent):
        return self.draw(100) < percent

    # ---- What is done to objects. Object 0 is none, and nothing is done to it.

    def put_half(self, half, halves, place):
        """Puts a half to the front of a place's list; `halves` says where such halves are."""
        if half:
            if halves[abs(half)] > 0:
                self.lists[halves[abs(half)]].remove(half)
            halves[abs(half)] = place
            if place > 0:
                self.lists.setdefault(place, []).insert(0, half)

    def move(self, x, place):
        """Moves the first half of x; at place 0 it is away, and at -1 in the hands."""
        self.put_half(x, self.where, place)

    def anchor(self, x, place):
        """Moves the second half of x; at -1 only NATURE holds x, and at 0 nothing."""
        self.put_half(-x, self.held, place)

    def juggle(self, x):
        """Both halves of x come to the fronts of their lists, unless x is in the hands."""
        if x and not self.is_in_hands(x):
            self.move(x, self.where[x])
            self.anchor(x, self.held[x])

    def set_prop(self, x, prop):
        if x:
            self.prop[x] = prop

    def lose(self):
        """A treasure is lost."""
        self.lost = min(self.lost + 1, 60_000)

    def troll_leaves(self):
        troll, second = self.thing("TROLL"), self.thing("TROLL2")
        if troll:
            for x, places in (troll, (0, 0)), (second, self.home(troll)):
                self.move(x, places[0])
                self.anchor(x, places[1])
        self.juggle(self.thing("CHASM"))

    # ---- What is asked of objects

    def thing(self, name):
        """The object of a name; 0 for none."""
        return self.names[name]

    def is_thing(self, x, name):
        return x != 0 and x == self.names[name]

    def home(self, x):
        """The two places at which the cave puts an object."""
        return self.cave.homes.get(x, (0, 0))

    def liquid(self):
        """What is in the bottle: an object, 0 for one that the cave has no word for, or None."""
        bottle, liquids = self.thing("BOTTLE"), {0: self.thing("WATER"), 2: self.thing("OIL")}
        return liquids.get(self.prop[bottle]) if bottle else None

    def lake(self):
        """What the lake of this place is of, as `liquid` says it; None if there is no lake."""
        oil, lake = (self.cave.has(self.here, bit) for bit in (1, 2))
        return None if not lake else self.thing("OIL" if oil else "WATER")

    def is_in_hands(self, x):
        """Whether the first half of x is in the player's hands."""
        return x != 0 and self.where[x] == HANDS

    def is_carried(self, x):
        """Whether x is in the hands, or, for a liquid, in a bottle that is."""
        if x and x in (self.thing("WATER"), self.thing("OIL")):
            return self.is_in_hands(self.thing("BOTTLE")) and self.liquid() == x
        return self.is_in_hands(x)

    def is_here(self, x):
        return x != 0 and self.here in (self.where[x], self.held[x])

    def is_at_hand(self, x):
        return self.is_carried(x) or x != 0 and self.where[x] == self.here

    def in_hands(self):
        """The objects that are in the hands, ascending."""
        return [x for x in range(1, 101) if self.where[x] == HANDS]

    def dwarf_here(self):
        """The first of the five dwarves that is here, if they are awake; otherwise None."""
        awake = DWARVES if self.anger >= 2 else ()
        return next((it for it in awake if self.dwarf_at[it] == self.here), None)

    def is_dark(self):
        lamp = self.thing("LAMP")
        is_near = self.is_in_hands(lamp) or self.where[lamp] == self.here
        return not (self.cave.has(self.here, 0) or lamp and self.prop[lamp] == 1 and is_near)

    # ---- What is said

    def show(self, lines):
        """Prints a text of the cave, if there is one."""
        if lines and lines != SILENT:
            self.out += lines

    def say(self, role):
        number = self.cave.bound.get(f"msg.{role}")
        self.said.add(("role", role))
        if number is None:
            self.show([f"[{role}]"])
        else:
            self.message(number)

    def message(self, number):
        self.said.add(("message", number))
        self.show(self.cave.messages.get(number))

    def object_text(self, x, prop):
        self.said.add(("inventory text", x) if prop is None else ("object text", (x, prop)))
        self.show(self.cave.object_texts.get((x, prop)))

    # ---- Questions, deaths and ends

    def is_over(self):
        """Whether a question is open or the game has ended, so that nothing more is done."""
        return self.question is not None or self.ended is not None

    def asked(self):
        """The question that is open, or None."""
        asked = {"score quit": "score, quit"}.get(self.question, self.question)
        return f"{asked} {self.hint}" if asked in ("hint", "take hint") else asked

    def open_question(self, name):
        """The next line answers it."""
        self.question = asked_by(name)
        TABLES["asking"].apply(self)

    def light(self, turns):
        """The lamp burns this many turns more."""
        self.lamp = min(self.lamp + turns, 100_000)

    def die(self, lies_at):
        """A death; what is in the hands will lie at a place."""
        self.older = lies_at
        TABLES["death"].apply(self)

    def end(self, ending):
        """Ends the game, with the score, the class, and the way to the next one."""
        self.ended, self.question = ending, None
        score, classes = self.score(), self.cave.classes
        self.out.append(f"You scored {score} out of a possible {self.cave.greatest_score()}, using"
                        f" {self.turns} turn{'s' * (self.turns != 1)}.")
        at = self.cave.class_of(score)
        self.classes = [] if at is None else classes[at:]
        TABLES["classes"].apply(self)

    def tell_class(self):
        """Says the text of the player's class."""
        bound, text = self.classes[0]
        self.said.add(("class", bound))
        self.show([text])

    def tell_missing(self):
        more = self.classes[0][0] + 1 - self.score()
        self.out.append("To achieve the next higher rating, you need"
                        f" {more} more point{'s' * (more != 1)}.")

    def score(self):
        return scores.score(self)

    # ---- A state as a text

    def named(self, number, after=1000):
        """A number with the first word of it beside it, if the cave has one."""
        word = self.cave.first_words.get(after + number)
        return f"{number} {word}" if word else f"{number}"

    def state_lines(self):
        """The state, one fact a line (docs/PLAY.md, A state as a text)."""
        yes = ("no", "yes")
        yield from [
            f"turns {self.turns}", f"score {self.score()}", f"here {self.here}",
            f"last {self.last}", f"older {self.older}", f"question {self.asked() or 'none'}",
            f"ended {self.ended or 'no'}", f"lamp {self.lamp}", f"lamp warned {yes[self.warned]}",
            f"first clock {self.clock1}", f"second clock {self.clock2}",
            f"closing {yes[self.closing]}", f"closed {yes[self.closed]}",
            f"panic {yes[self.panicked]}", f"unseen treasures {self.unseen}",
            f"lost treasures {self.lost}", f"deaths {self.deaths}"]
        for x in range(1, 101):
            place, held, prop = now = self.where[x], self.held[x], self.prop[x]
            if now != tuple(part[x] for part in self.first[:3]):
                where = "away" if place == 0 else "carried" if place == HANDS else f"at {place}"
                by = ", fixed" if held == NATURE else f", also at {held}" if held else ""
                yield f"object {self.named(x)}: {where}{by}, prop {prop}"
        verb = self.named(self.half_verb, 2000)
        yield f"half verb {verb}" if self.half_verb else "half command none"
        yield from [f"half object {self.named(self.half_object)}",
                    f"last object {self.named(self.last_object)}",
                    f"brief {yes[self.brief]}", f"details {self.details}", f"magic {self.magic}"]
        for place in range(1, 301):
            if (halves := self.lists.get(place, [])) != self.first[3].get(place, []):
                shown = [("also " if it < 0 else "") + self.named(abs(it)) for it in halves]
                yield f"place {place}: {', '.join(shown) or 'nothing'}"
        yield from [f"anger {self.anger}", f"kills {self.kills}"]
        for it, (at, was, saw) in enumerate(zip(self.dwarf_at, self.dwarf_was, self.dwarf_saw), 1):
            yield f"dwarf {it}: at {at}, was at {was}, has seen the player {yes[saw]}"
        yield {0: "knife none", -1: "knife vanished"}.get(self.knife, f"knife at {self.knife}")
        for it in range(1, 21):
            if self.waited.get(it) or it in self.taken:
                yield f"hint {it}: waited {self.waited.get(it, 0)}, taken {yes[it in self.taken]}"
        yield f"stream {self.stream}"
        yield from (f"visits {it}: {count}" for it, count in sorted(self.visits.items()) if count)
