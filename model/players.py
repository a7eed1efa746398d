"""Random logs for the duel, which reach every rule.

A log is made line by line: the line taken, among a few that fit the state, applies the rules that
applied least so far, as the model says. Everything comes from a random number generator, so a seed
gives the same case again.
"""

from collections import Counter

import tables
import turn
from generate import DIRECTIONS, MAGIC, TREASURES
from database import NAMES, SECONDS
from errands import (ERRANDS, GOALS, PLAIN_TREASURES, VERBS_OF, brought_home, parted, steps_of)
from seeds import border_seed, seed_before, seed_where
from state import Game
from verbs import ACTIONS

NEAR_DWARF = ["throw axe", "throw axe", "take axe", "feed dwarf", "find dwarf", "inventory dwarf",
              "knife", "kill dwarf", "dwarf", "back", "kill", "look", "look"]
CLOSED = ["blast", "blast", "take rod", "drop rod", "wake dwarf", "break mirror", "take bird",
          "drop bird", "kill bird", "kill dwarf", "take oyster", "read oyster", "read", "find lamp",
          "feed snake", "take bottle", "fill bottle", "pour", "look", "plover", "inventory snake"]
ALL_STAY = [(100, 95, 99), (5, 0, 4), (100, 50, 99), (5, 0, 4), (100, 50, 99)]
STAYS = "+@=~^*"  # steps that are done in more lines than one
MOST_WAITS = 90  # lines of a step that waits, or hunts
WHERE_DRAWN = [(100, it) for it in (5, 20, 25, 35, 50, 95)] + [(3, 1), (3, 2), (5, 1), (5, 4)]

class Player:
    """Makes a log, like a player who wants to see every rule."""

    def __init__(self, rng, cave, seed, counts, stage=()):
        self.rng, self.cave, self.counts = rng, cave, counts
        self.game, self.log, self.plan = Game(cave, seed), [], []
        self.kind, self.errand = parted(stage)
        self.words = {(kind, number): word for kind, number, word in reversed(cave.words)}
        self.names = {x: name for name, x in cave.things.items() if x}

    def often(self, chance):
        return self.rng.random() < chance

    def word_of(self, x):
        return self.words.get((1, x), "thing")

    def go(self, place):
        """The word of a motion that leads to a place from here, or another word."""
        rows = [row for row in self.cave.travel.get(self.game.here, []) if row[0] % 1000 == place]
        motions = [it for _, of in rows for it in of]
        return self.words.get((0, self.rng.choice(motions)), "walk") if motions else "back"

    def place_of(self, name):
        """Where an object is that isn't in the hands, or 0."""
        x = self.game.thing(name)
        places = [it for it in (self.game.where[x], self.game.held[x]) if it > 0] if x else []
        return 0 if self.game.is_in_hands(x) or not places else self.rng.choice(places)

    def place_for(self, step):
        """Where a step of an errand leads, or 0."""
        if step[0] in "+@":
            return self.place_of(step[1:])
        if step[0] == "=":
            return self.cave.place(step[1:]) or 0
        if step == "?":
            return self.rng.choice([it for it in self.cave.travel if it != self.game.here] or [0])
        wanted = {1, 2} if step == "~oil" else {2}
        return next((it for it, bits in self.cave.bits.items() if bits & {1, 2} == wanted), 0)

    def new_plan(self):
        """An errand, what brings about a row of a verb's table that seldom applied, or a round."""
        rng = self.rng
        errand = lambda: parted(rng.choice(ERRANDS))[1]
        goal = lambda: steps_of(min(rng.sample(GOALS, 8), key=lambda it: self.counts[it[0]]), rng)
        return rng.choice([
            errand, errand, goal, goal,
            lambda: [f"+{it}" for it in rng.sample(NAMES, 12)],
            lambda: [f"@{it}" for it in rng.sample(TREASURES, 5)],
            lambda: [step for it in rng.sample(TREASURES, 3) for step in brought_home(it)],
        ])()

    def planned(self):
        """The next line of the plan, if there is one."""
        if self.game.question:
            return None
        while self.plan:
            step, name, becomes = self.plan[0], self.plan[0][1:], []
            if step in SEEDS:
                return f"seed {SEEDS[step](self)}"
            if step == "$":
                becomes = brought_home(self.rng.choice(PLAIN_TREASURES))
            elif step[0] in UNTIL:
                if line := UNTIL[step[0]](self):
                    return line
            elif step[0] not in "+@=~?":
                return step
            elif (place := self.place_for(step)) not in (0, self.game.here):
                return self.go(place)
            elif step[0] == "+" and place:
                becomes = [f"take {SECONDS.get(name, name)}"]
            self.plan[:1] = becomes
        return None

    def wait(self):
        """What lets time pass until the cave closes, or is closed; None if no clock runs."""
        game = self.game
        if self.plan[0] == "^":
            self.plan[0] = "^closed" if game.closing else "^closing"
        is_deep = game.here >= game.cave.place("deep") and game.here != game.cave.place("y2")
        goes_on = game.clock2 > 0 if game.closing else game.unseen == 0 and is_deep
        is_done = game.closed or game.closing and self.plan[0] == "^closing"
        return "nothing" if goes_on and not is_done else None

    def hunt(self):
        """What throws the axe at a dwarf, as long as there are some; None after a while."""
        game, axe = self.game, self.game.thing("AXE")
        dwarves = [it for it in game.dwarf_at[:5] if it]
        if game.anger < 2 or not axe or not dwarves or self.often(0.03):
            return None
        if game.is_in_hands(axe):
            is_near = game.dwarf_here() is not None
            return "throw axe" if is_near else self.rng.choice(["look", self.go(dwarves[0])])
        if game.is_here(axe):
            return "take axe"
        return self.go(game.where[axe]) if game.where[axe] else None

    def candidate(self):
        """A line that fits the state, more or less."""
        rng, game = self.rng, self.game
        if game.question:
            stays = {"revive": "yes", "quit": "no", "score quit": "no"}.get(game.question)
            return stays if stays and self.often(0.8) else rng.choice(
                ["y", "YES", "yes", "n", "No", "no", "y", "n", "maybe", "yes please"])
        if game.closed and self.often(0.4):
            return rng.choice(CLOSED)
        if game.anger == 1 and self.often(0.2):
            return f"seed {seed_before(rng.randrange(1_000_000, 1 << 20), rng.randrange(2))}"
        if game.anger > 2 and any(game.dwarf_saw[:5]) and self.often(0.25):
            return self.border_line("look")
        if game.is_dark() and self.often(0.15):
            return self.border_line()
        if game.dwarf_here() is not None and self.often(0.4):
            return rng.choice(NEAR_DWARF)
        here, hands = [abs(it) for it in game.lists.get(game.here, [])], game.in_hands()
        near, done = here + hands + hands, abs(game.magic)
        x = rng.choice(near) if near and self.often(0.8) else rng.randrange(1, 101)
        noun = self.word_of(x) if self.often(0.9) else rng.choice(NAMES)
        of_noun = VERBS_OF.get(self.names.get(x)) or [*ACTIONS]
        verb = rng.choice([*ACTIONS, "UNLOCK", "CLOSE"] if self.often(0.4) else of_noun)
        return rng.choice([
            *[lambda: f"{verb} {noun}"] * 3,
            lambda: f"take {self.word_of(rng.choice(here)) if here else noun}",
            lambda: f"drop {self.word_of(rng.choice(hands)) if hands else noun}",
            lambda: verb, lambda: noun, lambda: f"{noun} {verb}",
            *[lambda: self.go(rng.choice([*self.cave.travel] or [1]))] * 2,
            lambda: rng.choice([*DIRECTIONS.values(), "OVER", "CLIMB"]), self.odd_line,
            lambda: MAGIC[done] if done < 4 and self.often(0.8) else rng.choice(MAGIC),
            self.border_line,
        ])()

    def border_line(self, step="?"):
        """A seed line for a border that is near, after which the player mostly takes a step."""
        rng, game = self.rng, self.game
        borders = [rng.choice(WHERE_DRAWN)]
        rows = [target // 1000 for target, _ in game.cave.travel.get(game.here, [])]
        borders += [(100, it) for it in rng.sample(rows, min(len(rows), 1)) if 0 < it < 100]
        borders += [(100, 35)] * 3 if game.is_dark() else []
        borders += [(1000, 95 * (game.anger - 2))] * 3 if game.anger > 2 else []
        if self.often(0.8):
            self.plan.insert(0, step)
        return f"seed {border_seed(rng, *rng.choice(borders))}"

    def seed_for(self, line):
        """A seed by which a draw of a line falls on a border or just below it, if one is found."""
        below, border = (1000, 95 * (self.game.anger - 2)) if self.game.anger > 2 else (100, 35)
        for _ in range(16):
            game, seed, drawn = self.game.copy(), border_seed(self.rng, below, border), []
            game.stream = seed % (1 << 20)
            game.draw = lambda of: drawn.append((of, Game.draw(game, of))) or drawn[-1][1]
            turn.play_line(game, line)
            if {(below, border), (below, border - 1)} & {*drawn}:
                break
        return seed

    def odd_line(self):
        rng = self.rng
        return rng.choice([
            "say", f"say {rng.choice([*MAGIC, 'xyzzy', 'plugh', 'plover', 'lamp', 'qwerty'])}",
            "enter water", "enter stream", f"enter {rng.choice(['in', 'lamp', 'qwerty', 'take'])}",
            "water plant", "oil plant", "water door", "oil door", "qwerty", "qwerty lamp", "help",
            "magic", "knife", "grate", "dwarf", "plant", "rod", "water", "# a comment", "", " \t",
            f"seed {rng.randrange(1 << 31)}", "seed  7", "take all", "find water", "inventory oil",
            "inventory", "look", "score", "quit", "brief", "back", "back", "blast", "wake dwarf",
            "break mirror", "feed dwarf", "take qwerty", "throw axe", "kill", "fill bottle",
            "attack"])

    def play(self, line):
        """Plays a line on a copy, and gives that with the rules that applied."""
        game, kept, tables.applied = self.game.copy(), tables.applied, Counter()
        try:
            turn.play_line(game, line)
            return game, tables.applied
        finally:
            tables.applied = kept

    def step(self, tries):
        """Adds to the log the line, among a few, that applies the rarest rules, or that of a
        plan."""
        planned, tried = self.planned(), []
        follows = planned and self.often(0.9)
        lines = [planned] if follows else [self.candidate() for _ in range(tries)]
        for line in dict.fromkeys(lines):
            game, applied = self.play(line)
            rarity = sum(1 / (1 + self.counts[it]) for it in applied)
            rarity -= 0.5 * (game.ended is not None and self.game.ended is None and not game.closed)
            tried.append((rarity, line, game, applied))
        _, line, self.game, applied = max(tried, key=lambda it: it[0])
        self.log.append(self.dressed(line))
        self.counts.update(applied.keys())
        if line == planned:
            if self.plan[0][0] not in STAYS:
                self.plan.pop(0)
            elif self.often(0.15):
                self.plan = []
        elif not self.plan and self.often(0.6):
            self.plan = self.new_plan()

    def dressed(self, line):
        """A line as people write it: in small letters, with blanks, and with a word too many."""
        if line.startswith(("#", "seed")) or not line.strip():
            return line
        line = line.lower() if self.often(0.7) else line
        if self.often(0.05):
            line = line.replace(" ", self.rng.choice(["\t", "  "])) + self.rng.choice([" ", " now"])
        return line

    def add(self, line):
        """Adds a line to the log as it is; a question that is open is answered first."""
        while self.game.question and self.game.question != "dragon":
            self.put("yes" if self.game.question == "revive" else "no")
        self.put(line)

    def put(self, line):
        self.game, applied = self.play(line)
        self.counts.update(applied.keys())
        self.log.append(line)

    def idle(self, turns):
        """Lets the clocks or the lamp run down."""
        word = self.rng.choice(["nothing", "nothing", "qwerty", "inventory", "on"])
        for _ in range(turns):
            if not self.game.ended:
                self.add(word)

    def steps(self, most, tries):
        for _ in range(most):
            if self.game.ended:
                self.step(1)
                return
            self.step(tries)

    def make(self):
        """The log. Some players wait until the cave closes, or until the lamp is low."""
        rng, tries = self.rng, self.rng.choice([1, 3, 5])
        kind = rng.random()
        if self.errand:
            self.act()
        elif kind < 0.08:
            self.burn_lamp()
        self.steps(rng.choice([5, 30, 60, 100, 160, 300]), tries)
        if self.game.unseen == 0 and kind > 0.3:
            self.idle(self.game.clock1)
            self.steps(rng.choice([0, 15]), tries)
            if self.game.closing and not self.game.closed and kind > 0.4:
                self.idle(self.game.clock2 + 1)
                self.steps(40, 5)
        return self.log

    def act(self):
        """Does the errand of the stage, once the clocks are where it needs them."""
        self.add("no" if self.kind == "lamp" else self.rng.choice(["no", "no", "yes"]))
        if self.kind == "lamp":
            self.burn_lamp()
        if self.kind == "bear":
            self.follow(self.errand)
        if self.kind in ("closing", "closed", "bear"):
            self.idle(self.game.clock1)
        if self.kind == "closed" and self.game.closing:
            self.idle(self.game.clock2)
        self.follow(self.errand)

    def follow(self, errand):
        """Does the steps of an errand and nothing else, as far as there is a way."""
        self.plan = [*errand]
        for _ in range(3 * len(errand) + MOST_WAITS * len({*"^*"} & {*errand})):
            if self.game.ended:
                return
            if question := self.game.question:
                answers = self.plan[:1] in (["yes"], ["no"], ["y"])
                self.put(self.plan.pop(0) if answers else
                         "yes" if question in ("revive", "dragon") else "no")
            elif line := self.planned():
                if self.plan[0][0] not in STAYS:
                    self.plan.pop(0)
                self.put(line.lower())
            else:
                return

    def burn_lamp(self):
        """Takes the lamp, at times the batteries too, lights it, and waits until it is nearly low,
        or nearly out."""
        lamp = self.game.thing("LAMP")
        drinks = self.game.thing("BATTERIES") == self.game.thing("BOTTLE") != 0
        if self.game.question:
            self.add("no")
        for name in ["BATTERIES", "LAMP"] if self.often(0.6) else ["LAMP"]:
            if self.place_of(name) not in (0, self.game.here):
                self.add(self.go(self.place_of(name)))
            self.add(f"take {name}")
        for line in (["take bottle", "drink"] if drinks else []) + ["on"]:
            self.add(line)
        if self.kind == "lamp" and self.often(0.3):
            self.add("drop lamp")
            self.add(self.go(self.rng.choice([*self.cave.travel] or [1])))
        if lamp and self.game.prop[lamp] == 1:
            least = [0, 1, 25, 31] if self.kind == "lamp" else [1, 2, 25, 31, 32]
            self.idle(min(self.game.lamp, 340) - self.rng.choice(least))

# Steps that are done until there is nothing to do, and those that are a seed line.
UNTIL = {"^": Player.wait, "*": Player.hunt}
SEEDS = {
    "!": lambda player: player.rng.randrange(1_000_000, 1 << 20),
    "!!": lambda player: seed_where(*ALL_STAY, after=player.rng.randrange(1 << 20)),
    "%": lambda player: player.seed_for(player.plan[1]),
}
