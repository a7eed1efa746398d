"""Random caves for the duel. Everything comes from a random number generator."""

from database import NAMES, PLACES, ROLES, SECONDS
from errands import parted
from lines import text_of
from verbs import ACTIONS

DIRECTIONS = {2: "ROAD", 7: "FORWARD", 8: "BACK", 11: "OUT", 17: "CRAWL", 19: "IN", 21: "NULL",
              29: "UP", 30: "DOWN", 36: "LEFT", 37: "RIGHT", 43: "EAST", 44: "WEST", 45: "NORTH",
              46: "SOUTH", 57: "LOOK", 62: "XYZZY", 63: "DEPRESSION", 64: "ENTRANCE", 65: "PLUGH",
              67: "CAVE", 71: "PLOVER"}
MAGIC = ["FEE", "FIE", "FOE", "FUM"]
TWO_PLACES = "GRATE STEPS DOOR FISSURE DRAGON CHASM TROLL MIRROR PLANT".split()
STUCK = "SNAKE BEAR CHAIN TABLET VENDING MESSAGE RUG PLANT DWARF".split()
MAY_BE_LIQUID = "LAMP BIRD BEAR OYSTER PILLOW".split()  # rules ask whether it is in the hands
TREASURES = "GOLD COINS CHEST EGGS TRIDENT VASE EMERALD PYRAMID PEARL RUG SPICES CHAIN".split()
FIXED = {"ROD": 41, "PLANT": 43, "TROLL": 45}  # the numbers of those that have a second one
GO = 200  # the first of the motions that lead anywhere

class Maker:
    """Makes a cave: the rows of its sections, as lines. What the errand of a stage names is mostly
    where the player begins, so that the rows that it is for are reached."""

    def __init__(self, rng, stage=()):
        self.rng = rng
        self.rows = {it: [] for it in range(1, 13)}
        kind, self.errand = parted(stage)
        self.kind = kind if stage else None
        named = {it.lstrip("+@").upper() for step in self.errand for it in step.split()
                 if " " in step or step[0] in "+@"}
        away = {"PLANT2"} | ({"ROD"} if "+ROD2" in self.errand else set())
        self.staged = named & {*NAMES, *SECONDS} - away
        self.staged |= {"lamp": {"LAMP"}, "dwarves": {"AXE"}, "full": {"ROD"}}.get(self.kind, set())
        self.staged |= {"BATTERIES"} if self.kind == "lamp" and self.often(0.6) else set()
        count = rng.choice([2, 3, 4, 5, 6, 7, 9, 12])
        # No treasure is known, so that the cave soon closes.
        self.is_hasty = self.kind in ("closing", "closed", "bear") or (
            self.often(0.2) and self.kind not in ("pirate", "full"))
        lacks = {1} if self.often(0.2) else set()
        places = {1, 3, *rng.sample(range(1, 70), count)} - lacks
        if self.often(0.5):
            places |= {*rng.sample([4, 7, 10, 12, 14, 15, 20], 2)}
        self.places = sorted(places)
        self.start = rng.choice([it for it in self.places if it > 1] or self.places)
        for make in (self.number_objects, self.add_texts, self.add_words, self.add_homes,
                     self.add_ways, self.add_rest):
            make()

    def often(self, chance):
        return self.rng.random() < chance

    def place(self):
        return self.rng.choice(self.places)

    def number_objects(self):
        """A number for each name; most treasures are from 50 to 79, and some names have none."""
        rng, self.of = self.rng, {}
        low, high, rich = (rng.sample(it, len(it))
                           for it in (range(1, 25), range(25, 40), range(50, 80)))
        lacks = rng.choice([0, 0, 0.03, 0.1])
        for name in NAMES:
            if self.often(lacks) and name not in self.staged:
                continue
            if name in FIXED:
                self.of[name] = FIXED[name]
            elif self.often(0.97 if name in TREASURES else 0.3 if name == "STEPS" else 0):
                self.of[name] = rich.pop()
            else:
                self.of[name] = (low or high).pop()
        if self.often(0.03) and "TROLL" in self.of:
            self.of["TROLL"] = 100
        self.share_numbers()
        self.objects = sorted({*self.of.values(), 42, 44, 46})

    def share_numbers(self):
        """Now and then two names have one number, liquids and what the cage holds above all."""
        liquids = ("WATER", "OIL")
        pairs = [(0.06, liquids, ("BOTTLE", *liquids)), (0.1, liquids, MAY_BE_LIQUID),
                 (0.04, MAY_BE_LIQUID, MAY_BE_LIQUID), (0.08, NAMES, NAMES),
                 (0.08, ("DRAGON",), ("AXE",)),
                 (0.3 if self.kind == "lamp" else 0.08, ("BATTERIES",), ("BOTTLE",))]
        for chance, some, others in pairs:
            one, other = self.rng.choice(some), self.rng.choice(others)
            if self.often(chance) and {one, other} <= self.of.keys():
                self.of[one] = self.of[other]

    def add_texts(self):
        rng, rows = self.rng, self.rows
        for place in self.places:
            if not self.often(0.08):
                rows[1].append(f"{place} This is place {place}.")
                rows[1] += [f"{place} More of it."] * self.often(0.1)
            if self.often(0.5):
                rows[2].append(f"{place} " + rng.choice([*[f"At {place}."] * 2, ">$<", ""]))
        known, few = self.known_treasures()
        for x in self.objects:
            if x not in known and (50 <= x and not self.often(few) or self.often(0.05)):
                continue
            rows[5].append(f"{x} " + rng.choice([f"Thing {x}", f"Thing {x}", ">$<"]))
            for prop in range(rng.choice([1, 2, 4, 7])):
                if not self.often(0.1):
                    rows[5].append(f"{prop * 100:03} Thing {x} at {prop}.")
        self.messages = sorted(rng.sample(range(1, 500), 40))
        for it in self.messages:
            rows[6] += [f"{it} Message {it}."] + [f"{it} More of {it}."] * self.often(0.1)

    def known_treasures(self):
        """The objects that have a name however seldom others have one, and how often these have."""
        rng, chest = self.rng, {self.of.get("CHEST")}
        few = rng.choice([0.1, 0.2, 0.5, 0.8, 1])
        if self.is_hasty:
            return set(), 0
        if self.kind == "pirate":
            return chest, few if "GOLD" in self.staged else 0
        if self.kind == "full":
            return {self.of.get(name) for name in self.staged}, 0
        staged = {self.of.get(name) for name in sorted(self.staged) if self.often(0.7)}
        return staged | (chest if self.often(0.5) else set()), few

    def message(self):
        return self.rng.randrange(1, 500) if self.often(0.06) else self.rng.choice(self.messages)

    def add_words(self):
        rng, lacks = self.rng, self.rng.choice([0, 0, 0.1])
        rows = [(1000 + x, name) for name, x in self.of.items()]
        rows += DIRECTIONS.items()
        rows += [(GO + it, f"GO{place:02}") for it, place in enumerate(self.places)]
        rows += [(2000 + verb, word) for word, verb in ACTIONS.items() if not self.often(lacks)]
        rows += [(2004, "UNLOCK"), (2006, "CLOSE"), (9, "OVER"), (56, "CLIMB"), (3050, "HELP"),
                 (3000 + self.message(), "MAGIC")]
        for number, word in enumerate(MAGIC, 1):
            pair = [(2025, word), (3000 + number, word)]
            rows += pair if self.often(0.9) else pair[::-1]
        if self.often(0.04):  # WATER is a verb, and POUR leads somewhere
            other = {"WATER": 2000 + ACTIONS["RUB"], "POUR": 62}
            rows = [(other.get(word, number), word) for number, word in rows]
        if self.often(0.3):
            rng.shuffle(rows)
        self.rows[4] = [f"{number}{rng.choice([' ', chr(9), '  '])}"
                        f"{word if self.often(0.8) else word.lower()}" for number, word in rows]

    def add_homes(self):
        depot = self.place() if self.often(0.2) else 0  # nearly all is there, and places are empty
        if "?" in self.errand and self.often(0.9 if self.kind == "hints" else 0.7):
            depot = self.start
        names = {number: name for name, number in self.of.items()} | {
            self.of[name] + 1: second for second, name in SECONDS.items() if name in self.of}
        for x in self.objects:
            name = names.get(x, "")
            first = 0 if self.often(0.7 if name == "CHEST" else 0.1) else depot or self.place()
            if name in self.staged and self.often(0.9):
                first = self.start
            elif name == "ROD" and "ROD2" in self.staged:
                first = self.place()
            elif name == "MESSAGE" and self.kind == "pirate" and self.often(0.4):
                first = 0
            second = 0
            is_taken = {f"+{name}", f"take {name.lower()}"} & {*self.errand}
            crosses = name == "TROLL" and "over" in self.errand
            if name in TWO_PLACES and self.often(0.95 if crosses else 0.7) or self.often(0.04):
                second = self.place()
            elif name in STUCK and self.often(0.1 if is_taken else 0.6) or self.often(0.04):
                second = -1
            if name == "STEPS" and name in self.staged and self.often(0.5):
                first, second = self.place(), self.start
            if self.kind == "full" and name in self.staged:
                first, second = self.place(), 0
            if not self.often(0.04):
                self.rows[7].append(f"{x} {first}" + (
                    f" {second}" if second or self.often(0.3) else ""))

    def target(self):
        """A target of a row: its condition and its destination."""
        rng = self.rng
        x = rng.choice(self.objects)
        to = rng.choice([*(self.place() for _ in range(4)), 301, 302, 303,
                         rng.choice([0, 304, 500]), 500 + self.message()])
        condition = rng.choice([0, 0, 100, rng.randrange(1, 100), rng.choice([20, 35, 50, 95]),
                                100 + x, 200 + x, 100 * rng.choice([3, 4, 5, 6, 7]) + x % 100])
        return condition * 1000 + to

    def add_ways(self):
        rng, motions = self.rng, [*DIRECTIONS]
        homes = {x: of for x, *of in map(str.split, self.rows[7])}
        troll = homes.get(str(self.of.get("TROLL")), [])
        forced = {it for it in self.places if self.often(0.12)}
        forced -= {self.start} if self.kind is not None else set()
        forced -= {*self.places} if self.kind == "full" else set()
        for place in self.places:
            rows = []
            if place in forced:
                rows += [f"{place} {self.target()} 1"] if self.often(0.4) else []
                rows.append(f"{place} {self.place()} 1")
            for _ in range(rng.choice([0, 1, 2, 4])):
                some = " ".join(str(it) for it in rng.sample(motions, rng.choice([1, 1, 2])))
                rows += [f"{place} {self.target()} {some}"] * rng.choice([1, 1, 1, 2])
                if self.often(0.4):
                    rows.append(f"{place} {self.target()} {some.split()[0]}")
            if str(place) in troll or self.often(0.1):
                rows.append(f"{place} {rng.choice([303, 303, 50303])} 9")
            rows += [f"{place} 301 71"] * self.often(0.4)
            rows += [f"{place} {to + 100_000 * self.often(0.1)} {GO + it}"
                     for it, to in enumerate(self.places)
                     if self.kind is not None or self.often(0.9)]
            if len(rows) > 1 and self.often(0.2) and place not in forced:
                rng.shuffle(rows)
            self.rows[3] += rows
        if self.often(0.1) and self.places[-1] >= 15:
            self.rows[3] += [f"{self.places[-1]} {it} 99" for it in range(15, 40)]

    def add_rest(self):
        rng, rows = self.rng, self.rows
        rows[8] = [f"{verb} {0 if self.often(0.05) else self.message()}"
                   for verb in {*ACTIONS.values(), 40} if self.often(0.8)]
        light = 1 if self.kind == "full" else rng.choice([0.4, 0.8, 0.95, 1])
        for bit, chance in [(0, light), (1, 0.3), (2, 0.4), (3, 0.2),
                            *[(it, 0.3) for it in range(4, 21)]]:
            of = [it for it in self.places if self.often(chance)]
            rows[9].append(" ".join(map(str, [bit, *self.staged_bit(bit, of)])))
        bounds = rng.choices([20, 32, 40, 60, 120, 200, 999], k=rng.choice([0, 1, 2, 4]))
        rows[10] = [f"{it} Class {it}." for it in (sorted(bounds) if self.often(0.8) else bounds)]
        for hint in range(1, 21):
            is_guarded = hint < 10
            if self.often((0.9 if is_guarded else 0.4) if self.kind == "hints" else
                          0.6 if is_guarded else 0.1):
                turns = rng.choice([0, 1, 2, 3] if self.kind == "hints" else [0, 1, 2, 3, 5, 8, 20])
                points = rng.choice([0, 1, 5, 10, 40])
                rows[11].append(f"{hint} {turns} {points} {self.message()} {self.message()}")

    def staged_bit(self, bit, places):
        """The places that have a bit; an errand may require that the start has it, or not."""
        lakes = {"~water", "~oil"} & {*self.errand}
        if self.kind is None or bit in (1, 2) and len(lakes) != 1:
            return places
        if (bit, self.kind) in ((3, "dwarves"), (3, "pirate"), (0, "dark")):
            return []
        if bit > 3 and self.kind == "hints":
            wanted = {"+ROD": [5], "@SNAKE": [6], "+LAMP": [7], "@EMERALD": [8], "@GRATE": [4]}
            return self.places if bit in wanted.get(self.errand[0], range(9, 21)) else []
        if bit > 3:
            return places
        has = {0: True, 1: "~oil" in lakes, 2: True, 3: False}[bit]
        return sorted({*places} - {self.start} | ({self.start} if has else set()))

    def database(self):
        rng, lines = self.rng, []
        order = [*range(1, 13)]
        if self.often(0.2):
            rng.shuffle(order)
        for section in order:
            rows = self.rows[section]
            cut = rng.randrange(len(rows) + 1) if self.often(0.05) and section != 5 else len(rows)
            for part in [rows[:cut], rows[cut:]] if cut < len(rows) else [rows]:
                lines += [section, *part, -1]
        return text_of([*lines, 0])

    def bindings(self):
        """The text of the bindings. What isn't bound to a message prints its name."""
        rng = self.rng
        bound = rng.choice([0, 0.1, 0.5])
        lines = [f"msg.{it} {self.message()}" for it in ROLES if self.often(bound)]
        keeps = 1 if self.is_hasty or self.kind == "full" else rng.choice([0.7, 0.95, 1])
        for role in PLACES:
            place = self.place_of_role(role)
            if place and (role in ("start", "building") or self.often(keeps)):
                lines.append(f"place.{role} {place}")
        if self.often(0.2):
            lines.append(f"num.letters {rng.choice([5, 6, 8])}")
        return text_of(lines)

    def place_of_role(self, role):
        """The place that a role has, or 0; mostly one by which the errand can be done."""
        rng, kind = self.rng, self.kind
        place = self.place() if not self.often(0.02) else rng.randrange(1, 300)
        others = [it for it in self.places if it not in (1, self.start)] or [3]
        if role == "deep":
            is_deep = self.is_hasty or kind in ("dwarves", "pirate", "full")
            return 1 if is_deep else rng.choice([1, 1, 2, 9, 15, place])
        if role == "outside":
            place = rng.choice([1, 1, 2, 3, 8, place])
            far = rng.choice([1, 299])
            return far if kind == "lamp" else 1 if kind in ("closed", "closing", "full") else place
        if role == "start" and kind is not None:
            return self.start
        if role in ("ne", "sw") and kind in ("closed", "full"):
            return self.start if role == "ne" else rng.choice(others)
        if role.startswith("dwarf"):
            return {"dwarves": self.start, "pirate": 0, "full": 0}.get(kind, place)
        return 0 if role == "chest" and kind == "full" and self.often(0.7) else place
