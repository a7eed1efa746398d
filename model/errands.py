"""What players of random games set out to do, step by step."""

import random
import re

import tables
from database import NAMES
from lines import rows_of
from verbs import ACTIONS, verbs_in

# The steps of each errand; errands.txt says what they are.
ERRANDS = [[*map(str.strip, it.split(","))] for it in rows_of("errands.txt")]

# Treasures that have prop 0 once they are seen, and keep it as they are dropped.
PLAIN_TREASURES = "GOLD COINS CHEST EGGS TRIDENT EMERALD PYRAMID PEARL SPICES".split()

# The verbs that have a row for an object of a name.
VERBS_OF = {name: [verb for verb in ACTIONS for label, row in tables.rows.items()
                   if verb in verbs_in(label) and name in row.split("|")[0]
                   and ("x is" in row or "alone" in label)]
            for name in [*NAMES, "ROD2", "PLANT2", "TROLL2"]}

def goal_of(label, row):
    """What a row of a verb's table requires: its verbs, x, what is carried, what is here, and
    whether x must not be carried."""
    tests, verbs = row.split("|")[0], verbs_in(label)
    named = lambda form: [it for it in re.findall(form, tests) if it in VERBS_OF]
    of = named(r"x is (\w+)") + named(r"x is \w+ or (\w+)")
    is_left = "x isn't carried" in tests
    takes_x = verbs[:1] in (["DROP"], ["THROW"], ["WAVE"]) and not is_left
    carried = named(r"(\w+) is carried") + (of if takes_x else [])
    here = named(r"(\w+) is here") + named(r"(\w+) is at hand")
    return label, verbs, of, carried, here, is_left

GOALS = [goal_of(label, row) for label, row in tables.rows.items() if verbs_in(label)]

def steps_of(goal, rng):
    """What brings about a row of a verb's table."""
    _, verbs, of, carried, here, is_left = goal
    x = [rng.choice(of)] if of else []
    return [*(f"+{it}" for it in carried), *(f"@{it}" for it in (here or x)[:1]),
            *(f"drop {it}" for it in x if is_left), " ".join([rng.choice(verbs), *x])]

def parted(errand):
    """What an errand requires of a cave and its clocks, and its steps."""
    if not errand or ":" not in errand[0]:
        return "", [*errand]
    kind, _, step = errand[0].partition(":")
    return kind, [step.strip(), *errand[1:]]

def stage_of(seed, number):
    """With what the player of a game begins: each errand has its turn, in another order for each
    seed, those that need much of a cave more than once; every third game has none."""
    if number % 3 == 2:
        return []
    weights = {"": 1, "closed": 3, "lamp": 4, "pirate": 4, "full": 4}
    stages = [it for it in ERRANDS for _ in range(weights.get(parted(it)[0], 2))]
    turn_of, at = divmod(number // 3 * 2 + number % 3, len(stages))
    random.Random(f"{seed} stage {turn_of}").shuffle(stages)
    kind, errand = parted(stages[at])
    some = random.Random(f"{seed} treasures {number}")
    treasures = some.sample(PLAIN_TREASURES, some.choice([1, 2, 3, len(PLAIN_TREASURES)]))
    brought = [step for it in treasures for step in brought_home(it)]
    steps = [step for it in errand for step in (brought if it == "$" else [it])]
    return [f"{kind}: {steps[0]}", *steps[1:]]

def brought_home(treasure):
    return [f"+{treasure}", "=building", f"drop {treasure.lower()}"]
