"""The directed games: those of games.txt, and those whose lines, seeds or rows are computed.

Each run of the duel that plays random games plays them all.
"""

from lines import rows_of
from seeds import seed_at, seed_where
from worlds import NUMBERS, games

# Draws by which dwarves wake and all of them stay: each is below a number, and between two.
AWAKE = [(100, 95, 99), (5, 0, 0), (100, 50, 99), (5, 0, 0), (100, 50, 99)]
STORED = {name: "9" for name, number in NUMBERS.items() if not 50 <= number <= 79} | {
    "ROD2": "9", "DWARF": "9", "KNIFE": "0", "MIRROR": "9 10", "GRATE": "9 10"}
NAMES = {"WAKE": f"seed {seed_where(*AWAKE)}",
         "STORED": "homes " + ", ".join(f"{name} {places}" for name, places in STORED.items())}

def dwarf_games():
    for border, before in ((95, 0), (50, 2), (50, 4)):
        for number in (border - 1, border):
            seed = seed_where(*AWAKE[:before], (100, number, number))
            yield f"waking-draw-{before}-{number}: seed {seed}, null, null | NEAR"
    for meals in range(14):
        anger = min(2 + meals, 13)
        for number in {max(95 * (anger - 2) + it, 0) for it in (-1, 0, 1)} - {*range(1000, 2000)}:
            yield (f"knife-of-anger-{anger}-after-{meals}-draws-{number}: MET,"
                   f" feed dwarf * {meals}, seed {seed_at(number, 1000, 1)}, null | NEAR")
    killed = [(5, 0, 4), (1000, 95, 999)]  # draws of each that is left, after the one of the axe
    seeds = [seed_where((3, 1, 2), *killed * left) for left in (4, 3, 2, 1, 0)]
    five = ", ".join(f"take axe, seed {it}, throw axe" for it in seeds)
    homes = ", ".join(f"dwarf{it} 16" for it in range(1, 6))
    yield f"five-dwarves-are-killed: MET, {five}, null | NEAR; bound {homes}"

def long_games():
    for count in (19, 20, 21, 22):
        chain = ", ".join(f"{100 + it} {101 + it} 1" for it in range(count))
        yield (f"forced-{count}-times: g100, look"
               f" | rows {chain}; places 9, 10, 100..{100 + count}; ways 9 100 10")
    walk = ", ".join(f"g{it}, grate" for it in range(1, 16))
    rows = ", ".join(f"{it} 16 63, {it} 9 64" for it in range(1, 16))
    yield f"grate-from-1-to-15: {walk} | places 1..16; homes GRATE 300; rows {rows}"
    hints, bits = (", ".join(form.format(it) for it in range(1, 21)) for form in ("{} 1 1", "{} 9"))
    yield f"hints-from-1-to-20: ASKED * 24 | hints {hints}; bits {bits}"

GAMES = [*games([*rows_of("games.txt"), *dwarf_games(), *long_games()], NAMES)]
