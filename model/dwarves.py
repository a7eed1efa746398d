"""The five dwarves and the pirate (docs/TURN.md, Dwarves)."""

from state import DWARVES, PIRATE
from tables import TABLES, phrases, tables
from terms import TREASURES

# ---- Waking and moving. `dwarf` is whose turn it is, and `ways` is where it may go.

def they_wake(game):
    for _ in range(2):
        game.dwarf = game.draw(5)
        TABLES["dwarf leaves"].apply(game)
    for game.dwarf in DWARVES:
        TABLES["dwarf kept apart"].apply(game)

at, was, saw = (lambda game, part=part: getattr(game, f"dwarf_{part}")[game.dwarf]
                for part in ("at", "was", "saw"))

def put(game, at, was):
    """Where the dwarf is from now on, and was before."""
    game.dwarf_at[game.dwarf], game.dwarf_was[game.dwarf] = at, was

def offered(game, it):
    """The places that the rows of a dwarf's place offer it."""
    cave, places = game.cave, []
    for target, _ in cave.travel.get(game.dwarf_at[it], []):
        place = target % 1000
        if not (
            target // 1000 == 100 or not 15 <= place <= 300
            or place in (game.dwarf_at[it], game.dwarf_was[it]) or places[-1:] == [place]
            or cave.is_forced(place) or it == PIRATE and cave.has(place, 3)
        ):
            places.append(place)
    return places

def it_moves(game):
    game.ways = offered(game, game.dwarf)
    TABLES["dwarf ways"].apply(game)
    TABLES["dwarf sight"].apply(game)

def go_one_of(game, ways):
    put(game, ways[game.draw(len(ways))], at(game))

def see(game, is_seen):
    game.dwarf_saw[game.dwarf] = is_seen
    if is_seen:
        game.dwarf_at[game.dwarf] = game.here

def they_move(game):
    """The five move, and may throw; then the pirate moves."""
    game.seeing = game.knives = game.hits = 0
    for game.dwarf in DWARVES:
        TABLES["dwarf turn"].apply(game)
    game.dwarf = PIRATE
    TABLES["pirate turn"].apply(game)

# ---- The pirate

def takes(game, x):
    """Whether the pirate takes a treasure: not PYRAMID at home, nor where EMERALD is at home."""
    homes = [game.home(it)[0] for it in map(game.thing, ("PYRAMID", "EMERALD")) if it]
    return not (game.is_thing(x, "PYRAMID") and game.here in homes)

def it_goes_home(game):
    put(game, *[game.cave.place("chest") or 0] * 2)
    see(game, False)

# ---- What rows say, and the rows, in the order of the pages

phrases({
    "a treasure that it takes is carried":
        lambda game: any(game.is_carried(it) and takes(game, it) for it in TREASURES),
    "no treasure is at hand": lambda game: not any(map(game.is_at_hand, TREASURES)),
    "one treasure is left to be seen": lambda game: game.unseen == game.lost + 1,
    "it is away": lambda game: at(game) == 0,
    "it is where the player is": lambda game: at(game) == game.here,
    "it was where the player is": lambda game: was(game) == game.here,
    "it was elsewhere than the player": lambda game: was(game) != game.here,
    "it was elsewhere": lambda game: at(game) != was(game),
    "it saw the player": saw,
    "it sees nobody": lambda game: not saw(game),
    "dwarfalt is bound": lambda game: game.cave.place("dwarfalt") is not None,
    "no place is offered": lambda game: not game.ways,
    "more than {N} places are offered": lambda game, most: len(game.ways) > most,
    "a knife hits": lambda game: game.draw(1000) < 95 * (game.anger - 2),
}, {
    "how many dwarves": lambda game: game.out.append(
        f"There are {game.seeing} threatening little dwarves in the room with you."),
    "how many knives": lambda game: game.out.append(f"{game.knives} of them throw knives at you!"),
    "it is gone": lambda game: put(game, 0, was(game)),
    "it steps aside": lambda game: put(game, *[game.cave.place("dwarfalt")] * 2),
    "it was where it is": lambda game: put(game, at(game), at(game)),
    "it chooses its old place": lambda game: go_one_of(game, [was(game)]),
    "it chooses one of the first {N}": lambda game, most: go_one_of(game, game.ways[:most]),
    "it chooses one of them": lambda game: go_one_of(game, game.ways),
    "it sees the player": lambda game: see(game, True),
    "it loses the player": lambda game: see(game, False),
    "how many hits": lambda game: game.out.append(f"{game.hits} of them get you!"),
})

tables("dwarves.txt", globals())
