"""The score: what counts, what costs, and what it adds up to.

docs/TURN.md, The score; docs/FORMATS.md, The score.
"""

from database import first_line

CLOSED = {"success": 45, "wrong way": 30, "klutz": 25}  # by the ending; 10 without one of these
COLUMNS = ("what", "found", "home", "points", "of")

def rows_of(game):
    """What counts or costs: its name, the points of the two parts of a treasure, its points, and
    the most that it can have."""
    cave, magazine = game.cave, game.thing("MAGAZINE")
    for x in cave.treasures:
        worth = cave.worth(x)
        found = 2 if game.prop[x] >= 0 else 0
        home = worth - 2 if game.prop[x] == 0 and game.where[x] == cave.place("building") else 0
        yield named("treasure", x, cave.object_texts[x, None]), found, home, found + home, worth
    at_witt = magazine and game.where[magazine] == cave.place("witt")
    others = {"lives": (10 * (3 - game.deaths), 30),
              "ending": (4 * (game.ended not in (None, "quit")), 4),
              "dwarves": (25 * (game.anger > 0), 25),
              "closing": (25 * game.closing, 25),
              "closed": (CLOSED.get(game.ended, 10) if game.closed else 0, 45),
              "magazine": (1 if at_witt else 0, 1),
              "playing": (2, 2)}
    for name, (points, most) in others.items():
        yield name, "-", "-", points, most
    for hint, row in sorted(cave.hints.items()):
        yield f"hint {hint}", "-", "-", -row[1] if hint in game.taken else 0, -row[1]

def score(game):
    """The score of the state as it is."""
    return max(sum(points for *_, points, _ in rows_of(game)), 0)

def named(kind, number, text):
    """A thing by its number and the first line of its text, with a blank for each tab."""
    return f"{kind} {number}: {first_line(text)}".replace("\t", " ")

def table(game):
    """The score as a table."""
    points, classes = score(game), game.cave.classes
    name, wanted, at = "no class", "-", game.cave.class_of(points)
    if at is not None:
        bound, text = classes[at]
        name = named("class", bound, [text])
        wanted = bound + 1 - points if classes[at + 1:] else "-"
    for row in [COLUMNS, *rows_of(game),
                ("score", "-", "-", points, game.cave.greatest_score()),
                (name, "-", "-", "-", "-"), ("next class", "-", "-", wanted, "-")]:
        yield "\t".join(map(str, row))
