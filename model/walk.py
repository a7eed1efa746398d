"""The lines of a play as JSON (docs/FORMATS.md, Lines as JSON)."""

import json
import re

from edits import steps_of
from lines import text_of

# Bytes for which JSON has an escape of its own that isn't used.
UNUSED = {"\\b": "\\u0008", "\\f": "\\u000c", "\\r": "\\u000d"}

def walk(cave, seed, log):
    """The opening, and then each line of a log."""
    halves = [(0, 0)] * 101  # where both halves of each object were
    for it in steps_of(cave, seed, log):
        game, before = it.game, halves
        halves = [*zip(game.where, game.held)]
        moved = [x for x in range(1, 101) if halves[x] != before[x]]
        yield json_of({
            "place": it.place, "line": it.line, "said": text_of(game.out),
            "from": it.here, "to": game.here, "turns": game.turns, "score": game.score(),
            "lamp": game.lamp, "carried": [named(game, x) for x in game.in_hands()],
            "draws": it.drawn, "stream": game.stream, "question": it.asked, "ended": game.ended,
            "happened": it.happened,
            "moved": [named(game, x) | {"first": game.where[x], "second": game.held[x]}
                      for x in moved]})

def named(game, x):
    """The members that each object has."""
    return {"object": x, "name": game.cave.first_words.get(1000 + x)}

def json_of(value):
    """A value as JSON: a text of bytes as a string that has a character for each byte."""
    text = json.dumps(value, separators=(",", ":")).replace("\x7f", "\\u007f")
    return re.sub(r"\\.", lambda it: UNUSED.get(it[0], it[0]), text)
