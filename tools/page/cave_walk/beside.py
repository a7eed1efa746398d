"""Compares two walks, as a module: where they part, where they come together again, and which of
their lines are the same, by the script that makes the one log of the other. A walk is the list of
its lines, as `cave play --print walk` prints them.
"""

from collections.abc import Iterable
from itertools import groupby, takewhile
from operator import itemgetter
from typing import Any

# What is the same of two lines that do the same, whenever that is.
FIGURES = itemgetter(*"""line from to score lamp carried draws stream question ended happened
moved""".split())
Line = dict[str, Any]
Played = tuple[int, Any]  # the place of a line, and its figures


def played(walk: list[Line]) -> list[Played]:
    """The lines that are neither comments nor blank."""
    return [(at, FIGURES(it)) for at, it in enumerate(walk)
            if not it["line"].startswith("#") and it["line"].strip(" \t")]


def alike(ours: Iterable[Played], theirs: Iterable[Played]) -> int:
    """How many lines are alike before the first that isn't."""
    return sum(1 for _ in takewhile(lambda pair: pair[0][1] == pair[1][1], zip(ours, theirs)))


def parting_and_meeting(ours: list[Line], theirs: list[Line]) -> list[list[int] | None]:
    """How many lines of each walk, comments among them, are before the first that plays in another
    way; and how many before the first of those at the end that play alike; None for none."""
    first, second = played(ours), played(theirs)
    begin, end = alike(first, second), alike(reversed(first), reversed(second))
    if begin == len(first) == len(second):
        return [None, None]
    return [[rows[begin][0] if begin < len(rows) else len(walk)
             for rows, walk in ((first, ours), (second, theirs))],
            [rows[-end][0] for rows in (first, second)] if end else None]


def kept_lines(script: str, count: int) -> list[int | None]:
    """The lines of a log of this many lines after a script, as `cave script` prints it: the place
    that each had before; None for a line of the script."""
    places: list[int | None] = [*range(count)]
    for edit in script.splitlines():
        word, number, *_ = edit.split(" ", 2)
        at = int(number)
        places[at : at + (word != "insert")] = [] if word == "delete" else [None]
    return places


def same_lines(script: str, count: int) -> list[list[int]]:
    """The lines that a log has in common with the one that a script makes of it, as stretches: the
    first line in each, and how many lines there are."""
    found = list[list[int]]()
    for shift, rows in groupby(enumerate(kept_lines(script, count)),
                               lambda it: None if it[1] is None else it[1] - it[0]):
        places = [second for second, _ in rows]
        if shift is not None:
            found.append([places[0] + shift, places[0], len(places)])
    return found
