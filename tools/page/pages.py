"""Pages that are made to be tested, as a module, each with what the program printed of its walk.

    made = Pages(room, program).of_walk("tour", TOUR, *SEED)
    made.path, made.lines, made.steps, made.transcript, made.told
"""

import difflib
import json
import subprocess
import sys
from typing import Any, BinaryIO, NamedTuple

from cave_walk.steps import Steps, columns_of
from common.files import TOP, bytes_of, match_in, text_of, write
from served import SEED, SHOAL, TOUR

Told = dict[str, Any]  # what the program prints of a line, or of an object


class Walk(NamedTuple):
    """A page, and what was printed of its walk; `told` has the opening, and then each line."""

    path: str
    lines: list[str]
    steps: Steps
    transcript: str
    told: list[Told]


class Pages:
    """What makes pages, in a folder of their own, by a program."""

    def __init__(self, room: str, program: str) -> None:
        self.room, self.program = room, program

    def file(self, name: str, content: str | bytes) -> str:
        return write(f"{self.room}/{name}", content)

    def log(self, name: str, lines: list[str]) -> str:
        return self.file(name, "".join(f"{it}\n" for it in lines))

    def ran(self, *words: str, tool: str = "", stdin: int | BinaryIO = subprocess.DEVNULL,
            env: dict[str, str] | None = None) -> subprocess.CompletedProcess[str]:
        """A run of tools/page/page, or of another tool of that folder."""
        named = [tool] if tool else ["page", "--program", self.program]
        command = [sys.executable, f"{TOP}/tools/page/{named[0]}", *named[1:], *words]
        return subprocess.run(command, capture_output=True, text=True, stdin=stdin, env=env)

    def printed(self, *words: str) -> str:
        ran = subprocess.run([self.program, *words], capture_output=True, check=True)
        return ran.stdout.decode("latin-1")

    def of_walk(self, name: str, log: str, *options: str, against: str = "",
                cave: list[str] = SHOAL) -> Walk:
        """A page, and the walk that it shows."""
        path, words = f"{self.room}/{name}.html", [cave[0], log, *cave[1:], *options]
        ran = self.ran(*words, *(["--against", against] if against else []), "--output", path)
        if ran.returncode or ran.stderr:
            raise ValueError(f"tools/page/page ends with {ran.returncode}: {ran.stderr}")
        steps = columns_of(self.printed("play", *words, "--print", "steps"))
        told = self.printed("play", *words, "--print", "walk").splitlines()
        return Walk(path, bytes_of(log).decode("ascii").splitlines(), steps,
                    self.printed("play", *words), [*map(json.loads, told)])

    def tour(self) -> Walk:
        return self.of_walk("tour", TOUR, *SEED)

    def two_tours(self) -> Walk:
        """The tour as it goes without the pillow, against the tour."""
        lines = text_of(TOUR).splitlines()
        lines[17:19] = ["drop vase", "drop pillow"]
        return self.of_walk("two", self.log("without-pillow.log", lines), *SEED, against=TOUR)


# ---- what a walk says

def said_at(walk: Walk) -> list[str]:
    """What was said at each line, from the opening on; nothing after a comment."""
    said, last = [""] * (len(walk.lines) + 1), 0
    rest = walk.transcript.removesuffix("\n").rpartition("\n")[0] + "\n"
    for at, line in enumerate(walk.lines, 1):
        if not line.startswith("#") and line.strip(" \t"):
            said[last], _, rest = rest.partition(f"\n> {line}\n")
            last = at
    said[last] = rest
    return [it.rstrip("\n") for it in said]


def score_of(walk: Walk) -> str:
    return match_in(r"(?m)^-- score (-?\d+ of \d+), turns \d+$", walk.transcript)[1]


def place_at(walk: Walk, line: int) -> int:
    return int(walk.steps["to"][line - 1] if line else walk.steps["from"][0])


def visits_of(walk: Walk, place: int) -> list[int]:
    """The lines at which a walk reaches a place."""
    moves = enumerate(zip(walk.steps["from"], walk.steps["to"]), 1)
    begins = [0] if walk.steps["from"][0] == place else []
    return begins + [at for at, (old, new) in moves if old != new and new == place]


def trail_of(walk: Walk, line: int) -> list[list[int]]:
    """The moves of the last ten lines."""
    moves = [*zip(walk.steps["from"], walk.steps["to"])][max(line - 10, 0) : line]
    return [[old, new] for old, new in moves if old != new]


def named(things: list[Told]) -> str:
    """The names of objects on the page."""
    return ", ".join(it["name"] or f"object {it['object']}" for it in things).lower() or "nothing"


def things_at(walk: Walk, place: int, line: int) -> list[Told]:
    """The objects that are at a place after a line, ascending."""
    where = dict[int, Told]()
    for told in walk.told[: line + 1]:
        where |= {it["object"]: it for it in told["moved"]}
    return [it for _, it in sorted(where.items()) if place and place in (it["first"], it["second"])]


def line_beside(walk: Walk, other: Walk, line: int) -> int:
    """The line of another walk that is beside a line: the same one, or the last before it."""
    same = difflib.SequenceMatcher(None, walk.lines, other.lines, autojunk=False)
    pairs = [(first + it + 1, second + it + 1)
             for first, second, count in same.get_matching_blocks() for it in range(count)]
    return [(0, 0), *(pair for pair in pairs if pair[0] <= line)][-1][1]


def happened_at(walk: Walk, line: int) -> list[str]:
    happened: str = walk.steps["happened"][line - 1] if line else "-"
    return [] if happened == "-" else happened.split(",")
