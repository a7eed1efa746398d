"""The page of a walk: what it shows of one log, or of two, by what the program prints of them."""

import argparse
import json
import os
import shutil
import stat
import subprocess
import sys
import time
from collections import defaultdict
from itertools import count
from typing import Any

from common import command_line
from common.command_line import NO_PROGRAM

from . import drawing
from .beside import parting_and_meeting, same_lines
from .filled import BUILT, STYLE, WALK, foot_of, page_of
from .steps import NONE, Stop, demand_output, put, text

NUMBERS = "from to turns score lamp draws stream".split()
NAMED = ["question", "ended", "happened"]  # columns of few words
STAGES = 5
Said = dict[str, Any]  # what the view of a walk says of a line, or of an object


class Progress:
    """Shows on a terminal how far the page is."""

    def __init__(self) -> None:
        self.begun, self.stage = time.monotonic(), 0

    def tell(self, doing: str) -> None:
        self.stage += 1
        seconds = time.monotonic() - self.begun
        self.show(f"{self.stage} of {STAGES}: {doing}, after {seconds:.0f} s")

    def show(self, line: str = "") -> None:
        if sys.stderr.isatty():
            print(f"\r{line}\x1b[K", end="", file=sys.stderr, flush=True)


def program_of(named: str | None) -> str:
    asked = named or (BUILT if os.access(BUILT, os.X_OK) else "cave")
    if not (found := shutil.which(asked)):
        raise Stop(NO_PROGRAM.format(asked))
    return found


def said_by(program: str, words: list[str]) -> str:
    """What the program prints; if it fails, its own line and status end the run."""
    ran = subprocess.run([program, *words], capture_output=True)
    if ran.returncode:
        raise Stop(ran.stderr.decode(errors="replace").rstrip("\n"), ran.returncode)
    return text(ran.stdout)


def numbers() -> defaultdict[Any, int]:
    """What gives a number to each key, from 0 on."""
    return defaultdict(count().__next__)


class Shared:
    """What the walks of a page share, each once: lines, texts as their lines, lists of objects, and
    the names of these."""

    def __init__(self) -> None:
        self.lines, self.texts, self.lists = numbers(), numbers(), numbers()
        self.names = dict[int, str]()

    def text(self, told: str) -> int:
        """The number of a text; one that is empty has no lines."""
        rows = readable(told).removesuffix("\n").split("\n") if told else []
        return self.texts[tuple(self.lines[it] for it in rows)]

    def objects(self, objects: list[Said]) -> list[int]:
        """The numbers of objects, whose names are kept."""
        self.names |= {it["object"]: it["name"] for it in objects}
        return [it["object"] for it in objects]

    def moves(self, line: Said) -> list[list[int]]:
        """The objects that a line moved, each by its number with where it is then."""
        moved = line["moved"]
        return [[x, it["first"], it["second"]] for x, it in zip(self.objects(moved), moved)]


def readable(told: str) -> str:
    """A string of the view, in which each character is a byte, as a text."""
    return told and text(told.encode("latin-1"))


def walk_of(program: str, files: list[str], shared: Shared) -> tuple[Said, list[Said], Said]:
    """A walk as the page has it: its columns, its lines and what each says; and the opening."""
    printed = said_by(program, ["play", *files, "--print", "walk"]).split("\n")
    opening, *lines = (json.loads(it) for it in printed if it)
    walk: Said = {name: [it[name] for it in lines] for name in NUMBERS}
    for name in NAMED:
        told = [",".join(it[name] or []) if name == "happened" else it[name] for it in lines]
        words = numbers()
        _, *rows = [words[it or NONE] for it in (NONE, *told)]
        walk[name] = {"words": [*words], "rows": rows}
    scores = said_by(program, ["play", *files, "--print", "score"]).removesuffix("\n")
    table = [it.split("\t") for it in scores.split("\n")]
    maximum = next(int(it[-1]) for it in table if it[0] == "score")
    ends = lines[-1] if lines else opening
    return opening, lines, walk | {
        "name": os.path.basename(files[1]), "lines": [readable(it["line"]) for it in lines],
        "sum": f"score {ends['score']} of {maximum}, turns {ends['turns']}", "maximum": maximum,
        "table": table, "said": [shared.text(it["said"]) for it in (opening, *lines)],
        "hands": [shared.lists[tuple(shared.objects(it["carried"]))] for it in lines],
        "moves": [[at, shared.moves(it)] for at, it in enumerate(lines) if it["moved"]]}


def together(said: argparse.Namespace, program: str, ours: list[Said], theirs: list[Said]) -> Said:
    """Where two walks part and come together again, as the number of lines of each before that, or
    None if they don't; and the lines that both logs have."""
    parting, meeting = parting_and_meeting(ours, theirs)
    # A script that would be too large isn't printed: then no line stands beside another.
    ran = subprocess.run([program, "script", said.log, said.against], capture_output=True)
    same = [] if ran.returncode else same_lines(ran.stdout.decode(), len(ours))
    return {"parting": parting, "meeting": meeting, "beside": same}


def judge_files(said: argparse.Namespace) -> None:
    """What the page requires of the files, and the program doesn't check."""
    read = said.cave, said.bind, said.log, said.against
    demand_output(said.output, *read, said.program)
    for path in read:
        if path and os.path.exists(path) and stat.S_ISFIFO(os.stat(path).st_mode):
            raise Stop(f"{path}: a pipe can't be read several times")
    if lost := command_line.missing("dot"):
        raise Stop(lost)


def made(said: argparse.Namespace, program: str, progress: Progress) -> bytes:
    shared, logs = Shared(), [said.log] + [said.against] * (said.against is not None)
    options = [it for name in ("bind", "seed") if (value := getattr(said, name)) is not None
               for it in (f"--{name}", value)]
    progress.tell("playing the log")
    played = [walk_of(program, [said.cave, said.log, *options], shared)]
    progress.tell("playing the other log")
    played += [walk_of(program, [said.cave, it, *options], shared) for it in logs[1:]]
    progress.tell("drawing the map")
    drawn = drawing.of(said_by(program, ["map", said.cave, said.log, *options]))
    progress.tell("writing the page")
    walks, opening = [it[2] for it in played], played[0][0]
    if len({it["name"] for it in walks}) < len(walks):
        for walk, name in zip(walks, logs):
            walk["name"] = name
    data = {"walks": walks, "lines": [*shared.lines], "texts": [*shared.texts],
            "lists": [*shared.lists], "places": drawn.titles,
            "opening": {it: opening[it] for it in ("to", "score", "lamp")}
                       | {"moves": shared.moves(opening)},
            "names": {x: readable(name) for x, name in shared.names.items()},
            **(together(said, program, *(it[1] for it in played)) if played[1:] else {})}
    foot = foot_of(said.cave, said.bind, said_by(program, ["--version"]), said.seed or "0")
    return page_of(STYLE, WALK, data, TITLE=" against ".join(it["name"] for it in walks), FOOT=foot,
                   MAP=drawn.svg)


def main() -> int:
    asks = command_line.parser("CAVE", "LOG", bind="FILE", seed="N", against="LOG2", program="FILE")
    asks.add_argument("--output", metavar="WALK.html", required=True)
    said, progress = asks.parse_args(), Progress()
    judge_files(said)
    program = program_of(said.program)
    try:
        page = made(said, program, progress)
        progress.tell("putting it")
        put(said.output, page)
    finally:
        progress.show()
    return 0
