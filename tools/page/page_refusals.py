"""What tools/page/page refuses, and how, and what tools/page/chart draws and refuses; used by
tools/page/test."""

import os
import pty
import re
import shutil
import subprocess
import sys
import xml.etree.ElementTree as tree

from common.command_line import NO_PROGRAM
from common.files import TOP, text_of
from common.parts import Checks
from pages import Pages
from served import SEED, SHOAL, TOUR

CAVE, *BIND = SHOAL


def refusals(pages: Pages) -> Checks:
    """Bad input: the program's own line and status, and nothing written."""
    wrong_cave = pages.file("wrong.txt", "1\nno number\n")
    wrong_log = pages.file("wrong.log", b"no\n\x01\n")
    wrong_bind = pages.file("wrong.bind", "msg.welcom 1\n")
    plain = pages.log("plain.log", ["no"])  # without a head that names another cave
    for what, status, words in [
            ("a cave that isn't there", 5, ["nowhere.txt", TOUR]),
            ("a log that isn't there", 5, [CAVE, "nowhere.log", *BIND]),
            ("a database that is refused", 1, [wrong_cave, plain]),
            ("bindings that are refused", 1, [CAVE, plain, "--bind", wrong_bind]),
            ("a log that is refused", 3, [CAVE, wrong_log, *BIND]),
            ("bindings without a name", 5, [CAVE, TOUR, "--bind", ""]),
            ("a seed that is none", 2, [CAVE, TOUR, *BIND, "--seed", "x"])]:
        own = subprocess.run([pages.program, "play", *words, "--print", "steps"],
                             capture_output=True, text=True)
        yield f"{what}: the program's status", own.returncode, status
        yield from stopped(pages, what, status, words, own.stderr)
    pipe, good = f"{pages.room}/pipe", [CAVE, TOUR, *BIND]
    os.mkfifo(pipe)
    for what, status, words, line, output in [
            ("another log that is refused", 3, [*good, "--against", wrong_log],
             f"cave: {wrong_log}:2: ", ""),
            ("a folder that isn't there", 6, good, "page: ", f"{pages.room}/nowhere/page.html"),
            ("a pipe to put the page into", 6, good, f"page: {pipe}", pipe),
            ("no program", 2, [*good, "--program", f"{pages.room}/no-program"],
             f"page: {NO_PROGRAM.format(f'{pages.room}/no-program')}\n", ""),
            ("a pipe", 2, [CAVE, pipe, *BIND], f"page: {pipe}: a pipe", "")]:
        yield from stopped(pages, what, status, words, line, output)
    yield from stopped(pages, "no `dot`", 2, good, "page: there is no `dot`: install it, for"
                       " example with `apt-get install graphviz`", env=without_programs(pages))
    with open(CAVE, "rb") as file:
        ran = pages.ran("/dev/stdin", TOUR, *BIND, "--output", f"{pages.room}/in.html", stdin=file)
    yield "a cave from standard input", (ran.returncode, ran.stderr), (0, "")
    yield from on_a_terminal(pages)


def stopped(pages: Pages, what: str, status: int, words: list[str], line: str,
            output: str = "", env: dict[str, str] | None = None) -> Checks:
    """That a run ends with a status and one line, and leaves what there was."""
    kept = pages.file("kept.html", "kept")
    before = {*os.listdir(pages.room)}
    ran = pages.ran(*words, "--output", output or kept, env=env)
    yield f"{what}: the status", ran.returncode, status
    yield f"{what}: the line {ran.stderr!r}", ran.stderr.startswith(line), True
    yield f"{what}: one line", ran.stderr.rstrip("\n").count("\n") * (status != 2), 0
    yield f"{what}: nothing on standard output", ran.stdout, ""
    yield f"{what}: no other file", {*os.listdir(pages.room)}, before
    yield f"{what}: the page that there was", text_of(kept), "kept"


def without_programs(pages: Pages) -> dict[str, str]:
    """An environment with Python and no other program."""
    folder = f"{pages.room}/programs"
    os.makedirs(folder, exist_ok=True)
    for name in ("python3", "env"):
        if not os.path.exists(f"{folder}/{name}"):
            os.symlink(str(shutil.which(name)), f"{folder}/{name}")
    return os.environ | {"PATH": folder}


def on_a_terminal(pages: Pages) -> Checks:
    """A terminal shows how far the page is, and loses that line again."""
    ours, theirs = pty.openpty()
    words = [CAVE, TOUR, *BIND, *SEED, "--program", pages.program]
    command = [sys.executable, f"{TOP}/tools/page/page", *words]
    status = subprocess.run([*command, "--output", f"{pages.room}/told.html"],
                            stderr=theirs).returncode
    os.close(theirs)
    told = os.read(ours, 10_000).decode()
    os.close(ours)
    yield "on a terminal: the status", status, 0
    yield "on a terminal: each stage", [f"{it} of 5: " in told for it in range(1, 6)], [True] * 5
    yield "on a terminal: it is taken away", told.endswith("\r\x1b[K"), True


def charts(pages: Pages) -> Checks:
    """Charts of steps, and tables that aren't tables of steps."""
    table, deaths = (pages.printed("play", CAVE, log, *BIND, "--seed", seed, "--print", "steps")
                     for log, seed in ((TOUR, "3"), (f"{TOP}/logs/shoal/three-deaths.log", "1")))
    output, head = f"{pages.room}/chart.svg", table.splitlines()[0]
    refused: list[tuple[str, int, str, dict[str, str] | None]] = [
        ("no gnuplot", 2, pages.file("tour.steps", table), without_programs(pages))]
    if shutil.which("gnuplot"):
        refused += [("no file", 5, "nowhere.steps", None),
                    *((what, 2, pages.file(f"{what}.steps", text), None) for what, text in [
                        ("no steps", "a\n"), ("a row that is short", f"{head}\n0\tno\n"),
                        ("no line", f"{head}\n")])]
    for what, status, given, env in refused:
        ran = pages.ran(given, "--output", output, tool="chart", env=env)
        yield f"a chart of {what}: the status", ran.returncode, status
        yield f"a chart of {what}: {ran.stderr!r}", ran.stderr.startswith("chart: "), True
        yield f"a chart of {what}: nothing is written", os.path.exists(output), False
    axes = ["lamp", "lamp", "place in the log", "score", "score"]  # with what stands for the lines
    for text, events in ((deaths, ["died"]), (table, ["treasure found", "treasure home"])):
        if shutil.which("gnuplot"):
            ran = pages.ran(pages.file("drawn.steps", text), "--output", output, tool="chart")
            yield "a chart: the status", ran.returncode, 0
            words = [str(it.text).strip() for it in tree.parse(output).iter()
                     if it.tag.endswith(("}text", "}tspan"))]
            found = sorted(it for it in words if re.match("[a-z]", it))
            yield "a chart: what it names", found, sorted(axes + events)
