"""What the program prints, as far as the server has to read it: the report on a change, the lines
of a walk, the words that a cave knows, and the motions that its map has on each way.
"""

import re
from typing import NamedTuple

REPORT = re.compile(
    r"^line \d+: ok, from (?P<start>\d+), met (?P<met>\d+|none), played (?P<played>\d+) of"
    r" \d+, score (?P<score>-?\d+) of (?P<most>\d+), turns \d+, at \d+"
    r"(?:, ended: (?P<ended>[a-z ]+))?", re.MULTILINE)
TURNS, TURNS_KEY = re.compile(rb',"turns":(\d+),'), b',"turns":'
DIGITS = b"0123456789"
# The words that the rules themselves write out, whether or not a cave has them.
OF_RULES = "ENTER STREAM WATER OIL PLANT DOOR Y YES N NO".split()
# How many letters of a word count, and the greatest score, as `check` prints them.
LETTERS = re.compile(rb"^num\.letters (\d+)$", re.MULTILINE)
MAXIMUM = re.compile(rb"maximum (-?\d+)")
LABEL = re.compile(r'^  (\d+\.\d+) \[label="((?:[^"\\]|\\.)*)"', re.MULTILINE)
CONDITION = re.compile(r" \([^()]*\)$", re.MULTILINE)  # of a row of a label


class Unread(Exception):
    """What the program printed in another form than the manual says."""


class Report(NamedTuple):
    """What became of a change: the line of the program, and what it says."""

    line: str
    start: int
    met: int | None
    played: int
    score: int
    most: int
    ended: str


def report_of(said: bytes) -> Report:
    """The report on a script that has one edit or one group."""
    text = said.decode(errors="replace")
    if not (found := REPORT.search(text)):
        raise Unread(f"no report: {text[:200]}")
    numbers = {name: int(found[name]) for name in ("start", "played", "score", "most")}
    met = None if found["met"] == "none" else int(found["met"])
    return Report(line=text[found.start():].partition("\n")[0], met=met,
                  ended=found["ended"] or "", **numbers)


def walk_of(said: bytes, known: list[bytes]) -> list[bytes]:
    """The lines of `--print walk`: that of the opening, and one for each line of the log. A long
    walk takes time to split, so the lines that are known, before a change, are only compared."""
    begin = b"".join(it + b"\n" for it in known)
    is_known = said.startswith(begin)
    lines = [*known, *said[len(begin):].split(b"\n")] if is_known else said.split(b"\n")
    if lines.pop() or not lines or not lines[0].startswith(b'{"place":null,'):
        raise Unread("a walk has an opening, and ends with a line")
    return lines


def turns_of(line: bytes) -> int:
    """How many turns were taken, as a line of a walk says."""
    if not (found := TURNS.search(line)):
        raise Unread("a line of a walk says how many turns were taken")
    return int(found[1])


def beside_its_numbers(line: bytes) -> tuple[bytes, bytes]:
    """A line of a walk without its place, which is before its first comma, and its turns."""
    before, _, after = line.partition(TURNS_KEY)
    return before.lstrip(b'{"place":' + DIGITS), after.lstrip(DIGITS)


def facts_of(said: bytes) -> list[str]:
    """The facts of a last state, a line each."""
    return said.decode("latin-1").splitlines()


def words_of(table: bytes) -> list[str]:
    """The words of a cave, each once, by what `check --print words` prints."""
    rows = table.decode("latin-1").split("\n")[1:]
    return [*dict.fromkeys(word for row in rows for word in row.split("\t")[2:])]


def number_in(said: bytes, form: re.Pattern[bytes], otherwise: int) -> int:
    found = form.search(said)
    return int(found[1]) if found else otherwise


def motions_of(graph: str, words: list[str]) -> dict[str, list[list[str]]]:
    """For each way of a map, as `3.9`, the motions that lead there, and those that lead back."""
    known, found = {*words}, {}
    for name, label in LABEL.findall(graph):
        text = re.sub(r"\\(.)", lambda it: "\n" if it[1] == "n" else it[1], label)
        text = CONDITION.sub("", text.replace("&amp;", "&").replace(" ..\n", "")).replace(",", " ")
        there, _, back = f"\n{text}".partition("\n / ")
        found[name] = [[*dict.fromkeys(it for it in rows.split() if it in known)]
                       for rows in (there, back)]
    return found
