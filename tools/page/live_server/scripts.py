"""Changes of a log as scripts of the program: each edit after a guard, several as one group."""

import re
from collections.abc import Sequence
from typing import NamedTuple

KINDS = ("insert", "delete", "replace", "seed")
GROUP = (b"begin", b"end")
SEED = re.compile(rb"^seed (\d+)[ \t\r]*$", re.MULTILINE)
MOST_EDITS = 65_535


class Malformed(Exception):
    """A change that a page can't have meant."""


class Edit(NamedTuple):
    """One edit: what kind, where, the new line, and the line that the page shows at its place."""

    kind: str
    place: int
    text: str = ""
    was: str | None = None

    def lines(self) -> list[str]:
        """The lines of its script. The end of a log has no line to be guarded by."""
        guard = [] if self.was is None else [f"expect {self.place} {self.was}"]
        with_text = self.kind in ("insert", "replace")
        return [*guard, f"{self.kind} {self.place}" + (f" {self.text}" if with_text else "")]


def edit_of(said: object) -> Edit:
    if not isinstance(said, dict):
        raise Malformed("an edit is an object")
    kind, place = said.get("kind"), said.get("place")
    text, was = said.get("text", ""), said.get("was")
    if kind not in KINDS or not isinstance(text, str) or not (was is None or isinstance(was, str)):
        raise Malformed("an edit has a kind, a text, and the line that was there")
    if not isinstance(place, int) or isinstance(place, bool) or place < 0:
        raise Malformed("a place is a number")
    if "\n" in f"{text}{was}":
        raise Malformed("a line ends where its text does")
    if any("\ud800" <= it <= "\udfff" for it in f"{text}{was}"):
        raise Malformed("a line has a lone surrogate, which is no character")
    return Edit(kind, place, text, was)


def edits_of(said: object) -> list[Edit]:
    """The edits of a change, as a page sends them."""
    if not isinstance(said, list) or not 0 < len(said) <= MOST_EDITS:
        raise Malformed("a change has edits")
    return [edit_of(it) for it in said]


def script_of(edits: list[Edit]) -> bytes:
    """The script of a change, by edits that each know the log that the ones before leave."""
    lines = [line for it in edits for line in it.lines()]
    if len(edits) > 1:
        lines = ["begin", *lines, "end"]
    return "".join(f"{it}\n" for it in lines).encode()


def joined(scripts: Sequence[bytes]) -> bytes:
    """Scripts that follow each other as one group; a script by itself as it is."""
    if len(scripts) == 1:
        return scripts[0]
    lines = [line for script in scripts for line in script.splitlines(keepends=True)
             if line.rstrip(b"\r\n") not in GROUP]
    return b"".join([GROUP[0] + b"\n", *lines, GROUP[1] + b"\n"])


def seed_after(script: bytes, seed: str) -> str:
    """The seed that a log is played with after a script."""
    found = SEED.findall(script)
    return str(found[-1], "ascii") if found else seed


def title_of(script: bytes) -> str:
    """A change in a few words: its edit, or how many there are."""
    edits = [it for it in script.splitlines() if it not in GROUP and not it.startswith(b"expect ")]
    if len(edits) == 1:
        return edits[0].decode(errors="replace")
    return f"group of {len(edits)}"
