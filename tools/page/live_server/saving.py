"""Putting a held log into its file, whole or not at all, by the program."""

import os
from itertools import count

from .plays import Game, Held


class Changed(Exception):
    """The file isn't what it was when it was opened, or saved."""


class Home:
    """The file of a log: where it is opened from and saved to."""

    def __init__(self, path: str, opened: bytes, to: str | None = None) -> None:
        self.path, self.to = path, to or path
        self.name = os.path.basename(path)
        self.found = read(to) if to else opened

    def save(self, game: Game, held: Held, is_told: bool) -> None:
        """Puts a log into the file; Changed if the file is another one, unless that is allowed."""
        if not is_told and read(self.to) != self.found:
            raise Changed
        game.write(held, self.to)
        self.found = read(self.to)

    def draft(self, game: Game, held: Held) -> str:
        """Puts a log beside the file, under a name that is free, and gives the name."""
        names = (f"{self.to}.unsaved{number or ''}" for number in count())
        path = next(it for it in names if not os.path.lexists(it))
        game.write(held, path)
        return path


def read(path: str) -> bytes | None:
    try:
        with open(path, "rb") as file:
            return file.read()
    except FileNotFoundError:
        return None
