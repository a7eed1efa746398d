"""Writes transcripts again: all of what the program prints, or the hunks that a reader accepts."""

import sys
from typing import Sequence

from common import outputs

from .hunks import Hunk, accepted
from .logs import Log

ASKS = "Write this? y(es), n(o), e(verywhere), a(ll of this log), q(uit): "


def write(log: Log, lines: Sequence[str]) -> bool:
    """Writes a transcript, whole or not at all. If it can't be written, a line says why."""
    try:
        outputs.put(f"{log.stem}.out", "".join(lines).encode("latin-1"))
    except OSError as error:
        print(f"{log.path}.out can't be written: {error.strerror}", file=sys.stderr)
        return False
    return True


class Asked:
    """What a reader said of the hunks of a suite, one after the other."""

    def __init__(self) -> None:
        self.everywhere: set[tuple[str, ...]] = set()
        self.is_over = False

    def answer(self, log: Log, hunk: Hunk) -> str:
        """One of the letters y, n, a."""
        if self.is_over:
            return "n"
        if hunk.change in self.everywhere:
            return "y"
        print(log.name, *(f"  {it}" for it in hunk.lines), sep="\n", flush=True)
        while True:
            try:
                said = input(ASKS).strip()[:1].lower()
            except EOFError:
                said = "q"
            except KeyboardInterrupt:
                print()  # after the question
                raise
            if said in ("y", "n", "a"):
                return said
            if said == "e":
                self.everywhere.add(hunk.change)
                return "y"
            if said == "q":
                self.is_over = True
                return "n"
            print("An answer is one of the letters y, n, e, a and q.", file=sys.stderr)

    def update(self, log: Log, old: Sequence[str], new: Sequence[str],
               hunks: Sequence[Hunk]) -> list[Hunk]:
        """Writes the hunks that the reader accepts, also if the questions are interrupted; gives
        those that are left."""
        taken, left = list[Hunk](), list[Hunk]()
        try:
            for at, hunk in enumerate(hunks):
                said = self.answer(log, hunk)
                if said == "a":
                    taken += hunks[at:]
                    break
                (taken if said == "y" else left).append(hunk)
        finally:
            is_written = not taken or write(log, accepted(old, new, taken))
        return left if is_written else [*hunks]
