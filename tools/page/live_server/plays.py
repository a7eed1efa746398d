"""What the program prints of a held log, and of a script that changes it."""

import time
from collections.abc import Sequence
from concurrent.futures import ThreadPoolExecutor
from typing import NamedTuple

from .program import Given, Program, Word
from .scripts import seed_after
from .views import Report, beside_its_numbers, facts_of, report_of, turns_of, walk_of

CHECKPOINTS = 300  # of a log, about: fewer cost less, and a replay begins farther ahead
MOST_EVERY = 10_000
AT_ONCE = 3  # runs: the walk takes as long as all others together, and more get in its way
NO_EDIT = b"# no edit\n"


class Held(NamedTuple):
    """A log as it is held: its bytes, its seed, the lines of its walk, the facts it ends with."""

    log: bytes
    seed: str
    walk: list[bytes]
    facts: list[str]

    def length(self) -> int:
        """How many lines the log has."""
        return len(self.walk) - 1


class Played(NamedTuple):
    """What a script made of a held log, and how long the program took."""

    held: Held
    report: Report
    undo: bytes
    milliseconds: float


class Patch(NamedTuple):
    """What has to be put into the walk of one log to make it that of another.

    The lines from `start` to `until` take the place of those to `old_until`; each later line has
    another place and `turns` more turns. `others` are later lines that also say something else."""

    start: int
    until: int
    old_until: int
    turns: int
    lines: list[bytes]
    others: list[bytes]
    opening: bytes | None


class Game(NamedTuple):
    """A cave with its bindings, and the program that plays logs in it."""

    program: Program
    cave: Given
    bind: Given | None

    def options(self) -> list[Word]:
        return ["--bind", self.bind] if self.bind else []

    def checked(self, view: str) -> bytes:
        """What `check` prints of the cave."""
        return self.program.said("check", self.cave, *self.options(), "--print", view)

    def said_in(self, words: Sequence[Word], *views: str) -> list[bytes]:
        """What runs with these words print in each of these views; a Stop if one of them fails."""
        with ThreadPoolExecutor(AT_ONCE) as pool:
            runs = [pool.submit(self.program.said, *words, "--print", it) for it in views]
        return [it.result() for it in runs]

    def play(self, log: Given, seed: str) -> Held:
        """A log, played from its first line."""
        words: list[Word] = ["play", self.cave, log, *self.options(), "--seed", seed]
        walk, facts = self.said_in(words, "walk", "state")
        return Held(log.content(), seed, walk_of(walk, []), facts_of(facts))

    def change(self, held: Held, script: bytes) -> Played:
        """What a script does to a held log; a Stop if one of its edits is refused."""
        begun = time.monotonic()
        with Given("the log", held.log) as log, Given("change", script) as edits:
            words: list[Word] = [
                "edit", self.cave, log, edits, *self.options(), "--seed", held.seed,
                "--every", str(min(1 + held.length() // CHECKPOINTS, MOST_EVERY)), "--guarded",
                "--strict"]
            walk, said, changed, undo, facts = self.said_in(
                words, "walk", "reports", "log", "undo", "state")
        taken = (time.monotonic() - begun) * 1_000
        seed, report = seed_after(script, held.seed), report_of(said)
        known = held.walk[:1 + report.start] if seed == held.seed else []
        after = Held(changed, seed, walk_of(walk, known), facts_of(facts))
        return Played(after, report, undo, taken)

    def write(self, held: Held, path: str) -> None:
        """Has the program write a held log into a file: an edit without an edit."""
        with Given("the log", held.log) as log, Given("no edit", NO_EDIT) as script:
            self.program.said("edit", self.cave, log, script, *self.options(), "--seed", held.seed,
                              "--print", "log", "--output", path)


def patch_of(old: Held, new: Held, report: Report) -> Patch:
    """What differs in the walk of a changed log, by the report on the change."""
    until = new.length() if report.met is None else report.met
    old_until = until - (new.length() - old.length())
    was, later = old.walk[1 + old_until:], new.walk[1 + until:]
    turns = turns_of(later[0]) - turns_of(was[0]) if later else 0
    others = [now for before, now in zip(was, later)
              if beside_its_numbers(before) != beside_its_numbers(now)] if turns else []
    return Patch(report.start, until, old_until, turns, new.walk[1 + report.start:1 + until],
                 others, None if new.walk[0] == old.walk[0] else new.walk[0])


def otherwise(old: list[str], new: list[str]) -> tuple[list[str], list[str]]:
    """The facts that no longer hold, and those that hold now."""
    before, after = {*old}, {*new}
    return [it for it in old if it not in after], [it for it in new if it not in before]
