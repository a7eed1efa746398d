"""A log that is held while it is edited: its changes, what takes them back, and the outcome of
each.

Each change is one edit by the program. What it leads to is an event, which pages put into what they
show; pages that have an older event get all later ones."""

import itertools
import json
import threading
from collections.abc import Iterator
from dataclasses import dataclass, field
from typing import NamedTuple

from .plays import Game, Held, Patch, Played, otherwise, patch_of
from .scripts import joined, title_of

KEPT, KEPT_BYTES = 64, 64_000_000  # events and their bytes, for pages that come later
MOST_FACTS = 60  # that are shown of each kind


class Stale(Exception):
    """A change of a log that has changed since the page's last event."""


class Nothing(Exception):
    """There is nothing to take back, or to do again."""


class Change(NamedTuple):
    """A change that was made: its script, the one that takes it back, what became of it."""

    number: int
    script: bytes
    undo: bytes
    report: str

    def told(self) -> dict[str, object]:
        return {"number": self.number, "title": title_of(self.script), "report": self.report}


class Event(NamedTuple):
    """What a page gets: a line of JSON, and lines of a walk after it."""

    number: int
    is_change: bool
    text: bytes


def event_text(head: dict[str, object], lines: list[bytes]) -> bytes:
    told = json.dumps({**head, "lines": len(lines)}, ensure_ascii=True, separators=(",", ":"))
    return b"\n".join([told.encode(), *lines, b""])


@dataclass
class Log:
    """The held log with its changes, of which the first `done` are made, and the others taken back.
    Whoever calls it holds its lock."""

    game: Game
    held: Held
    saved: bytes
    changes: list[Change] = field(default_factory=list)
    done: int = 0
    events: list[Event] = field(default_factory=list)
    lock: threading.Condition = field(default_factory=threading.Condition)
    number: int = 0
    numbers: Iterator[int] = field(default_factory=lambda: itertools.count(1))

    @property
    def is_unsaved(self) -> bool:
        return self.held.log != self.saved

    # ---- changes

    def demand_fresh(self, known: int) -> None:
        """Stale if a page doesn't know the last change."""
        if any(it.is_change for it in self.events if it.number > known) or known > self.number:
            raise Stale

    def change(self, script: bytes) -> bytes:
        """Makes a change; those that were taken back are forgotten."""
        played = self.game.change(self.held, script)
        made = Change(next(self.numbers), script, played.undo, played.report.line)
        self.changes[self.done:] = [made]
        self.done += 1
        return self.put(played, "change")

    def go_to(self, count: int) -> bytes:
        """Takes changes back, or makes them again, until this many of them are made."""
        if not 0 <= count <= len(self.changes) or count == self.done:
            raise Nothing
        if is_back := count < self.done:
            scripts = [it.undo for it in reversed(self.changes[count:self.done])]
        else:
            scripts = [it.script for it in self.changes[self.done:count]]
        played = self.game.change(self.held, joined(scripts))
        self.done = count
        return self.put(played, "back" if is_back else "again")

    def put(self, played: Played, kind: str) -> bytes:
        """Holds the log that a run has made, and announces it."""
        old, self.held, report = self.held, played.held, played.report
        gone, come = otherwise(old.facts, played.held.facts)
        return self.tell({
            "kind": kind, "report": report.line, "met": report.met, "played": report.played,
            "score": report.score, "most": report.most, "ended": report.ended,
            "milliseconds": round(played.milliseconds),
            "facts": {"gone": gone[:MOST_FACTS], "come": come[:MOST_FACTS]}},
            patch_of(old, played.held, report))

    # ---- what pages get

    def state(self) -> dict[str, object]:
        """What each event says of the log."""
        return {"number": self.number, "seed": self.held.seed, "count": self.held.length(),
                "unsaved": self.is_unsaved, "done": self.done, "changes": len(self.changes),
                "last": self.changes[self.done - 1].told() if self.done else None}

    def tell(self, head: dict[str, object], patch: Patch | None = None) -> bytes:
        """Announces an event, whose text it gives."""
        self.number += 1
        lines: list[bytes] = []
        if patch:
            head |= {"from": patch.start, "until": patch.until, "was": patch.old_until,
                     "turns": patch.turns, "others": len(patch.others),
                     "opening": patch.opening is not None}
            lines = [*([patch.opening] if patch.opening else []), *patch.lines, *patch.others]
        text = event_text(self.state() | head, lines)
        self.events.append(Event(self.number, patch is not None, text))
        while len(self.events) > 1 and (
                len(self.events) > KEPT or sum(len(it.text) for it in self.events) > KEPT_BYTES):
            self.events.pop(0)
        self.lock.notify_all()
        return text

    def whole(self) -> bytes:
        """All that a page gets when it opens."""
        told = {"kind": "whole", "list": [it.told() for it in self.changes]}
        return event_text(self.state() | told, self.held.walk)

    def after(self, known: int, seconds: float) -> bytes:
        """The events after one that a page knows; it waits for the first of them."""
        self.lock.wait_for(lambda: known != self.number, seconds)
        later = [it for it in self.events if it.number > known]
        if len(later) != self.number - known:
            return event_text(self.state() | {"kind": "reload"}, [])
        return b"".join(it.text for it in later)

    # ---- the scripts of all changes since the log was opened, and of what takes them back

    def script(self) -> bytes:
        return b"".join(it.script for it in self.changes[:self.done])

    def undo_script(self) -> bytes:
        return b"".join(it.undo for it in reversed(self.changes[:self.done]))
