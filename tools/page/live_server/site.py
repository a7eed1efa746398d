"""What pages ask for, and what they are answered: a page, its log, changes, saving, the end."""

from collections.abc import Callable
from dataclasses import dataclass, field
from queue import SimpleQueue
from typing import NamedTuple

from cave_walk.steps import Stop

from .held import Log, Nothing, Stale, event_text
from .saving import Changed, Home
from .scripts import Malformed, edits_of, script_of

SECONDS = 20  # that a page waits for news
TEXT, JSON_LINES = "text/plain; charset=utf-8", "application/jsonl"


class Answer(NamedTuple):
    """An answer: its status, its content and the kind of it, the file that it is saved as, and
    whether the server ends once it is sent."""

    content: bytes
    kind: str = JSON_LINES
    status: int = 200
    file: str | None = None
    ends: bool = False


def told(status: int, kind: str, message: str = "") -> Answer:
    """A short answer: what kind it is of, and what is said."""
    return Answer(event_text({"kind": kind, "message": message}, []), status=status)


def number_of(said: dict[str, object], name: str) -> int:
    number = said.get(name)
    if not isinstance(number, int) or isinstance(number, bool) or number < 0:
        raise Malformed(f"{name} is a number")
    return number


def news_after(asked: dict[str, str]) -> int:
    """The last event that a page knows."""
    known = asked.get("after", "")
    if not known.isdecimal() or len(known) > 9:
        raise Malformed("after is a number")
    return int(known)


@dataclass
class Site:
    """What a server answers. Its calls may come at once: each waits for the log."""

    log: Log
    home: Home
    page: Callable[[], bytes]
    # Signals put into it, too, at any moment: an event that is being set could wait for itself.
    ending: SimpleQueue[None] = field(default_factory=SimpleQueue)

    # ---- what is only looked at

    def get(self, name: str, asked: dict[str, str]) -> Answer | None:
        if name == "":
            return Answer(self.page(), "text/html; charset=utf-8")
        log, file = self.log, self.home.name
        answers: dict[str, Callable[[], Answer | None]] = {
            "walk": lambda: Answer(log.whole()),
            "news": lambda: Answer(log.after(news_after(asked), SECONDS)),
            "log": lambda: Answer(log.held.log, TEXT, file=file),
            "script": lambda: Answer(log.script(), TEXT, file=f"{file}.script"),
            "undo": lambda: Answer(log.undo_script(), TEXT, file=f"{file}.undo"),
            "change": lambda: next((Answer(it.script, TEXT) for it in log.changes
                                    if str(it.number) == asked.get("number")), None)}
        with log.lock:
            return answers[name]() if name in answers else None

    # ---- what changes something

    def post(self, name: str, said: dict[str, object]) -> Answer | None:
        """What a page's request leads to; None if there is no such thing."""
        done = {"change": self.change, "go": self.go, "save": self.save, "end": self.end}.get(name)
        try:
            with self.log.lock:
                return done(said) if done else None
        except Stale:
            return told(409, "stale")
        except Nothing:
            return told(409, "nothing")
        except Changed:
            return told(409, "changed", self.home.to)
        except Stop as refused:
            return told(422, "refused", refused.message)

    def change(self, said: dict[str, object]) -> Answer:
        script = script_of(edits_of(said.get("edits")))
        self.log.demand_fresh(number_of(said, "number"))
        return Answer(self.log.change(script))

    def go(self, said: dict[str, object]) -> Answer:
        """Takes changes back, or makes them again."""
        count = number_of(said, "count")
        self.log.demand_fresh(number_of(said, "number"))
        return Answer(self.log.go_to(count))

    def save(self, said: dict[str, object]) -> Answer:
        held = self.log.held
        self.home.save(self.log.game, held, is_told=said.get("told") is True)
        self.log.saved = held.log
        return Answer(self.log.tell({"kind": "saved", "file": self.home.to}))

    def end(self, _: dict[str, object]) -> Answer:
        return Answer(self.log.tell({"kind": "ended"}), ends=True)
