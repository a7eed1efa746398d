"""A log of a suite: what its head says, how it is run, and what is wrong with its place."""

import os
import re
from contextlib import suppress
from difflib import get_close_matches
from functools import cached_property
from io import StringIO
from itertools import takewhile
from shlex import split
from typing import TYPE_CHECKING, Iterator

if TYPE_CHECKING:
    from .suites import Suite

KINDS = (".log", ".out", ".script")
KEYS = [*"cave run status stdin stdout copies mode link disk folder xfail".split(), "no run"]
SAID = re.compile(r"# ?([\w ]+?) ?: ?(.*)")
EMPTY = ("run", "copies")  # keys that may have nothing after them
ALIKE = 0.75  # a word that is this much like a key was meant to be one
OWN = "@/"  # before the name of a file in the folder of a run
Head = dict[str, list[str]]
# What the keys have after them that have neither a sentence nor words of the program.
FORMS = {"status": (r"\d+", "a number"), "stdin": (r"\S+", "a file"), "stdout": (r"\S+", "a file"),
         "mode": ("[0-7]{1,4}", "permissions"), "link": (r"\S+ \S+", "a name and a file"),
         "disk": (r"\d+", "a number"), "folder": ("read-only", "`read-only`")}
OUTPUT = re.compile("(?:--output|-q*o)(?:=?(.+))?")  # a word, which may have the file in it
DEVICES = ("/dev/null", "/dev/full")  # what is written there changes nothing


def lines_of(text: bytes) -> list[str]:
    """The lines of a text. Only a line feed ends one."""
    return [*StringIO(text.decode("latin-1"), newline="\n")]


def words_in(text: str, is_run: bool) -> list[str] | None:
    """The words of a text, or those of a run as a shell reads them; None if no shell can."""
    try:
        return split(text) if is_run else text.split()
    except ValueError:
        return None


def is_own(name: str) -> bool:
    """Whether a word names a file in the folder of a run."""
    return name.startswith(OWN) and is_below(name[len(OWN) :])


def is_below(name: str) -> bool:
    """Whether a file lies in a folder or below it, by its name from there."""
    return not os.path.isabs(name) and ".." not in name.split("/")


def is_lost(path: str) -> bool:
    """Whether it is a link that leads nowhere."""
    return os.path.islink(path) and not os.path.exists(path)


def content(path: str) -> bytes:
    with open(path, "rb") as file:
        return file.read()


class Log:
    """A log by its path without a kind."""

    def __init__(self, suite: "Suite", stem: str) -> None:
        self.suite, self.stem = suite, stem

    @cached_property
    def name(self) -> str:
        """The path below the suite's folder."""
        return os.path.relpath(self.stem, self.suite.base)

    @cached_property
    def path(self) -> str:
        """The path from the folder from which the suite's files are named."""
        return os.path.relpath(self.stem, self.suite.top)

    def has(self, kind: str) -> bool:
        """Whether there is a file of a kind. To open a pipe would wait for who writes into it."""
        return os.path.isfile(self.stem + kind)

    @cached_property
    def comments(self) -> list[str]:
        """The comments before the first other line."""
        with suppress(OSError):  # `misplaced` says so
            if self.has(".log"):
                with open(f"{self.stem}.log", encoding="latin-1", newline="\n") as file:
                    return [it.rstrip() for it in takewhile(lambda it: it.startswith("#"), file)]
        return []

    def said(self) -> Iterator[tuple[str, str, list[str] | None]]:
        """Each of these comments with a word before a colon, that word, and what is after it. The
        words of a run may be in quotes, as in a shell; they are None if a quote isn't closed."""
        for line in self.comments:
            if said := SAID.match(line):
                yield line, said[1], words_in(said[2], said[1] == "run")

    @cached_property
    def head(self) -> Head:
        """What the first comments say: {"cave": [..], "status": [..], ..}."""
        return {key: words or [] for _, key, words in self.said() if key in KEYS}

    @cached_property
    def line_count(self) -> int:
        """The lines of the log; none of a transcript or a script that has no log."""
        return content(f"{self.stem}.log").count(b"\n") if self.has(".log") else 0

    @property
    def status(self) -> int:
        return int(self.head.get("status", ["0"])[0])

    @property
    def xfail(self) -> str | None:
        """Why the log is known to fail, or None."""
        return " ".join(self.head["xfail"]) if "xfail" in self.head else None

    @property
    def words(self) -> list[str]:
        run = self.head.get("run", [])
        if "cave" not in self.head:
            return run
        cave, *options = self.head["cave"] or [""]
        if run == ["check"]:
            return ["check", cave, *options]
        if self.has(".script"):
            return ["edit", cave, f"{self.path}.log", f"{self.path}.script", *options]
        return ["play", cave, f"{self.path}.log", *options]

    def outputs(self) -> Iterator[str]:
        """The files that the words name to be written."""
        for at, word in enumerate(self.words):
            if found := OUTPUT.fullmatch(word):
                yield from [found[1]] if found[1] else self.words[at + 1 :][:1]
        if "--in-place" in self.words:
            # The log is the second file, if no option comes before: more isn't read of the words.
            has_option = any(it.startswith("-") for it in self.words[1:3])
            yield from ["--in-place"] if has_option else self.words[2:3]

    def strays(self) -> Iterator[str]:
        """What the head names that a run would write, and isn't in its own folder. The program
        itself refuses to write a folder or a device, and nobody can make a file in /proc."""
        stdout, link = (self.head.get(it, []) for it in ("stdout", "link"))
        yield from (it for it in stdout if not is_own(it) and it not in DEVICES)
        yield from (it for it in link if not is_below(it))
        for name in self.outputs():
            is_folder = os.path.isdir(os.path.join(self.suite.top, name))
            is_refused = is_folder or name in DEVICES or re.fullmatch("/proc/[^/]+", name)
            if not (is_own(name) or is_refused):
                yield name

    def misspelt(self) -> str | None:
        """A line of the head with a key that is there twice, or that has a letter wrong."""
        known: set[str] = set()
        for line, key, _ in self.said():
            is_right = key in KEYS and line.startswith(f"# {key}:")
            if key in known or not is_right and get_close_matches(key.lower(), KEYS, 1, ALIKE):
                return line
            known |= {key} & {*KEYS}
        return None

    @property
    def is_run(self) -> bool:
        """Whether the log is meant for a run, or something is wrong with its place."""
        return self.misplaced is not None or "no run" not in self.head

    def malformed(self) -> str | None:
        """What is wrong with the head by itself."""
        if line := self.misspelt():
            return f"a key is there twice, or has a letter wrong: `{line}`"
        if line := next((it for it, _, words in self.said() if words is None), None):
            return f"a quote isn't closed, or a backslash is at the end: `{line}`"
        for key, words in self.head.items():
            form, what = FORMS.get(key, ("(?s).*", ""))
            if not words and key not in EMPTY:
                return f"`# {key}:` has nothing after it"
            if not re.fullmatch(form, " ".join(words)):
                return f"`# {key}:` has {what} after it: `{' '.join(words)}` isn't that"
        if stray := next(self.strays(), None):
            return f"a run writes only into its own folder, where files are {OWN}NAME: {stray}"
        return None

    @cached_property
    def misplaced(self) -> str | None:
        """Why the name is that of no run; None if it is, or if the log rightly has none."""
        if not self.has(".log"):
            if any(is_lost(self.stem + it) for it in ("", *KINDS)):
                return "a link leads nowhere"
            is_shut = os.path.isdir(self.stem) and not os.access(self.stem, os.R_OK | os.X_OK)
            return "the folder can't be read" if is_shut else "there is no log of this name"
        if not os.access(f"{self.stem}.log", os.R_OK):
            return "the log can't be read"
        if wrong := self.malformed():
            return wrong
        runs = self.head.keys() & {"cave", "run"}
        if "no run" in self.head:
            if runs or self.has(".out"):
                return "the log is meant for no run, and has one"
            is_named = {f"{self.path}{it}" for it in (".log", ".script")} & self.suite.named
            return None if is_named else "the log is meant for no run, and no other log names it"
        if not runs:
            return "the first comments say neither `# cave:`, `# run:` nor `# no run:`"
        if "cave" in self.head and self.head.get("run", ["check"]) != ["check"]:
            return "the first comments say `# cave:`, and `# run:` with other words than `check`"
        if os.path.realpath(f"{self.stem}.out").endswith((".log", ".script")):
            return "the transcript is a link to a log or a script"
        if self.has(".script") and f"{self.path}.script" not in self.words:
            return "there is a script of this name, and the log isn't edited by it"
        return None
