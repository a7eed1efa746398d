"""Where a transcript and what the program prints now differ, as hunks."""

import os
from bisect import bisect_right
from difflib import SequenceMatcher
from itertools import takewhile
from typing import Iterator, NamedTuple, Sequence

from .logs import Log, content, lines_of

CONTEXT = 3
ECHO = "> "  # before a line of the log in a transcript
Part = tuple[str, int, int, int, int]  # kind, lines of the old text, lines of the new one


class Hunk(NamedTuple):
    """A place where two texts differ: where it is, both aligned, and the parts of the texts."""

    where: tuple[str, ...]
    body: tuple[str, ...]
    parts: tuple[Part, ...] = ()

    @property
    def lines(self) -> list[str]:
        return [*self.where, *(f"  {it}" if self.parts else it for it in self.body)]

    @property
    def size(self) -> int:
        return len(self.where) + len(self.body)

    @property
    def change(self) -> tuple[str, ...]:
        """What two hunks share if they are the same difference: all but place and context."""
        return tuple([it for it in self.body if it[0] != " "]) if self.parts else self.body


def sentence(*lines: str) -> Hunk:
    """What is wrong with a log's run, if it isn't its transcript."""
    return Hunk((), lines)


def visible(line: str) -> str:
    """A line as it is shown: a byte that isn't seen is its number, and after blanks is a `$`."""
    text = line[:-1] if line.endswith("\n") else line
    if not text.isprintable():
        text = "".join(it if it.isprintable() or it == "\t" else f"\\x{ord(it):02x}" for it in text)
    return text + "$" * text.endswith((" ", "\t")) + " (no line feed)" * (not line.endswith("\n"))


def echoes_in(log: Log, said: Sequence[str]) -> Iterator[tuple[int, str]]:
    """Where a line of the log is echoed in what a run prints, and that line: `FILE:LINE: TEXT`.
    Lines that a script inserted are passed over."""
    files = (it for it in log.words if it.endswith(".log"))
    paths = ((it, os.path.join(log.suite.top, it)) for it in files)
    name, path = next((it for it in paths if os.path.isfile(it[1])), ("", ""))
    lines = enumerate(map(str.rstrip, lines_of(content(path)) if path else []), 1)
    asked = [(number, line) for number, line in lines if line and not line.startswith("#")]
    echoes = [(at, line[len(ECHO) :].rstrip()) for at, line in enumerate(said) if line[:2] == ECHO]
    for first, second, size in blocks([it for _, it in echoes], [it for _, it in asked]):
        for (at, _), (number, line) in zip(echoes[first:][:size], asked[second:][:size]):
            yield at, f"{name}:{number}: {line}"


def blocks(old: Sequence[str], new: Sequence[str]) -> Iterator[tuple[int, int, int]]:
    """The parts that two texts share: where they begin in both, and how many lines they have."""
    first, last = same_at_ends(old, new)
    ends = len(old) - last, len(new) - last
    middle = SequenceMatcher(None, old[first : ends[0]], new[first : ends[1]])
    yield 0, 0, first
    yield from ((it.a + first, it.b + first, it.size) for it in middle.get_matching_blocks())
    yield *ends, last


def same_at_ends(old: Sequence[str], new: Sequence[str]) -> tuple[int, int]:
    """How many lines two texts share at their beginnings, and how many at their ends."""
    first = sum(1 for _ in takewhile(lambda it: it[0] == it[1], zip(old, new)))
    rest = zip(reversed(old[first:]), reversed(new[first:]))
    return first, sum(1 for _ in takewhile(lambda it: it[0] == it[1], rest))


def groups(old: Sequence[str], new: Sequence[str]) -> Iterator[list[Part]]:
    """The parts of each hunk. Only what is between the shared ends is aligned: that is quick."""
    first, last = same_at_ends(old, new)
    start, keep = max(first - CONTEXT, 0), max(last - CONTEXT, 0)
    middle = old[start : len(old) - keep], new[start : len(new) - keep]
    for parts in SequenceMatcher(None, *middle).get_grouped_opcodes(CONTEXT):
        yield [(it, a + start, b + start, c + start, d + start) for it, a, b, c, d in parts]


def marked(old: Sequence[str], new: Sequence[str], part: Part) -> list[str]:
    """The lines of a part of a hunk, with `-` before those that only the transcript has."""
    kind, first, end, new_first, new_end = part
    if kind == "equal":
        return [f"  {visible(it)}" for it in old[first:end]]
    gone, come = old[first:end], new[new_first:new_end]
    return [*(f"- {visible(it)}" for it in gone), *(f"+ {visible(it)}" for it in come)]


def differences(log: Log, old: Sequence[str], new: Sequence[str]) -> Iterator[Hunk]:
    """A hunk for each place where the transcript and what is printed now differ: the line of the
    log whose echo is before it, the line of the transcript, and both aligned."""
    echoes = [*echoes_in(log, new)]
    places = [it for it, _ in echoes]
    for parts in groups(old, new):
        _, first, _, start, end = next(it for it in parts if it[0] != "equal")
        at = next((it for it in range(start, end) if new[it].strip()), start - 1)
        echo = [line for _, line in echoes[: bisect_right(places, at)][-1:]]
        body = tuple(line for part in parts for line in marked(old, new, part))
        yield Hunk((*echo, f"{log.path}.out:{first + 1}:"), body, tuple(parts))


def accepted(old: Sequence[str], new: Sequence[str], hunks: Sequence[Hunk]) -> list[str]:
    """The old text with these hunks of the new one."""
    text, at = list[str](), 0
    for kind, first, end, new_first, new_end in (part for it in hunks for part in it.parts):
        text += old[at:first]
        text += old[first:end] if kind == "equal" else new[new_first:new_end]
        at = end
    return [*text, *old[at:]]
