"""Suites of logs: which logs they have, which of them words mean, and how they are divided."""

import os
from functools import cached_property
from typing import Iterable, Iterator

from .logs import KINDS, Log, is_lost

NAME = "logs"  # the folder of a suite; the files that heads name lie above it


def files_below(root: str) -> Iterator[str]:
    """The paths of the files of a folder and of all below it, and of folders that can't be read.
    Links to folders are followed, after all other folders, and no folder is read twice."""
    folders, links, known = [root], list[str](), set[str]()
    while folders or links:
        folder = folders.pop() if folders else links.pop(0)
        if (real := os.path.realpath(folder)) in known:
            continue
        known.add(real)
        try:
            names = sorted(os.listdir(folder))
        except OSError:
            yield folder
            continue
        for path in (os.path.join(folder, it) for it in names):
            if os.path.isdir(path):
                (links if os.path.islink(path) else folders).append(path)
            else:
                yield path


class Suite:
    """The logs of a folder. Their heads name files from `top`, and they have names from `base`."""

    def __init__(self, root: str, top: str | None = None) -> None:
        self.top = os.path.realpath(top or os.path.dirname(os.path.abspath(root)))
        self.root = os.path.realpath(root)
        self.is_named_so = os.path.basename(self.root) == NAME
        self.base = self.root if self.is_named_so else self.top
        self.known: dict[str, Log] = {}

    def log(self, stem: str) -> Log:
        return self.known.setdefault(stem, Log(self, stem))

    @cached_property
    def stems(self) -> list[str]:
        """The paths, without a kind, of the logs, transcripts and scripts of the folder."""
        found = set()
        for path in files_below(self.root):
            stem, kind = os.path.splitext(path)
            if kind in KINDS:
                found.add(stem)
            elif os.path.isdir(path) or is_lost(path) and os.path.basename(path)[0] != ".":
                found.add(path)
        return sorted(found, key=lambda it: os.path.relpath(it, self.base))

    @cached_property
    def files(self) -> set[str]:
        """The files of its logs, and those that their heads name, as far as they are there."""
        paths = {stem + kind for stem in self.stems for kind in KINDS}
        paths |= {os.path.join(self.top, it) for it in self.named}
        return {it for it in paths if os.path.isfile(it)}

    @cached_property
    def names(self) -> dict[str, Log]:
        return {it.name: it for it in map(self.log, self.stems)}

    def logs(self, folder: str | None = None) -> list[Log]:
        """The logs of a folder, with what has a wrong place, without what is meant for no run."""
        below = os.path.join(folder or self.root, "")
        return [self.log(it) for it in self.stems if it.startswith(below) and self.log(it).is_run]

    def runs(self) -> dict[str, Log]:
        """The logs that are run, by their names."""
        return {it.name: it for it in self.logs() if it.misplaced is None}

    @cached_property
    def named(self) -> set[str]:
        """The words that the heads of the logs that are run have."""
        heads = (self.log(it).head for it in self.stems if self.log(it).has(".log"))
        runs = (it for it in heads if "no run" not in it)
        return {word for head in runs for words in head.values() for word in words}


class Suites:
    """The suites that the words of a command line are about."""

    def __init__(self, here: str, default: Suite, top: str | None = None) -> None:
        self.here, self.default, self.top = here, default, top
        self.places = (here, default.top, default.root)  # where a path may begin
        self.found = {default.root: default}

    def of(self, folder: str) -> Suite:
        """The suite of a folder: the nearest folder `logs`; if there is none, the folder, and files
        are then named from where the call is."""
        default, parts = self.default, folder.split(os.sep)
        is_below = os.path.join(folder, "").startswith(os.path.join(default.root, ""))
        if is_below and (self.top or default.is_named_so):
            return default
        root, top = folder, self.top or self.here
        if NAME in parts and not self.top:
            root = os.sep.join(parts[: len(parts) - parts[::-1].index(NAME)])
            top = os.path.dirname(root)
        elif is_below:
            return default
        if root not in self.found:
            self.found[root] = Suite(root, top)
        return self.found[root]

    def paths(self, word: str, places: Iterable[str]) -> Iterator[str]:
        """The paths that a word may mean: a link below the suite's folder is first of the suite."""
        for path in (os.path.abspath(os.path.join(it, word)) for it in places):
            if path.startswith(os.path.join(self.default.root, "")):
                yield path
            yield os.path.realpath(path)

    def at(self, stem: str) -> list[Log]:
        """The log of a path, if there is one."""
        for path in self.paths(stem, self.places[:2]):
            if any(os.path.isfile(path + it) for it in KINDS):
                return [self.of(os.path.dirname(path)).log(path)]
        return []

    def meant(self, word: str) -> list[Log]:
        """The logs that a word may mean: one by its name or path, those of a folder, or those whose
        names end with it."""
        stem, kind = os.path.splitext(word)
        stem = stem if kind in KINDS else word
        names = self.default.names if self.default.is_named_so else {}
        if found := [names[stem]] if stem in names else self.at(stem):
            return [it for it in found if it.is_run]
        for folder in self.paths(word, self.places):
            if os.path.isdir(folder) and (found := self.of(folder).logs(folder)):
                return found
        return [it for name, it in names.items() if name.endswith(f"/{stem}") and it.is_run]


def shards(logs: Iterable[Log], count: int) -> list[list[Log]]:
    """Logs in parts that have about as many lines each, in the order of the logs."""
    order = {log: at for at, log in enumerate(logs)}
    parts: list[list[Log]] = [[] for _ in range(count)]
    lines = [0] * count
    for log in sorted(order, key=lambda it: (-it.line_count, it.name)):
        at = lines.index(min(lines))
        parts[at].append(log)
        lines[at] += log.line_count + 1
    return [sorted(it, key=order.__getitem__) for it in parts]
