"""What is said about a suite that is played: for readers, as TAP and as JUnit's file, and how far
the run is."""

import os
import re
import sys
import time
from dataclasses import dataclass
from html import escape
from typing import Iterable, Sequence

from common import outputs

from .hunks import Hunk
from .logs import KINDS, Log, content
from .suites import Suite

MOST = 20  # lines that are shown of a hunk
JUNIT = re.compile(rb"\s*(<\?xml[^>]*>\s*)?<testsuites?[\s/>]")  # how a file for a CI begins
NO_XML = re.compile("[^\t\n\r -\ud7ff\ue000-\ufffd\U00010000-\U0010ffff]")
SECONDS = 0.1  # between two lines of progress


@dataclass
class Result:
    """The outcome of a log: what is wrong with it, and why that is known, if it is."""

    log: Log
    hunks: list[Hunk]
    seconds: float = 0.0
    known: str | None = None

    @property
    def has_failed(self) -> bool:
        return bool(self.hunks) and self.known is None

    def shown(self, hunks: Sequence[Hunk], is_all: bool) -> list[str]:
        """The lines of hunks, and how many more lines of the log there are."""
        lines = [it for hunk in hunks[: None if is_all else 1] for it in hunk.lines]
        lines = lines if is_all else lines[:MOST]
        left = sum(it.size for it in self.hunks) - len(lines)
        return lines + [f".. {left} lines more: --all shows them"] * (left > 0)


class Sums:
    def __init__(self) -> None:
        self.passed = self.failed = self.known = 0
        self.began = time.monotonic()

    def add(self, result: Result) -> None:
        self.failed += result.has_failed
        self.known += result.known is not None
        self.passed += not result.hunks

    def of_part(self, count: int) -> str:
        """The sum if not all of the logs were played."""
        played = self.passed + self.failed + self.known
        return f"interrupted: {played} of {count} played, {self.failed} failed"

    def __str__(self) -> str:
        known = f", {self.known} known to fail" if self.known else ""
        seconds = time.monotonic() - self.began
        return f"{self.passed} passed, {self.failed} failed{known}, in {seconds:.1f} s"


def say(lines: Iterable[str]) -> None:
    """Prints lines, without blanks at their ends."""
    try:
        print("".join(f"{it.rstrip()}\n" for it in lines), end="", flush=True)
    except BrokenPipeError:
        raise
    except OSError as error:
        raise OSError(error.errno, error.strerror, "standard output can't be written") from None


class Progress:
    """A line on a terminal that says how far the run is."""

    def __init__(self, count: int) -> None:
        self.count, self.last, self.is_shown = count, 0.0, False

    def show(self, at: int, failed: int) -> None:
        now = time.monotonic()
        if sys.stderr.isatty() and now - self.last > SECONDS:
            said = f"{at} of {self.count} logs, {failed} failed"
            print(f"\r{said}\x1b[K", end="", file=sys.stderr, flush=True)
            self.last, self.is_shown = now, True

    def clear(self) -> None:
        if self.is_shown:
            print("\r\x1b[K", end="", file=sys.stderr, flush=True)
            self.is_shown = False


class ForReaders:
    """Of a log that failed its name, the logs that have shown a difference of it before, and its
    first difference that none has shown."""

    def __init__(self, is_all: bool) -> None:
        self.is_all = is_all
        self.first: dict[tuple[str, ...], str] = {}

    def head(self, count: int) -> list[str]:
        return []

    def of(self, result: Result, at: int) -> list[str]:
        if not result.has_failed:
            return []
        name, hunks = result.log.name, result.hunks
        shown = [None if self.is_all else self.first.get(it.change) for it in hunks]
        fresh = [it for it, first in zip(hunks, shown) if first is None]
        names = ", ".join(dict.fromkeys(it for it in shown if it is not None))
        lines = [f"FAILED {name}" + f", with what differs in {names}" * bool(names)]
        for hunk in fresh if self.is_all else fresh[:1]:
            self.first.setdefault(hunk.change, name)
        return lines + [f"  {it}" for it in result.shown(fresh, self.is_all) if fresh]

    def end(self, sums: str) -> list[str]:
        return [sums]


class Tap:
    """The Test Anything Protocol, version 13."""

    def __init__(self, is_all: bool) -> None:
        self.is_all = is_all

    def head(self, count: int) -> list[str]:
        return ["TAP version 13", f"1..{count}"]

    def of(self, result: Result, at: int) -> list[str]:
        name = re.sub(r"([\\#])", r"\\\1", result.log.name)
        todo = "" if result.known is None else f" # TODO {result.known}"
        line = f"{'not ' * bool(result.hunks)}ok {at} - {name}{todo}"
        if not result.has_failed:
            return [line]
        lines = (f"    {it}" for it in result.shown(result.hunks, self.is_all))
        return [line, "  ---", "  message: |", *lines, "  ..."]

    def end(self, sums: str) -> list[str]:
        return [f"# {sums}"]


def attributes(**values: object) -> str:
    return "".join(f' {name}="{escape(str(it))}"' for name, it in values.items())


def junit(results: Sequence[Result], sums: Sums, is_all: bool) -> str:
    """The file that CIs read."""
    counts = attributes(
        name="cave-suite", tests=len(results), failures=sums.failed, errors=0, skipped=sums.known,
        time=f"{sum(it.seconds for it in results):.3f}")
    lines = ['<?xml version="1.0" encoding="UTF-8"?>', "<testsuites>", f"<testsuite{counts}>"]
    for it in results:
        folder, name = os.path.split(it.log.name)
        case = attributes(classname=folder or ".", name=name, file=f"{it.log.path}.log",
                          time=f"{it.seconds:.3f}")
        lines.append(f"<testcase{case}>")
        if it.known is not None:
            lines.append(f"<skipped{attributes(message=f'known to fail: {it.known}')}/>")
        elif it.hunks:
            first, *rest = it.shown(it.hunks, is_all)
            text = escape("\n".join([first, *rest]), quote=False)
            lines.append(f"<failure{attributes(message=first)}>{text}</failure>")
        lines.append("</testcase>")
    text = "\n".join([*lines, "</testsuite>", "</testsuites>", ""])
    return NO_XML.sub(lambda it: f"\\x{ord(it[0]) & 0xff:02x}", text)


def fault_of_junit(path: str, suites: Iterable[Suite]) -> str | None:
    """Why a file can't become one for a CI, or None: what is there has to be one, or empty."""
    is_of_suite = os.path.isfile(path) and any(
        os.path.samefile(path, it) for suite in suites for it in suite.files)
    if is_of_suite or {os.path.splitext(it)[1] for it in (path, os.path.realpath(path))} & {*KINDS}:
        return f"{path} is a file of a suite: after --junit comes the name of a report"
    try:
        if wrong := outputs.unwritable(path):
            raise wrong
        if os.path.exists(path) and (there := content(path)) and not JUNIT.match(there):
            return f"{path} is there, and is no report: name another file after --junit"
    except OSError as error:
        return f"the file for a CI can't be written: {path}: {error.strerror}"
    return outputs.fault(path, [], "--junit")


def put_junit(path: str, text: str) -> bool:
    """Puts a file for a CI, whole or not at all. If it can't be written, a line says why."""
    try:
        outputs.put(path, text.encode())
    except OSError as error:
        print(f"{path} can't be written: {error.strerror}", file=sys.stderr)
        return False
    return True
