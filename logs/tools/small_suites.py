"""Small suites for `logs/tools/check-runner`, each in its own folder, and programs for them."""

import os
import re
import subprocess
import sys
import tempfile
import unittest
from collections.abc import Mapping
from typing import NamedTuple

from suite import TOP

from common.files import bytes_of, text_of, write
from common.tests import Test

PYTHON = [sys.executable, "-S"]  # only the standard library: nothing else is needed
TIME = re.compile(r"(\d (?:failed|known to fail)), in \d+\.\d s$", re.MULTILINE)
# A program that says each line of a script, if there is one, and then of a log, but no comment.
REPEAT = """\
#!/bin/sh
for file in "$4" "$3"
do [ -f "$file" ] && cat "$file"
done | awk '!/^#/ { print "\\n> " $0 "\\nSo " $0 "." }'
"""
Files = dict[str, str]
Ended = tuple[int, str]  # the status of a run, and all that it says but for the time


def answers(words: list[str]) -> str:
    """What that program says of the lines of a log."""
    return "".join(f"\n> {it}\nSo {it}.\n" for it in words)


def walk(words: list[str], head: str = "# A walk.\n") -> str:
    """A log of these lines, which that program plays."""
    return f"# cave: CAVE\n{head}" + "".join(f"{it}\n" for it in words)


class Folder:
    """Files in a folder of their own, beside a program `say`, if one is given, which `cave-suite`
    runs; otherwise it runs one that does nothing."""

    def __init__(self, files: Mapping[str, str | bytes], program: str = "") -> None:
        self.folder = tempfile.TemporaryDirectory()
        self.top = os.path.realpath(self.folder.name)
        for name, text in files.items():
            write(f"{self.top}/{name}", text)
        self.program = write(f"{self.top}/say", program) if program else "true"
        if program:
            os.chmod(self.program, 0o755)

    def read(self, name: str) -> str:
        return text_of(f"{self.top}/{name}")

    def all(self) -> dict[str, bytes]:
        """What each file has."""
        paths = (os.path.join(folder, it) for folder, _, files in os.walk(self.top) for it in files)
        return {os.path.relpath(it, self.top): bytes_of(it) for it in paths}

    def command(self, *words: str) -> list[str]:
        return [*PYTHON, f"{TOP}/tools/install/cave-suite", "--program", self.program, *words]

    def run(self, *words: str, at: str = "") -> Ended:
        """A run that is called in the folder or below it."""
        ran = subprocess.run(self.command(*words), cwd=os.path.join(self.top, at),
                             capture_output=True, stdin=subprocess.DEVNULL)
        return ran.returncode, TIME.sub(r"\1", (ran.stdout + ran.stderr).decode())


class Suite(Folder):
    """A suite of files in a folder `logs`, which its own `logs/run` plays."""

    def __init__(self, files: Files, program: str = "") -> None:
        super().__init__({f"logs/{name}": text for name, text in files.items()}, program)
        write(f"{self.top}/logs/run", text_of("logs/run"))
        os.symlink(f"{TOP}/tools", f"{self.top}/tools")

    def command(self, *words: str) -> list[str]:
        return [*PYTHON, f"{self.top}/logs/run", self.program, *words]


class Case(NamedTuple):
    """The files of a suite, the words with which it is played, and what has to follow: the status,
    what is among all that is said, and the transcript of the log `a`. `@` is the folder."""

    files: Files
    words: str
    status: int
    said: str
    program: str = ""
    after: str | None = None
    at: str = ""  # the folder of the call
    kind: type[Folder] = Suite

    def named(self) -> tuple[str, Test]:
        """What the case is, and a test that plays its suite."""
        def test(running: unittest.TestCase) -> None:
            folder = self.kind(self.files, self.program)
            status, told = folder.run(*self.words.replace("@", folder.top).split(), at=self.at)
            after = None if self.after is None else folder.read("logs/a.out")
            running.assertIn(self.said.replace("@", folder.top), told)
            running.assertEqual((status, after), (self.status, self.after), told)
        return f"{', '.join(self.files)} with {self.words} in {self.at}", test
