"""Small repositories, each with one thing wrong, over which a check runs; a test for each.

    python3 -B -m unittest discover tools/check/tests -k WORD    runs those with WORD in their names
"""

import os
import re
import shlex
import subprocess
import sys
import tempfile
import unittest
from collections.abc import Iterable

TOP = os.path.abspath(f"{os.path.dirname(__file__)}/../../..")
sys.path += [f"{TOP}/tools/check", f"{TOP}/tools"]

from common.files import OTHER_TOP, cases_in, text_of, write  # of what is on the path now
from common.tests import Test, class_of

CASES = "tools/check/tests"  # with the pages of cases
# What a repository has: the texts of files by their paths.
Files = dict[str, str]
# A case: its name, the files, what the check has to say, and nothing if all is right.
Case = tuple[str, Files, str]


def run(files: Files, command: str, **env: str) -> tuple[int, str]:
    """The status of a command over a repository of these files, and what it says. Programs of its
    `bin` are found first. What is skipped there isn't what the gate skips."""
    own = {name: it for name, it in os.environ.items() if name != "SKIPPED"}
    with tempfile.TemporaryDirectory() as folder:
        for path, text in files.items():
            os.chmod(write(f"{folder}/{path}", text), 0o755)
        tool, *words = shlex.split(command)
        ran = subprocess.run([f"{TOP}/{tool}", *words], cwd=folder, capture_output=True, text=True,
                             env=own | {OTHER_TOP: folder, "PATH": f"{folder}/bin:{own['PATH']}"}
                             | env)
    return ran.returncode, ran.stdout + ran.stderr


def tests_of(command: str, cases: Iterable[Case], wrong: int = 1,
             **env: str) -> type[unittest.TestCase]:
    """A class with a test for each case, which runs this command; `wrong` is the status if it has
    to say something."""
    def one(files: Files, said: str) -> Test:
        def test(self: unittest.TestCase) -> None:
            status, told = run(files, command, **env)
            self.assertIn(said, told)
            self.assertEqual(status, wrong if said else 0, told)
        return test

    return class_of(command, ((name, one(files, said)) for name, files, said in cases))


def files_of(page: str) -> Files:
    """The files of a repository by their paths, and parts of texts: the rows of the last table of a
    page of cases, and the blocks below it."""
    path = f"{CASES}/{page}.md"
    blocks = re.findall(r"(?ms)^(```+)(\S+)\n(.*?)^\1$", text_of(path))
    return {name: text for *_, name, text in [*cases_in(path, "Files"), *blocks]}


def cases_of(page: str, heading: str) -> list[list[str]]:
    """The rows of a table of a page of cases, with the parts that their words in capitals mean."""
    parts = {name: it for name, it in files_of(page).items() if name.isupper()}
    words = re.compile("|".join(parts) or r"(?!)")
    return [[path, *(words.sub(lambda it: parts[it[0]], text) for text in texts), said]
            for path, *texts, said in cases_in(f"{CASES}/{page}.md", heading)]


def of_page(command: str, page: str, heading: str,
            others: Files | None = None) -> type[unittest.TestCase]:
    """A class with a test for each row of a table of a page, over the repository of the page with
    other files: in a file one text is replaced by another, or is all that it has."""
    right = {name: it for name, it in files_of(page).items() if not name.isupper()}
    right |= others or {}

    def case(path: str, *texts: str) -> Case:
        *old, new, said = texts
        text = right[path].replace(old[0], new) if old else new
        return " ".join([path, *old, new]), right | {path: text}, said

    return tests_of(command, (case(*row) for row in cases_of(page, heading)))
