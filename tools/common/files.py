"""The files of the repository, what crates.txt says, and what a text has."""

import glob
import os
import re
import shutil
import subprocess
import sys
from collections.abc import Callable, Iterator, Sequence
from functools import cache
from typing import Any

from common import command_line

# The repository that is read: this one, unless a test of a script names another. `make` drops the
# name, so that nothing else does.
OTHER_TOP = "RACKSHOAL_TREE_OF_A_TEST"
TOP = os.environ.get(OTHER_TOP) or os.path.abspath(f"{os.path.dirname(__file__)}/../..")
BUILT = f"{TOP}/crates/cave/out/cave"
MADE = {"out", "__pycache__"}  # folders that aren't read
SPAN = re.compile(r"`` ?(.+?) ?``|`([^`]+)`")


def text_of(path: str, encoding: str = "utf-8") -> str:
    """The text of a file, whose path begins in the repository if it isn't a whole one."""
    return bytes_of(path).decode(encoding, "replace")


def bytes_of(path: str) -> bytes:
    with open(os.path.join(TOP, path), "rb") as file:
        return file.read()


def text_if(path: str) -> str:
    """The same, or nothing if there is no such file."""
    return text_of(path) if os.path.exists(os.path.join(TOP, path)) else ""


def spans_of(text: str) -> list[str]:
    """What stands in backquotes, each in one line."""
    return [" ".join((one or other).split()) for one, other in SPAN.findall(text)]


def without_links(text: str) -> str:
    """A text of a page with the words of its links in place of them."""
    return re.sub(r"\[([^]]+)\]\([^)]*\)", r"\1", text)


def section_of(page: str, heading: str) -> str:
    """What a page says below a heading of the second level, or nothing."""
    found = re.search(rf"(?ms)^## {heading}\n(.*?)(?=^## |\Z)", text_if(page))
    return found[1].strip("\n") if found else ""


def tables_in(page: str) -> Iterator[list[list[str]]]:
    """The tables of a page, each by its rows of cells, without the line below its heads."""
    for table in re.findall(r"(?:^\|.*\n?)+", page, re.MULTILINE):
        rows = (re.split(r"(?<!\\)\|", row.strip()[1:-1]) for row in table.splitlines())
        cells = ([cell.strip() for cell in row] for row in rows)
        yield [it for it in cells if not all(re.fullmatch(r":?-+:?", cell) for cell in it)]


def cases_in(page: str, heading: str) -> list[list[str]]:
    """The rows of the table below a heading: cases of a test, in which ` / ` or `\\n` is between
    lines, and `\\|` is a bar."""
    _, *rows = next(tables_in(section_of(page, heading)))
    return [[re.sub(r" / |\\n", "\n", it).replace(r"\|", "|") for it in row] for row in rows]


def write(path: str, content: str | bytes) -> str:
    """Puts a text or bytes into a file, whose folder is made if there is none; the whole path."""
    whole = os.path.join(TOP, path)
    os.makedirs(os.path.dirname(whole), exist_ok=True)
    with open(whole, "wb") as file:
        file.write(content.encode() if isinstance(content, str) else content)
    return whole


def make(made: Callable[[], dict[str, str]]) -> int:
    """What a script does that makes texts of files, by their paths: with `--write` it writes them,
    and with `--check` it names those that are stale. The status."""
    script = "/".join(os.path.abspath(sys.argv[0]).split("/")[-3:])
    if sys.argv[1:] not in (["--write"], ["--check"]):
        sys.exit(sys.modules["__main__"].__doc__)
    stale = {path: text for path, text in made().items() if text_if(path) != text}
    if sys.argv[1] == "--check":
        return command_line.told(f"{it} isn't as `{script} --write` makes it" for it in stale)
    for path, text in stale.items():
        write(path, text)
    return 0


def files(*patterns: str) -> list[str]:
    """The files and folders of the repository that patterns mean, in their order."""
    paths = (it for pattern in patterns for it in glob.glob(pattern, root_dir=TOP, recursive=True))
    return sorted({it for it in paths if not MADE & {*it.split("/")}})


def scripts() -> list[str]:
    """The scripts in Python, which are those of tools/, logs/ and model/."""
    found = files("tools/**", "logs/**", "model/**")
    return [it for it in found if os.path.isfile(f"{TOP}/{it}") and (
        it.endswith(".py") or bytes_of(it).startswith(b"#!/usr/bin/env python3\n"))]


@cache
def crates() -> dict[str, list[str]]:
    """The crates in their order, each with those that crates.txt lists for it."""
    rows = (it.partition(":") for it in text_of("crates.txt").splitlines())
    return {name: listed.split() for name, _, listed in rows if name[:1] not in ("", "#")}


@cache
def below(crate: str) -> list[str]:
    """The crates on which one is built, each after those that it uses, and at last it itself."""
    found = [it for used in crates()[crate] if used in crates() for it in below(used)]
    return [*dict.fromkeys(found), crate]


def copy_crates(folder: str, names: Sequence[str], *left_out: str) -> None:
    """Makes a repository of some crates, without what has one of these names."""
    for name in names:
        shutil.copytree(f"{TOP}/crates/{name}", f"{folder}/crates/{name}",
                        ignore=shutil.ignore_patterns(*left_out))
    write(f"{folder}/crates.txt", "".join(f"{it}: {' '.join(crates()[it])}\n" for it in names))
    shutil.copy(f"{TOP}/HANDLES", folder)
    subprocess.run(["git", "init", "-q", folder], check=True)


def ran_in(folder: str, words: Sequence[str], **more: Any) -> subprocess.CompletedProcess[str]:
    """A run of a command in a folder, with all that it says as one text, its `stdout`."""
    return subprocess.run(
        words, cwd=os.path.join(TOP, folder), text=True, errors="replace", stdin=subprocess.DEVNULL,
        stdout=subprocess.PIPE, stderr=subprocess.STDOUT, **more)


def match_in(pattern: str | re.Pattern[str], text: str) -> re.Match[str]:
    """The first match of a pattern, of which there has to be one."""
    if match := re.search(pattern, text):
        return match
    raise ValueError(f"nothing is like {pattern}")
