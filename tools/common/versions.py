"""The version of the program, and what CHANGELOG.md says about each: a module."""

import re
import sys
from typing import NamedTuple

from common.files import text_of

PAGE, CODE = "CHANGELOG.md", "crates/play_command/src/app.rt"
CONSTANT = re.compile(r'^const VERSION: &str = "(\d+\.\d+)";$', re.MULTILINE)
HEADING = re.compile(r"\[(\d+\.\d+)\] - (\d{4}-\d\d-\d\d)")


class Release(NamedTuple):
    """A heading of the page, its version and its day, if it has such, and the changes below it,
    each in one line, with the kind below which it stands."""

    heading: str
    version: str
    day: str
    changes: list[tuple[str, str]]


def of_program() -> str:
    """What `cave --version` says, such as `1.0`."""
    found: list[str] = CONSTANT.findall(text_of(CODE))
    if len(found) != 1:
        sys.exit(f"{CODE} doesn't have one line `const VERSION: &str = \"N.N\";`")
    return found[0]


def sections() -> list[Release]:
    """All of the page, in its order: `[Unreleased]` first, and then versions, the newest first."""
    _, *parts = re.split(r"^## (.*)\n", text_of(PAGE), flags=re.MULTILINE)
    found = list[Release]()
    for heading, text in zip(parts[::2], parts[1::2]):
        _, *kinds = re.split(r"^### (.*)\n", text, flags=re.MULTILINE)
        changes = [(kind, " ".join(point.split())) for kind, below in zip(kinds[::2], kinds[1::2])
                   for point in re.split(r"^- ", below, flags=re.MULTILINE)[1:]]
        numbered = HEADING.fullmatch(heading)
        version, day = numbered.groups() if numbered else ("", "")
        found.append(Release(heading, version, day, changes))
    return found


def releases() -> list[Release]:
    return [it for it in sections() if it.version]
