"""What the measuring scripts find, kept in docs/MEASURED.md: each script writes its own section.

A section begins with its heading, has a line with the day and the machine, and ends at the next
heading of its kind. The rest of the page stays as it is.
"""

import datetime
import os
from collections.abc import Iterable

from common import files

PAGE = "docs/MEASURED.md"


def today() -> str:
    return f"{datetime.date.today():%-d %B %Y}"


def table(heads: list[str], rows: Iterable[Iterable[object]]) -> str:
    """A table as a page has it: numbers with commas, all else as it is."""
    cells = ([f"{it:,}" if isinstance(it, int) else str(it) for it in row] for row in rows)
    head, *lines = (f"| {' | '.join(row)} |\n" for row in [heads, *cells])
    return "".join([head, "|---" * len(heads) + "|\n", *lines])


def rows_of(title: str) -> dict[str, list[str]]:
    """The rows of the one table of a section, by their first cells."""
    _, *rows = next(files.tables_in(files.section_of(PAGE, title)), [])
    return {row[0]: row for row in rows}


def write(title: str, text: str) -> None:
    """Puts a text in the place of a section, or below the last one."""
    said = f"Measured on {today()}, on {os.cpu_count()} processors."
    new = f"## {title}\n{said}\n{text.strip()}\n"
    before, _, after = files.text_of(PAGE).partition(f"\n## {title}\n")
    rest = after.partition("\n## ")[1:]
    files.write(PAGE, f"{before.rstrip()}\n\n{new}{''.join(rest)}")
