"""Names numbers of pages that aren't those of what has them.

Each number of figures.md stands on its page between its words, which may be in several lines. It is
that of a definition, with those that it is made of, how many variants a type of the code has, how
many crates one is built on, how many files there are, or how many rows a table of a page has.
"""

import re
from collections.abc import Iterator, Mapping
from functools import cache
from math import prod
from pathlib import Path

from common.files import below, files, section_of, tables_in, text_if
from common.sources import sources


@cache
def definition(name: str) -> tuple[list[str], str]:
    """The names of the numbers that a definition is given, and what it says."""
    found = (re.search(rf"(?m)^{name}((?: \w+)*) = (.*)$", it.text) for it in sources("specs"))
    if it := next(filter(None, found), None):
        return it[1].split(), it[2]
    raise ValueError(f"nothing defines {name}")


def value(text: str, given: Mapping[str, int]) -> int:
    """The number that a sum of products of numbers and definitions is, some of which are given."""
    def one(part: str) -> int:
        name, *rest = part.split()
        if name.isdecimal() or name in given:
            return int(given.get(name, name))
        names, body = definition(name)
        return value(body, {it: value(word, given) for it, word in zip(names, rest)})

    return sum(prod(map(one, it.split(" * "))) for it in text.split(" + "))


def variants(kind: str) -> int:
    for file in sources("src"):
        if found := re.search(rf"(?ms)^pub enum {kind} {{\n(.*?)^}}", file.code):
            return len(re.findall(r"(?m)^    [A-Z]\w*,$", found[1]))
    raise ValueError(f"no code has an enum {kind}")


def meant(text: str) -> int:
    """The number that a line of the list says."""
    kind, _, what = text.partition(" of ")
    if kind == "variants":
        return variants(what)
    if kind == "files":
        return len(files(what))
    if kind == "rows":
        page, _, heading = what.partition(": ")
        return sum(len(rows) - 1 for rows in tables_in(section_of(f"docs/{page}.md", heading)))
    if text.startswith("crates below "):
        return len(below(text.split()[-1])) - 1
    return value(text, {})


def faults() -> Iterator[str]:
    _, *figures = next(tables_in(Path(__file__).with_name("figures.md").read_text("utf-8")))
    yield from ["tools/check/figures.md has no number"] * (not figures)
    for path, words, what in figures:
        if not (text := text_if(path)):
            continue
        form = r"\s+".join(map(re.escape, words.split())).replace(r"\{\}", r"(\d[\d,]*\b)")
        found = re.findall(form, text)
        if not found:
            yield f"{path}: it doesn't say `{words}`"
        for said in {int(it.replace(",", "")) for it in found} - {number := meant(what)}:
            yield f"{path}: it says {words.format(said)}, and not {number}"
