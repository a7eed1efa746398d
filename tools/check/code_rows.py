"""The tables of rules as code and the model have them: a module.

    tables_coded()["Open"]["14"]    what the code of a row does: once, unless functions share it
    tables_modelled()["OPEN/LOCK"]  the rows of a table of the model, by its name on the page

In code a table is what `rows!` has, in several parts where a rule has several functions: a part
begins with the number of its first row, after `from`. In the model tables are texts of their own.
"""

import re
from collections import defaultdict
from collections.abc import Iterable, Iterator
from typing import NamedTuple

from common.files import files, text_of
from common.sources import sources
from rule_tables import ASKED, bracket_of, depths, parts_between, with_effects

BEGIN = re.compile(r"^(?! *//).*\brows! \{ (?:scene|self), Table::(\w+)[^;{]*;", re.MULTILINE)
INNER = re.compile(r"\brows! (?=\{)")
# The words of effects that code and definitions share.
WORDS = """say set_prop destroy bring fix loosen juggle send move carry put lay_down panic lose_one
troll_goes lose_to_snake look""".split()
EFFECT = re.compile(rf"(?:(?:scene|self)\.)?({'|'.join(WORDS)})(?:_to)?\(")
ROLE = re.compile(r"(?<!Place)Role::(\w+)")
LET = re.compile(r"\blet \w+ = [^;]+(?=;)")
IDLE = re.compile(r"let \w+ = |$")  # a statement that does nothing by itself


class Coded(NamedTuple):
    """What a row of code does: the roles that it says, its effects by the words of the definitions,
    and the words of its tests. What it calls or changes by itself may be more."""

    roles: list[str]
    words: list[str]
    does_more: bool
    asked: list[str]


def coded(row: str) -> Coded:
    """What a row does without the rows of other tables in it."""
    while inner := INNER.search(row):
        row = row.replace(inner[0] + bracket_of(row[inner.end() :]), "more()", 1)
    tests, _, does = row.partition("=>")
    done = does.partition("->")[0].strip()
    parts = statements(f"{done[1:-1]};}}") if done[:1] == "{" else parts_between(",", done)
    effects = [EFFECT.match(it.strip()) for it in parts if not IDLE.match(it.strip())]
    return Coded([it.lower() for it in ROLE.findall(row)], [it[1] for it in effects if it],
                 None in effects, ASKED.findall(tests))


def is_part(said: Iterable[str], due: Iterable[str]) -> bool:
    """Whether one list is a part of another, in its order."""
    left = iter(due)
    return all(it in left for it in said)


def statements(text: str) -> list[str]:
    """The statements of a block, from the first letter after its brace to the one that ends it."""
    end = next((at for at, depth in enumerate(depths(text)) if depth < 0), None)
    return [" ".join(it.split()) for it in parts_between(";", text[:end])[:-1]]


def rows_after(text: str, before: str) -> Iterator[tuple[str, str]]:
    """The rows of a table by their numbers, from the first letter after its head, each test with
    what its names stand for by the lines before it."""
    number, meant = 1, dict[str, str]()
    for statement in LET.findall(before) + statements(text):
        word, _, rest = statement.partition(" ")
        tests, arrow, does = statement.partition(" => ")
        if word == "from":
            number = int(rest)
        elif word == "let" and not arrow:
            meant |= [rest.split(" = ", 1)]
        elif word != "in" and not does.startswith("in "):
            yield str(number), with_effects(tests, meant) + arrow + does
            number += 1


def parts_coded() -> Iterator[tuple[str, str, list[tuple[str, str]]]]:
    """The tables of code and the parts of one, in their order: the file, the name and the rows."""
    for file in sources("src"):
        for head in BEGIN.finditer(file.text):
            before = file.text[file.text.rfind("fn ", 0, head.start()) : head.start()]
            yield file.path, head[1], [*rows_after(file.text[head.end() :], before)]


def tables_coded() -> dict[str, dict[str, list[Coded]]]:
    found = defaultdict[str, dict[str, list[Coded]]](lambda: defaultdict(list))
    for _, table, rows in parts_coded():
        for number, row in rows:
            found[table][number].append(coded(row))
    return found


def tables_modelled() -> dict[str, list[str]]:
    found, name = dict[str, list[str]](), ""
    for text in map(text_of, files("model/rules/*.txt")):
        for line in re.findall(r"(?m)^[^#\n].*", text.replace("\\\n", " ")):
            if "|" in line:
                found[name].append(" ".join(line.split()))
            else:
                found[name := line] = []
    return found
