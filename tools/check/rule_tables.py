"""The tables of rules, as the definitions of specs/ and the pages have them: a module.

    for path, tables in tables_defined().items(): ..
    for table in tables_shown(): table.page, table.labels, table.names, table.rows

In a definition a table is a list of rows, what follows by such a list and a last row, a list of
effects, or what is said case by case. Its rows are noted by `noted table.NAME ROWS`, by `by_table`
like that, or by `ROWS d = .._by_table table.NAME`; by the numbers of cases if it is in `BY_CASES`.

Right above a table of a page stands a comment with the names of its definitions, and before that
its name, or two, in bold, if its rows are noted. A short table may be a list: `1. WHEN → WHAT.`
"""

import re
import textwrap
from collections import defaultdict
from collections.abc import Iterable, Iterator, Sequence
from itertools import accumulate, pairwise
from typing import NamedTuple

from common.files import tables_in, text_if, without_links
from common.sources import sources

PAGES = ("docs/TURN.md", "docs/PLAY.md", "docs/VERBS.md")
SHOWN = re.compile(
    r"^(?:((?:\*\*[^*]+\*\*(?:, )?)+) )?<!-- rows: (.*) -->\n(1\. (?:.+\n)+|(?:^\|.*\n)*)",
    re.MULTILINE)
NOTED = re.compile(r"(?:\bnoted|by_table) table\.(\w+) \(?(\w+)")
ITSELF = re.compile(r"^(\w+) d =\s+\w+_by_table table\.(\w+)", re.MULTILINE)
CASES = re.compile(r"\bnote_row table\.(\w+) \(question_row ")
BY_CASES = {"Questions": "tell_question", "Yes": "answers_to", "No": "answers_to"}
HEAD = re.compile(r"(abbrev|unfoldable) pub (\w+) : (.*)$")
KIND, EFFECTS = r"(?:\w+ → )*List (?:\w+Row|\(Row .*\))", r"List \(Effect .*\)"
# where a row begins
ROW = re.compile(
    r"(?=(?:^ +\(?|∷ |= |\+\+ |\) \()(?:\w*row(?:_\w+)?|otherwise(?:_then)?)[ \n])", re.MULTILINE)
NAME = re.compile(r"(?<![.\w])[a-z]\w*")
SHORT_NAME = re.compile(r"^ *(\w+) = the name\.(\w+)$", re.MULTILINE)
THING = re.compile(r"\bname\.(\w+)|(?<![.\w])([a-z]\w*)")
ROLE = re.compile(r"\brole\.(\w+)")
TYPE = re.compile(r"\b(Named|Verb|Ending)\.(?=[A-Z])")
WORDS = {"Named": "name.", "Verb": "verb.", "Ending": "ending."}
NUMBER = re.compile(r"(?<![\w.])(?!1\b|100\b)[1-9]\d*")
# What names of tests and objects stand for, and the words of tests that code has too.
MEANING = re.compile(
    r"^ *\w+ pub (\w+) : (?:List \()?T(?:est|hing) [^→\n]+\n *\1( (?:.+\n)+)", re.MULTILINE)
ASKED = re.compile(r"(?<=Named::)\w+|(?<=name\.)\w+|\b(?!PIRATE)[A-Z][A-Z_\d]{2,}\b|(?:(?<![.\w])|"
                   r"(?<=\bis_)|(?<=\bhas_))(?:near|carried|(?:other_)?prop(?:_\w+)?|player_at)\b")
Noted = dict[str, dict[str, None]]  # the names of the rows of each table that is noted
Tables = dict[str, tuple[str, Sequence[str]]]  # each with its name and the words of its rows


class Table(NamedTuple):
    """A table of a file: `rows`, `effects` or `cases`, the word and the type by which it is
    declared, its text, and the texts of its rows, without those of tables in which it ends."""

    name: str
    form: str
    word: str
    kind: str
    text: str
    rows: list[str]


class Shown(NamedTuple):
    """A table of a page, with its rows by their cells."""

    page: str
    labels: list[str]
    names: list[str]
    rows: list[list[str]]


class Words(NamedTuple):
    """What a row says and asks: roles of messages, names of things; these and numbers of all; and
    the words of its tests, in order, with those of the tests and objects that they name."""

    roles: list[str]
    things: set[str]
    named: set[str]
    asked: Sequence[str] = ()


# ---- the definitions

def table_of(block: str) -> Table | None:
    """The table of a block of a file; none for another block."""
    kept = [it for it in block.splitlines() if not re.match(r"\s*--|module ", it)]
    head, _, text = textwrap.dedent("\n".join(kept)).partition("\n")
    if not (found := HEAD.match(head)):
        return None
    word, name, kind = found.groups()
    form, rows = "cases", re.split(rf"^(?={name} )", text, flags=re.MULTILINE)[1:]
    listed = re.fullmatch(KIND, kind) and len(rows) == 1
    if listed or re.match(rf"{name} d = \w+_by_table table\.\w+ \w+\n", text):
        text = text[text.index("=") :]
        form, rows = "rows", ROW.split(text)[1:]
    elif re.fullmatch(EFFECTS, kind):
        text = text.partition("=")[2]
        form, rows = "effects", parts_between("∷", text)[:-1]  # without the empty list
    return Table(name, form, word, kind, text, rows)


def texts_defined() -> dict[str, str]:
    """The files of definitions, with one word for a type, named in whole or by a short name."""
    return {it.path: TYPE.sub(lambda found: WORDS[found[1]], it.text) for it in sources("specs")}


def tables_defined() -> dict[str, list[Table]]:
    return {path: [*filter(None, map(table_of, re.split(r"\n\s*\n", text)))]
            for path, text in texts_defined().items()}


def depths(text: str) -> Iterator[int]:
    """How many brackets are open after each letter of a text."""
    return accumulate((letter in "([{") - (letter in ")]}") for letter in text)


def parts_between(mark: str, text: str) -> list[str]:
    """The parts of a text between marks that are in no bracket."""
    marks = [at for at, depth in enumerate(depths(text)) if text[at] == mark and not depth]
    return [text[one + 1 : other] for one, other in pairwise([-1, *marks, len(text)])]


def bracket_of(text: str) -> str:
    """A text up to the end of the bracket that it begins with."""
    return text[: [*depths(text), 0].index(0) + 1]


def parts_of(texts: dict[str, str]) -> dict[str, set[str]]:
    """For each table of a file, the tables of the file from which it is made."""
    parts = {name: set(NAME.findall(text)) & texts.keys() - {name} for name, text in texts.items()}
    for _ in texts:
        parts = {it: own.union(*(parts[part] for part in own)) for it, own in parts.items()}
    return parts


def tests_of(row: str) -> str:
    """What the tests of a row say: its first list, or the name of one; nothing for a last row."""
    head, _, rest = row.strip(" ()=∷+").partition(" ")
    tests = bracket_of(rest) if rest.startswith("(") else rest.partition(" ")[0]
    return "" if head.startswith("otherwise") else tests


def with_effects(text: str, effects: dict[str, str]) -> str:
    """A text, with the lists of effects that it names written out."""
    def written_out(found: re.Match[str]) -> str:
        others = {name: listed for name, listed in effects.items() if name != found[0]}
        return with_effects(effects[found[0]], others) if found[0] in effects else found[0]

    return NAME.sub(written_out, text)


def things_in(text: str, short_names: dict[str, str]) -> set[str]:
    found = {named or short_names.get(short, "") for named, short in THING.findall(text)} - {""}
    return {*map(object_named, found)}


def object_named(name: str) -> str:
    """What the pages call an object that the definitions name."""
    return f"{name.removeprefix('Second').upper()}{'2' * name.startswith('Second')}"


def rows_in_words(defined: dict[str, list[Table]]) -> dict[str, list[Words]]:
    """For each table, and each of its rows, the roles that the row says, in order, the objects of
    its tests, or of an effect of a list, and all objects and numbers above 1 that it has, without
    those of a list that has a table of its own."""
    shown = {name for it in tables_shown() for name in it.names}
    texts = "\n\n".join(texts_defined().values())
    short_names, meant = dict(SHORT_NAME.findall(texts)), dict(MEANING.findall(texts))
    effects = defaultdict[str, dict[str, str]](dict)  # of each crate
    for path, tables in defined.items():
        effects[path.split("/")[1]] |= {it.name: it.text for it in tables if it.form == "effects"}
    found = dict[str, list[Words]]()
    for path, table in ((path, it) for path, tables in defined.items() for it in tables):
        if table.form == "effects":
            found[table.name] = [Words([], things_in(it, short_names), set()) for it in table.rows]
            continue
        lists = effects[path.split("/")[1]]
        own = {name: text for name, text in lists.items() if name not in shown}
        found[table.name] = [
            Words(ROLE.findall(with_effects(row, lists).lower()),
                  things_in(tests_of(row), short_names),
                  things_in(said := with_effects(row, own), short_names) | {*NUMBER.findall(said)},
                  ASKED.findall(with_effects(tests_of(row), meant)))
            for row in table.rows]
    return found


def noted_in(texts: Iterable[str]) -> Noted:
    """For each table whose rows are noted in these definitions, the names of the rows."""
    found = defaultdict[str, dict[str, None]](dict)
    for text in texts:
        pairs = NOTED.findall(text) + [(table, rows) for rows, table in ITSELF.findall(text)]
        for table, rows in [*pairs, *((it, BY_CASES[it]) for it in CASES.findall(text))]:
            found[table][rows] = None
    return found


# ---- the pages

def tables_shown() -> Iterator[Shown]:
    for page in PAGES:
        for labels, names, table in SHOWN.findall(text_if(page)):
            items = re.split(r"^(?=\d+\. )", table, flags=re.MULTILINE)[1:]
            rows = [*map(cells_of_item, items)] or next(tables_in(table), [])[1:]
            yield Shown(page, re.findall(r"\*\*([^*]+)\*\*", labels), names.split(), rows)


def cells_of_item(row: str) -> list[str]:
    number, _, said = " ".join(row.split()).partition(". ")
    when, _, what = said.partition(" → ")
    return [number, when, what.removesuffix(".")]


def plain(cell: str) -> str:
    """The words of a cell without marks; an empty one is of a last row."""
    return re.sub(r"[`*]", "", without_links(cell)) or "otherwise"


def tables_in_words() -> Tables:
    """The tables whose rows are noted, in the order of the pages, each with its name there, and the
    words in which its rows say when they apply."""
    noted = noted_in(texts_defined().values())
    found: Tables = {}
    for shown in tables_shown():
        tables = [table for table, rows in noted.items() if any(it in rows for it in shown.names)]
        for label, table in zip(shown.labels, tables):
            found[table] = label, [plain(it) for _, it, *_ in shown.rows]
    return found
