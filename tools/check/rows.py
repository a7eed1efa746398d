"""Compares the tables of rules in the pages with those of the definitions, the code and the model.

Above a table of a page stands `<!-- rows: NAME NAME -->`, with the names of the tables in specs/
that say the same, one after another, and each side has the same number of rows. The tables of a
file stand in the pages in the order of the file, unless one is a part of another, and so do those
of a file of code, and the parts of one. Each table of more than one row is on a page, and those
whose rows are noted have a name there, and no others.

On the pages all rows have numbers, from 1 on, and each but the last says in its first cell when it
applies. A row says the messages of its definition, in their order, and names the objects of its
tests, or of an effect, in its first cell, and all its objects and numbers in any: so two rows that
are exchanged are noticed whenever these differ. It does what its definition does, in that order, as
far as `row_effects` reads both sides. What is defined by the cases of a value, and isn't noted,
isn't compared. So does its row of code, whose tests ask nothing else, and that of the model, whose
tables have the names of the pages', except for what docs/DUEL.md lists.
"""

import re
from collections import defaultdict
from collections.abc import Iterator
from itertools import combinations, groupby, pairwise

from code_rows import WORDS, Coded, is_part, parts_coded, tables_coded, tables_modelled
from common.files import section_of, spans_of, tables_in, text_of
from row_effects import Effects, effects_in, effects_modelled, effects_shown
from rule_tables import (BY_CASES, Noted, Shown, Table, Words, noted_in, parts_of,
                         rows_in_words, tables_defined, tables_shown)

SPAN = re.compile(r"`([a-z][a-z0-9-]*)`")
NAMES = re.compile(r"\b[A-Z]+2?\b|\b\d+\b|\b[a-z]+\b")
NUMBERS = {"two": "2", "three": "3", "four": "4", "five": "5", "six": "6"}
# Rows of which the page says elsewhere what else they do, and in which order.
ELSEWHERE = {("clocks", "1"): "the cave begins to close", ("waking", "3"): "they wake"}
# Rows whose code does by itself, or asks, what words of the definition say, or did it before.
PLAIN = {("ObjectShown", 1), ("Wave", 2), ("Toll", 1), ("Eat", 2), ("Threats", 3)}
IDLE = re.compile("nothing(?:[,:]|$)|$")
ABOVE = {"POUR": "BOTTLE gets prop 1"}  # what the page says above a table of most of its rows
WORD = re.compile(rf"\b({'|'.join(WORDS)})\b")
ITALICS, TRIED = re.compile(r"\*([^*]+)\*"), re.compile(r"the rows of ([^;]+?)(?: for each|;|$)")
MODELLED = "docs/DUEL.md", "Where a rule is in the model"  # where a table lists what isn't compared
Places = dict[str, int]  # which table of the pages shows the definition of a name


def late_tables(places: Places, tables: list[Table]) -> Iterator[tuple[str, str]]:
    """Pairs of tables of a file that stand in the pages the other way round than they should."""
    parts = parts_of({it.name: it.text for it in tables})
    order = [name for name in parts if name in places]
    near = {name: {it for it in order if places[it] == places[name]} for name in order}
    inside = {name: set[str]().union(*(parts[it] for it in near[name])) for name in order}
    for one, other in combinations(order, 2):
        are_apart = not near[one] & inside[other] and not near[other] & inside[one]
        if are_apart and places[other] < places[one]:
            yield one, other


def faults_of_counts(shown: Shown, defined: dict[str, Table]) -> Iterator[str]:
    """What is wrong with the names above a page's table, and with the number of its rows."""
    unknown = [it for it in shown.names if it not in defined]
    yield from (f"{it} is no table of rows" for it in unknown)
    count = sum(len(defined[it].rows) for it in shown.names if it in defined)
    if not unknown and count != len(shown.rows):
        yield f"{' '.join(shown.names)} has {count} rows, and the page shows {len(shown.rows)}"


def faults_of_rows(shown: Shown, defined: list[Words], roles: set[str]) -> Iterator[str]:
    """Rows of a page whose number isn't their place, that don't say when they apply, but the last,
    which applies otherwise, or that say or ask something other than those of the definition."""
    called = ", ".join(shown.labels or shown.names)
    for place, (number, words, *_) in enumerate(shown.rows, 1):
        if number != str(place):
            yield f"row {place} of {called} has the number {number}"
        if not words and place < len(shown.rows):
            yield f"{called} {number}: it has no words, and isn't the last row"
    for (number, *cells), row in zip(shown.rows, defined):
        spans = [it.replace("-", "") for it in SPAN.findall("|".join(cells))]
        told = [it for it in spans if it in roles]
        unnamed = sorted(row.things - {*NAMES.findall(cells[0])})
        lacked = sorted(row.named - {NUMBERS.get(it, it) for it in NAMES.findall(" ".join(cells))})
        head = f"{called} {number}: the definition"
        if told != row.roles:
            yield f"{head} says {' '.join(row.roles)}, and the page {' '.join(told)}"
        if unnamed:
            yield f"{head} asks of {' '.join(unnamed)}, and the page doesn't"
        if lacked:
            yield f"{head} has {' '.join(lacked)}, and the page doesn't"


def faults_of_effects(shown: Shown, defined: list[Effects], roles: set[str]) -> Iterator[str]:
    """Rows of a page that do something other than those of the definition, or in another order."""
    called, before = ", ".join(shown.labels or shown.names), list[str]()
    for (number, *cells), (done, about, is_idle, _) in zip(shown.rows, defined):
        told = [*effects_shown(cells, roles, about, before)]
        due, before = [it for it in done if it != ABOVE.get(called)], done
        words = ELSEWHERE.get((called, number))
        if (told != due) != bool(words) or words and words not in " ".join(cells):
            yield (f"{called} {number}: the definition does: {'; '.join(due) or 'nothing'},"
                   f" and the page: {'; '.join(told) or 'nothing'}")
        if is_idle is not None and is_idle != (IDLE.match(cells[1]) is not None):
            yield f"{called} {number}: the definition does {'nothing' if is_idle else 'something'}"


def faults_of_code(label: str, rows: list[Words], done: list[Effects],
                   coded: dict[str, list[Coded]]) -> Iterator[str]:
    """Rows of a table that its code doesn't have, or that say or do something else there."""
    numbers = " ".join(sorted(coded, key=int))
    if numbers != " ".join(str(it) for it, _ in enumerate(rows, 1)):
        yield f"{label} has {len(rows)} rows, and in code the rows {numbers or 'none'}"
    for number, (row, effects) in enumerate(zip(rows, done), 1):
        due = WORD.findall(effects.text)
        for it in coded.get(str(number), []):
            agree = is_part if it.does_more or label in BY_CASES else list.__eq__
            head = f"{label} {number}: the definition"
            if not agree(it.roles, row.roles):
                yield f"{head} says {' '.join(row.roles)}, and the code {' '.join(it.roles)}"
            if not agree(it.words, due) and (label, number) not in PLAIN:
                yield f"{head} has {' '.join(due)}, and the code {' '.join(it.words)}"
            if not is_part(it.asked, row.asked) and (label, number) not in PLAIN:
                yield f"{head} asks {' '.join(row.asked)}, and the code {' '.join(it.asked)}"


def labels_of(shown: Shown) -> list[str]:
    return shown.labels or [" ".join(shown.names)]


def faults_of_model(shown: Shown, defined: list[Effects], modelled: dict[str, list[str]],
                    roles: set[str]) -> Iterator[tuple[str, str]]:
    """Rows of a page's table that the model doesn't have, or that do, try or ask something else
    there, each with its name."""
    for at, label in enumerate(labels_of(shown)):
        rows, before = modelled.get(label, []), list[str]()
        if rows and len(rows) != len(shown.rows):
            yield label, f"the page has {len(shown.rows)} rows, and the model {len(rows)}"
        for place, ((number, when, *cells), row) in enumerate(zip(shown.rows, rows)):
            own, name = cells[at : at + 1] if shown.labels[1:] else cells, f"{label} {number}"
            due, about, is_idle, _ = defined[place] if defined else Effects(
                [*effects_shown([when, *own], roles, "x", before)], "x", None, "")
            before, told = due, effects_modelled(row, about)
            tests, _, does = row.partition(" | " if " | " in row else "| ")
            if told != due or is_idle is not None and is_idle != (does == "nothing"):
                yield name, (f"the page does: {'; '.join(due) or 'nothing'},"
                             f" and the model: {'; '.join(told) or does}")
            if not is_part(tried := ITALICS.findall("|".join(own)), TRIED.findall(does)):
                yield name, f"the page tries {', '.join(tried)}, and the model: {does}"
            if unnamed := {*re.findall(r"\b[A-Z]{2,}2?\b", tests)} - {*NAMES.findall(when)}:
                yield name, f"the model asks of {' '.join(sorted(unnamed))}, and the page doesn't"


def uncompared(pages: list[Shown], modelled: dict[str, list[str]],
               found: list[tuple[str, str]]) -> Iterator[str]:
    """What pages and model don't have alike, unless it is listed; what is listed for nothing."""
    shown = {label for it in pages for label in labels_of(it)}
    alone = [(it, "the pages have it, and the model doesn't") for it in sorted(shown - {*modelled})]
    alone += [(it, "the model has it, and the pages don't") for it in modelled if it not in shown]
    listed = {name for rows in tables_in(section_of(*MODELLED)) for it, *_ in rows[1:]
              for name in spans_of(it)}
    yield from (f"{name}: {said}" for name, said in found + alone if name not in listed)
    for name in sorted(listed - {it for it, _ in found + alone}):
        yield f"{MODELLED[0]}: {name} is listed, and pages and model have the same"


def faults_of_notes(noted: Noted, pages: list[Shown], places: Places) -> Iterator[str]:
    """What is wrong with the tables that are noted, and with those of the pages that have names."""
    found = defaultdict[int, list[str]](list)
    for table, rows in noted.items():
        yield from (f"{table} has {it}, which no page shows" for it in rows if it not in places)
        at = {places[it] for it in rows if it in places}
        if len(at) > 1:
            yield f"{table} stands on the pages more than once"
        for place in at:
            found[place].append(table)
    for place, (_, labels, *_) in enumerate(pages):
        tables = found[place]
        if len(tables) != len(labels):
            yield f"noted are {', '.join(tables) or 'no rows'} of {', '.join(labels) or 'no name'}"


def late_in_code(at: dict[str, int]) -> Iterator[str]:
    """Tables, and parts of one, that stand in code the other way round than on the pages."""
    for path, parts in groupby(parts_coded(), lambda it: it[0]):
        places = [(at[it], int(rows[0][0]), it) for _, it, rows in parts if rows and it in at]
        yield from (f"{path}: {one[2]} {one[1]} and {other[2]} {other[1]} stand in the pages the"
                    " other way round" for one, other in pairwise(places) if one[:2] > other[:2])


def faults() -> Iterator[str]:
    files, pages = tables_defined(), [*tables_shown()]
    coded, modelled, noted = tables_coded(), tables_modelled(), noted_in(map(text_of, files))
    defined = {it.name: it for tables in files.values() for it in tables}
    words, effects = rows_in_words(files), effects_in(files)
    places = {name: at for at, shown in enumerate(pages) for name in shown.names}
    roles = {role for name in places for row in words.get(name, []) for role in row.roles}
    unlike = list[tuple[str, str]]()
    for shown in pages:
        told = [*faults_of_counts(shown, defined)]
        are_cases = any(defined[it].form == "cases" for it in shown.names if it in defined)
        rows = [row for name in shown.names for row in words.get(name, [])]
        told += faults_of_rows(shown, [] if are_cases and not shown.labels else rows, roles)
        done = [row for name in shown.names for row in effects.get(name, [])]
        if not are_cases:
            told += faults_of_effects(shown, done, roles)
        unlike += faults_of_model(shown, [] if are_cases else done, modelled, roles)
        yield from (f"{shown.page}: {it}" for it in told)
    for name, table in sorted(defined.items()):
        if table.form == "rows" and len(table.rows) > 1 and name not in places:
            yield f"{name} has rows that no page shows"
    for path, tables in files.items():
        for one, other in late_tables(places, tables):
            yield f"{path}: {one} and {other} stand in the pages the other way round"
    for label, names in noted.items():
        rows = [it for name in names for it in words.get(name, [])]
        done = [it for name in names for it in effects.get(name, [])]
        yield from faults_of_code(label, rows, done, coded.get(label, {}))
    yield from late_in_code({table: places[it] for table, names in noted.items() for it in names
                             if it in places})
    yield from uncompared(pages, modelled, unlike)
    yield from faults_of_notes(noted, pages, places)
    yield from ["no page shows a table of rows"] * (not pages)
