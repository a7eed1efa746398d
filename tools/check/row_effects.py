"""What rows of rules do, in the same words for a row of a page and for its definition: a module.

    effects_in(tables_defined())["kill_rows"]    the effects of each row of a table
    effects_shown(cells, roles, about, before)   those of a row of a page
    effects_modelled(row, about)                 those of a row of the model

Effects stand in their order, such as `bird-dead`, "BIRD vanishes" and "BIRD gets prop 0": what is
said, what becomes of objects, which of their texts is printed, how the game ends, which verb or
question follows. On a page a verb without a subject is of the object that was named last, as are
`it` and `its`; x is the object that the row is about, or that the rows before it leave; and "the
same" is what the row above does, except for what it says. What a row does beside this isn't among
them, such as what it counts.
"""

import os
import re
from collections import defaultdict
from collections.abc import Iterator, Mapping, Sequence
from typing import NamedTuple

from common.files import cases_in, without_links
from rule_tables import SHORT_NAME, Table, object_named, tests_of, texts_defined, with_effects

THING = r"(\(the name\.\w+\)|\w+)"
# What is done to an object, and what has no object, by the words of definitions and of pages.
PAGE = f"{os.path.dirname(os.path.abspath(__file__))}/effects.md"
DEEDS, OTHERS, FORMS, ALONE, MODEL = (dict[str, str](cases_in(PAGE, it)) for it in (
    "Deeds", "Others", "Forms", "Alone", "Model"))
ALONE = {f"^{it}(?:,|$)": it for it in OTHERS.values()} | ALONE
DEFINED = re.compile(
    rf"\bsays? role\.(?P<role>\w+)|\bset_prop {THING} (?P<prop>\w+)|\blook {THING} (?P<text>\w+)"
    rf"|\b(?P<deed>{'|'.join(DEEDS)}) {THING}|\bsend {THING} place\.(?P<place>\w+)"
    rf"|\bmove {THING} (?P<to>\(\w+|\w+)|\b(?:ends|end_as) (?:ending\.)?(?P<end>\w+)"
    rf"|\bdoes verb\.(?P<verb>\w+) {THING}?|\b(?:poses|ask) question\.(?P<question>\w+)"
    rf"|\bfind_treasure (?P<seen>\w+)|\btell_its_text_for (?P<its>\w+)"
    rf"|(?<!\.)\b(?P<other>{'|'.join(OTHERS)})\b(?! ≡)")
TARGETS = {"(home_of": "goes home", "(end_of": "moved to the other end", "start": "moved to start"}
NUMBER = re.compile(r"(?m)^ *([A-Z][A-Z_\d]+) = (?:(?:pos )?(\d+)|negsuc (\d+))$")
SINGLE = re.compile(r"(?m)^ *(\w+) d = (set_prop (?:\(the name\.\w+\)|\w+) [A-Z_]+)\b")
PLAIN = re.compile(r"[\s∷=]*(?:row|plain_row|chance_row|otherwise) ")  # a row without an answer
IDLE = re.compile(r"(?<!∷)\s\[\](?: ∷ \[\])?\s*$")  # and without effects
NAME = r"\b(?:[A-Z]{2,}2?|x)\b"
CLAUSE = re.compile(r"; |: |, and |, (?!and)| and |\. ")
SAID = re.compile(r"`([a-z][a-z0-9-]*)`(?: is said)?")


class Effects(NamedTuple):
    """What a row does, the object that it is about, or x, whether it does nothing at all; None
    if it has an answer, too; and its text without tests, with the effects written out."""

    done: list[str]
    about: str
    is_idle: bool | None
    text: str


class Names:
    """What words of the definitions mean: things, numbers, and single effects by other names."""

    def __init__(self) -> None:
        text = "\n".join(texts_defined().values())
        names = SHORT_NAME.findall(text) + re.findall(r"(\(the name\.(\w+)\))", text)
        self.things = {it: object_named(name) for it, name in names}
        self.numbers = {name: int(up) if up else -int(down) - 1
                        for name, up, down in NUMBER.findall(text)}
        self.effects = dict[str, str](SINGLE.findall(text))

    def written_out(self, row: str) -> str:
        """A row with its single effects in place of their other names."""
        return re.sub(r"\w+", lambda it: self.effects.get(it[0], it[0]), row)

    def of(self, row: str, about: str) -> Iterator[str]:
        """The effects of a row without its tests, in which x is what it is about."""
        for found in DEFINED.finditer(row):
            kind, word = next((kind, word) for kind, word in found.groupdict().items() if word)
            given = "".join(it for it in found.groups() if it and it != word)
            thing = self.things.get(given, about if given in ("x", "it") else "")
            number = self.numbers.get(word, word)
            if kind == "verb":
                yield f"as {word.upper()} {thing if given != 'x' else ''}".strip()
            elif kind == "to":
                yield from (f"{thing} {it}" for form, it in TARGETS.items() if word == form)
            else:
                yield {"role": word.lower(), "prop": f"{thing} gets prop {number}",
                       "text": f"{thing} text {number}", "its": f"its text {number}",
                       "place": f"{thing} moved to {word.lower()}", "question": f"asks {word}",
                       "deed": f"{thing} {DEEDS.get(word)}", "end": f"ends as {word.lower()}",
                       "seen": f"it is seen with prop {number}",
                       "other": OTHERS.get(word, "")}[kind]


def effects_in(defined: Mapping[str, Sequence[Table]]) -> dict[str, list[Effects]]:
    names, lists = Names(), defaultdict[str, dict[str, str]](dict)  # of each crate
    for path, tables in defined.items():
        lists[path.split("/")[1]] |= {it.name: it.text for it in tables if it.form == "effects"}
    found = defaultdict[str, list[Effects]](list)
    for path, table in ((path, it) for path, tables in defined.items() for it in tables):
        left = "x"  # what x is in all rows from here on
        for row in table.rows if table.form != "effects" else ():
            tests = tests_of(row)
            own = re.findall(r"\bis(?:_it)? name\.(\w+)", tests)
            about = object_named(own[0]) if len(own) == 1 and "no (" not in tests else left
            if other := re.fullmatch(r"\(no \(is name\.(\w+)\) ∷ \[\]\)", tests):
                left = object_named(other[1])
            rest = row.partition(tests)[2] if tests else row
            whole = names.written_out(with_effects(rest, lists[path.split("/")[1]]))
            is_idle = IDLE.search(rest) is not None if PLAIN.match(row) else None
            found[table.name].append(Effects([*names.of(whole, about)], about, is_idle, whole))
    return found


def effects_shown(cells: Sequence[str], roles: set[str], about: str,
                  before: Sequence[str]) -> Iterator[str]:
    """The effects that a row of a page names after when it applies, and after the row before it."""
    when, *others = cells
    text = without_links("; ".join(filter(None, others)))
    last, waiting = re.findall(NAME, when)[-1:], list[str]()
    for clause in (it.strip(" .") for it in CLAUSE.split(text.replace(", with ", " "))):
        said = SAID.fullmatch(clause)
        if said and said[1].replace("-", "") in roles:
            yield said[1].replace("-", "")
        elif clause == "the same":
            yield from (it for it in before if it not in roles)
        elif alone := told_by(clause, ALONE):
            yield alone
        else:
            names = [about if it == "x" else it for it in re.findall(NAME, clause)]
            last, waiting = [*waiting, *names] if names else last, []
            if deed := told_by(clause, FORMS):
                yield from (f"{it} {deed}" for it in last)
            elif names and re.fullmatch(NAME, clause):
                waiting = last


def effects_modelled(row: str, about: str) -> list[str]:
    """The effects of a row of the model, in which x and k are what it is about."""
    told = (told_by(it.strip(), MODEL) for it in row.partition("|")[2].split(";"))
    return [re.sub(r"(?<=\w)-", "", re.sub(r"^[xk]\b", about, it)) for it in told if it]


def told_by(clause: str, forms: Mapping[str, str]) -> str:
    """What the first of these forms that a clause has says of it, or nothing."""
    for form, said in forms.items():
        if found := re.search(form, clause):
            is_end = said == "ends as {}"
            return said.format(*(it.replace(" ", "").lower() if is_end else it
                                 for it in found.groups()))
    return ""
