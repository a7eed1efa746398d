"""Names clauses of docs/PROVED.md that aren't there or say nothing, and stale wrong bodies.

A cell of that page below the head Clause names clauses as "`function`, `function`: `label`,
`label`", or as "`label` of `function`, `function`", with semicolons between parts. Each function of
a part has to have each of its labels, in the crate of the row or in the one that the part names
after "in"; several functions of one name, such as methods, are one here. A function without a label
has to ensure something, by itself or by its trait, and a law something that a definition says. A
clause that says nothing is none: it has to cite a definition, or say something of the result or of
what an argument is afterwards, and not that something is itself or only that it has some bound.

The text after each `old: ` of a wrong body has to stand exactly once in its file. Those of
model/rows name a law, or a change that model/change-rows makes. What a bug of model/check-duel
changes has to stand once in its file, too. In each crate that ensures something, except those of
tests, a wrong body is tried, or tools/soak/parts plants it.
"""

import os
import re
import runpy
import sys
from collections.abc import Iterator
from functools import cache

from common.files import TOP, below, files, tables_in, text_of
from common.sources import CLAUSE, changes, functions_named, sources

PAGE, PARTS, LAWS = "docs/PROVED.md", "tools/soak/parts", "turn_laws"
EDITS = ("crates/*/must-fail/*.edit", "tools/soak/loops/*/*.edit", "model/rows/*/*.edit")
NAMES = re.compile(r"`([^`]+)`")
LABEL_OF = re.compile(r"`([a-z]\w*)` of ((?:(?:, | and )?`[a-z]\w*`(?! of))+)")
# What a clause says only of some results, what it calls a part of the result, and what it compares.
WRAPPED = re.compile(r"\b(?:IfOk|OnOk|OnErr|MatchOption) result\b")
CALLED = re.compile(r"λ ([\w ]+)\.")
COMPARED = re.compile(r"\s+[≡≤<↔→]\s+")
BOUND = re.compile(r"result(?:\.\w+)* [≤<] \d+|\d+ [≤<] result(?:\.\w+)*")


def crate_of(path: str) -> str:
    """The crate that a wrong body changes, by its path."""
    parts = path.split("/")
    return parts[1] if parts[0] == "crates" else parts[-2]


@cache
def rows_changed() -> set[str]:
    """What model/change-rows calls each of its changes."""
    chosen = runpy.run_path(f"{TOP}/model/change-rows")["chosen"]
    return {it.told for it in chosen([""], sys.maxsize, 1)}


def faults_of_edit(path: str) -> Iterator[str]:
    """What is wrong with a wrong body, beside that it may be refused by nothing."""
    text = text_of(path)
    found = [*changes(text)]
    if not found:
        yield "it changes nothing"
    for file, old, _ in found:
        place = f"crates/{crate_of(path)}/{file}"
        if not os.path.isfile(f"{TOP}/{place}"):
            yield f"there is no {file}"
        elif (count := text_of(place).count(old)) != 1:
            yield f"{file} has {old.strip()!r} {count} times"
    says = dict(re.findall(r"^(law|row): `?(.*?)`?$", text, re.M))
    if path.startswith("model/") and not says:
        yield "it names no law and no row"
    if "law" in says and not functions_named(says["law"], LAWS):
        yield f"there is no law {says['law']}"
    if "row" in says and says["row"] not in rows_changed():
        yield f"model/change-rows makes no change {says['row']!r}"


def faults_of_bugs() -> Iterator[str]:
    """Which bugs of the model can't be planted any more, or not in one place."""
    bugs = runpy.run_path(f"{TOP}/model/check-duel")["BUGS"]
    yield from ["model/check-duel: there is no bug"] * (not bugs)
    for bug in bugs:
        if (count := len(re.findall(bug.old, text_of(f"model/{bug.file}")))) != 1:
            yield f"model/check-duel: {bug.file} has {bug.old!r} {count} times"


def untried_crates() -> Iterator[str]:
    """Which crates ensure something, and no wrong body is tried in them."""
    planted = re.findall(r"^PLANTED.*?:(.*(?:\n +.*)*)$", text_of(PARTS), re.M)
    tried = {*map(crate_of, files(*EDITS[:2])), *" ".join(planted).split()}
    ensures = {it.crate for it in sources("src") if any(f.labels("ensures") for f in it.functions)}
    yield from (f"crates/{it}: no wrong body of it is tried" for it in sorted(ensures - tried)
                if not it.startswith("test_"))


def clauses_in(part: str) -> Iterator[tuple[str, str]]:
    """The functions that a part of a cell names, each with a label, or with none."""
    functions, _, labels = part.partition(": ")
    if labels:
        pairs = [(it, functions.partition(" of ")[0]) for it in NAMES.findall(labels)]
    else:
        pairs = LABEL_OF.findall(part) or [("", part)]
    for label, named in pairs:
        yield from ((name.rpartition("::")[2], label) for name in NAMES.findall(named))


def clauses_named() -> Iterator[tuple[str, str, str, bool]]:
    """The crate, the function and the label of each clause that the page names, and whether it has
    to cite a definition, as a law has."""
    crate = ""
    for heads, *rows in tables_in(text_of(PAGE)):
        for row in (dict(zip(heads, it)) for it in rows):
            is_law = {"Law", "Function"} <= {*heads}
            crate = "*" if is_law else "".join(NAMES.findall(row.get("Crate", ""))) or crate
            for part in row.get("Function" if is_law else "Clause", "").split("; "):
                part, _, home = part.partition(" in ")
                home = "".join(re.findall(r"^`(\w+)`", home)) or crate
                yield from ((home, *it, is_law) for it in clauses_in(part))


def is_said(body: str, cited: set[str]) -> bool:
    """Whether a clause says something, if its file cites these definitions."""
    text = WRAPPED.sub("", body.strip(" \n}"))
    parts = {name for it in CALLED.findall(text) for name in it.split()}
    text = CALLED.sub("", text)
    sides = [it.strip(" ()") for it in COMPARED.split(text)]
    is_about = {"result", *parts, *cited} & {*re.findall(r"\w+", text)} or ".new" in text
    is_empty = BOUND.fullmatch(text) or any(one == other for one, other in zip(sides, sides[1:]))
    return bool(is_about) and not is_empty


def has_clause(crate: str, name: str, label: str, is_law: bool) -> bool:
    """Whether a function of a crate has a clause with a label that says something, or ensures
    something."""
    for file in (it for it in sources("src", crate=crate) if f"fn {name}" in it.code):
        cited = {name for it in file.cited if ".specs" in it.module and it.module[:4] != "std."
                 for name in (*it.names, it.alias)} - {""}
        found = [("ensures", label, it)
                 for it in re.findall(rf"ghost {name}_\w+ = {{(.*)}};", file.code)]
        for it in (it for it in file.functions if it.name == name):
            found += CLAUSE.findall(it.contract)
        for kind, named, body in found:
            is_asked = named == label if label else kind == "ensures"
            is_cited = not is_law or cited & {*re.findall(r"\w+", body)}
            if is_asked and is_cited and is_said(body, cited):
                return True
    return False


def faults() -> Iterator[str]:
    edits, named = files(*EDITS), [*clauses_named()]
    yield from ["there is no wrong body"] * (not edits)
    yield from (f"{path}: {fault}" for path in edits for fault in faults_of_edit(path))
    yield from (*untried_crates(), *faults_of_bugs())
    yield from [f"{PAGE}: no row names a clause"] * (not any(label for _, _, label, _ in named))
    for crate, name, label, is_law in named:
        own = functions_named(name, crate)
        # A method may have the contract of its trait, from a crate below.
        homes = below(crate) if own and all(it.owner for it in own) and crate != "*" else [crate]
        if (own or label) and not any(has_clause(it, name, label, is_law) for it in homes):
            yield f"{PAGE}: {crate}: {name} has no clause {label}".rstrip()
