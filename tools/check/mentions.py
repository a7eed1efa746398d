"""Names what the pages at the top and those of docs/ name and the repository doesn't have.

- a file: a path in backquotes, from the top, from crates/, docs/ or model/, or from a crate or a
  folder that the same row or paragraph named before. NAME and its like are any word of a path;
- a function, a type or a definition in backquotes: a word with `_` or `::` or capitals inside, or
  any word below the head Function, Call, Clause or Definition, has to be declared in crates/ or in
  model/: below Function and Call as a function, below a crate's heading as one that the crate
  gives, and in "`name` in `file`" and "`file`: `name`" in that file;
- a public field or a variant of a type that the row of the type, below the head Type, leaves out;
- a page or a heading that a link leads to;
- and the cells of tables that have more characters than a reader takes in at once.
"""

import os
import re
from collections.abc import Iterator
from functools import cache

from common.files import (SPAN, TOP, below, crates, files, spans_of, tables_in, text_of,
                          without_links)
from common.sources import sources

MOST = 300  # the most characters of a cell
KINDS = "rt antt log out script bind txt md edit svg py".split()
FILE = re.compile(rf"[\w.*-]+\.(?:{'|'.join(KINDS)})|(?:[\w.*-]+/)+[\w.*-]*", re.ASCII)
PARTS_OF_A_CRATE = ("src", "specs", "proofs", "must-fail")
PARTS = ("", "src/**/", "specs/**/", "proofs/**/", "must-fail/")
CODE = (".rt", ".antt", ".py")
PLACEHOLDER = re.compile(r"\b[A-Z]{2,}(?:_[A-Z]+)*\b")
NAME = re.compile(r"((?:\w+(?:<.*?>)?::)*)(\w+)(?:\(.*\))?", re.ASCII | re.DOTALL)
LOOKS_LIKE_CODE = re.compile(r"[a-z]\w*_\w+|[A-Z][a-z]+[A-Z]\w*|[A-Z]+(_[A-Z]+)+", re.ASCII)
# Heads of columns with names that have to be declared, with functions, and with paths.
STRICT = {"Function", "Clause", "Definition", "Call"}
ARE_FUNCTIONS, ARE_PATHS = {"Function", "Call"}, {"Logs", "Script"}
AND, IN = re.compile(r",? (?:and )?"), re.compile(r",? (?:in|of) ")
ITEM = re.compile(r"\b(?:fn|struct|enum|trait|type|const|static|mod|macro_rules!|ghost) (\w+)")
CLAUSE = re.compile(r"\b(?:ensures|requires|invariant) (\w+) \{")
FIELD = re.compile(r"^ +(?:pub(?:\(crate\))? )?(\w+)(?:: |,$|\(| \{|$)", re.MULTILINE)
FIELD_OR_VARIANT = re.compile(r"^    (?:pub (\w+):|([A-Z]\w*)[,({])", re.MULTILINE)
KEYWORDS = "pub|abbrev|unfoldable|record|data|ruleset"
DEFINITION = re.compile(rf"^ *(?:(?:{KEYWORDS}) )*([\w'-]+) [:({{=]", re.MULTILINE)
PYTHON = re.compile(r"^(?: *(?:def|class) (\w+)|(\w+(?:, \w+)*) = )", re.MULTILINE)
# What pages name and the toolchain declares, and a variable of the environment.
OTHERS = set("""std anyhow Vec saturating_add AccountPartialEq unsigned_Decides signed_Decides
booleans_Decides pointwise_decides CAVE_RULES""".split())
# What the pages have their readers make, and what the duel keeps for them.
MADE_BY_READERS = set("""caves/mine.txt caves/mine.bind logs/full.log crates/turtle turtle.rt
logs/shoal/rub-tablet.log crates/cave_verbs/must-fail/the_tablet_is_only_rubbed.edit
cave.txt bindings.txt log.txt script.txt program.out model.out crates/mine""".split())
NAMED = {*crates()}  # the crates


@cache
def declared_in(path: str) -> set[str]:
    text = text_of(path)
    if path.endswith(".py"):
        return {name for it in PYTHON.findall(text) for name in "".join(it).split(", ")}
    kinds = (ITEM, CLAUSE, FIELD) if path.endswith(".rt") else (DEFINITION,)
    return {name for kind in kinds for name in kind.findall(text)}


@cache
def functions(crate: str, are_methods: bool) -> set[str]:
    """The functions of a crate: those without a type, or methods."""
    return {it.name for file in sources("src", crate=crate) for it in file.functions
            if bool(it.owner) == are_methods}


@cache
def declared(crate: str = "*") -> set[str]:
    """The names that the files of a crate declare, or those of all crates and of the model."""
    paths = [it.path for it in sources("src", "specs", "proofs", crate=crate)]
    found = {crate} if crate != "*" else set(NAMED)
    for path in paths + (files("model/*.py") if crate == "*" else []):
        found |= declared_in(path) | {os.path.basename(path).partition(".")[0]}
    return found


class Unit:
    """A row or a paragraph, with the crates, the folder and the files that it has named so far."""

    def __init__(self, before: list[str], crate: str | None = None, head: str = "") -> None:
        self.before, self.crates = before, [crate] if crate else []
        self.folder, self.files, self.head = "", list[str](), head

    def found(self, path: str) -> list[str]:
        """The files that a path may be: of other crates only if the row or paragraph names none."""
        path = PLACEHOLDER.sub("*", path)
        wholes = [path, f"{path}.*", f"crates/{path}", f"docs/{path}"]
        near = [f"{self.folder}/{path}", f"{self.folder}/{path}.*"] if self.folder else []
        nearest_first = [*reversed(self.crates)] or [*reversed(self.before), "*"]
        own = [f"crates/{it}/{part}{path}" for it in nearest_first for part in PARTS]
        others = [f"model/{path}", *own, f"caves/{path}", f"logs/**/{path}"]
        return next(filter(None, map(files, [*wholes, *near, *others])), [])

    def note(self, path: str, matches: list[str]) -> None:
        """Keeps what the paths and names after one may be meant from."""
        parts = matches[0].split("/")
        self.files += [it for it in matches if it.endswith(CODE)]
        if "*" in path or PLACEHOLDER.search(path):
            return
        is_file = os.path.isfile(f"{TOP}/{matches[0]}")
        self.folder = "/".join(parts[:-1]) if is_file else matches[0].rstrip("/")
        if parts[0] == "crates" and len(parts) > 1:
            self.crates.append(parts[1])


def is_path(word: str) -> bool:
    """Whether a word is a path that is looked for: not one of out/, which isn't committed."""
    is_part = word.rstrip("/") in PARTS_OF_A_CRATE
    is_one = FILE.fullmatch(word) and ("/" not in word or re.match(r"[a-z.]", word))
    return bool(is_one) and not is_part and "out" not in word.split("/")


def path_in(span: str, head: str) -> str | None:
    """The path that a span is, or that its command has, if any."""
    if head in ARE_PATHS:
        return span
    words = [it for it in span.split(" ") if " " not in span or "/" in it]
    return next((it for it in words if is_path(it) and it not in MADE_BY_READERS), None)


def parts_of(name: str) -> tuple[str, str, bool]:
    """What is before the last part of a name, that part, and whether only code has such names."""
    found = NAME.fullmatch(name)
    owner = found[1].removesuffix("::").split("<")[0] if found and found[1] else ""
    if not found or owner in OTHERS or found[2] in OTHERS:
        return "", "", False
    return owner, found[2], bool(owner or LOOKS_LIKE_CODE.fullmatch(found[2]))


def is_declared(name: str, unit: Unit, head: str) -> bool:
    """Whether the code has a name; in a strict column in a file or a crate of its row, if any."""
    owner, last, is_code = parts_of(name)
    if owner in NAMED:
        return last in declared(owner)
    if modules := files(f"crates/*/src/**/{owner}.rt") if owner.islower() else []:
        return any(last in declared_in(it) for it in modules)
    if head not in STRICT or owner or last[0].isupper():
        return last in declared()
    if unit.head == "File":
        return any(last in declared_in(it) for it in unit.files)
    places = set(unit.crates) or NAMED
    if "Call" in (head, unit.head):
        places = {used for it in places for used in below(it)}
    if head in ARE_FUNCTIONS:
        return any(last in functions(it, kind) for it in places for kind in (True, False))
    return any(last in declared(it) for it in places)


def not_given(cell: str, crate: str) -> Iterator[str]:
    """Calls of a cell that a crate doesn't give, nor the type of which they are methods."""
    free, methods = (set().union(*(functions(it, are_methods) for it in below(crate)))
                     for are_methods in (False, True))
    given = set(re.findall(r"\w+", text_of(f"crates/{crate}/src/lib.rt")))
    near = methods if " of " in SPAN.sub("", cell) else methods - free
    for call in spans_of(cell):
        owner, last, _ = parts_of(call)
        if last and (owner or last not in near) and (owner or last) not in given:
            yield f"{crate} doesn't give {call}"


def faults_of(text: str, unit: Unit, head: str = "") -> Iterator[str]:
    """What a paragraph, or a cell below a head, names and the repository lacks."""
    names, together, end = list[str](), list[str](), 0
    last, listed = list[str](), list[str]()  # files before a name
    for found, span in zip(SPAN.finditer(text), spans_of(text)):
        between, end = text[end : found.start()], found.end()
        listed = last if between == ": " else listed if AND.fullmatch(between) else []
        together = together if AND.fullmatch(between) or IN.fullmatch(between) else []
        last, is_in = [], IN.fullmatch(between)
        if path := path_in(span, head):
            matches = unit.found(path)
            if not matches:
                yield f"there is no {path}"
                continue
            unit.note(path, matches)
            last = [it for it in matches if it.endswith(CODE)]
            yield from misplaced(together if is_in else [], last)
            together, listed = [], []
        elif span in NAMED:
            unit.crates.append(span)
        elif parts_of(span)[1]:
            names.append(span)
            together = [span] if is_in else [*together, span]
            yield from misplaced([span], listed)
    for name in names:
        if (head in STRICT or parts_of(name)[2]) and not is_declared(name, unit, head):
            yield f"{name} isn't declared there"


def misplaced(names: list[str], paths: list[str]) -> Iterator[str]:
    """The names that a page says are in files, and that none of them declares."""
    for name in names:
        if paths and not any(parts_of(name)[1] in declared_in(it) for it in paths):
            yield f"{paths[0]} doesn't declare {name}"


def prose(page: str) -> list[str]:
    """A page without comments and blocks of code, as its parts: tables, items and paragraphs."""
    text = re.sub(r"<!--.*-->$", "\n", text_of(page), flags=re.MULTILINE)
    text = re.sub(r"^```.*?^```$", "", text, flags=re.MULTILINE | re.DOTALL)
    text = re.sub(r"^(#+ .*)$", r"\1\n", text, flags=re.MULTILINE)
    text = re.sub(r"^([^|\n].*)\n(?=\|)", r"\1\n\n", text, flags=re.MULTILINE)
    text = re.sub(r"(?:^\n(?: {4}.*\n|\n)+)", "\n", text, flags=re.MULTILINE)
    return re.split(r"\n\s*\n|\n(?=- |\d+\. )", text)


def left_out(kind: str, said: str) -> Iterator[str]:
    """The public fields or variants of a type that aren't named."""
    body = re.compile(rf"(?ms)^pub (?:struct|enum) {kind}\b[^;{{]*{{\n(.*?)^}}")
    found = [*filter(None, (body.search(it.text) for it in sources("src")))]
    for pair in FIELD_OR_VARIANT.findall(found[0][1] if found else "    pub fields:"):
        if f"`{(name := ''.join(pair))}" not in said:
            yield f"{kind} has {name}, too"


def faults_of_table(part: str, before: list[str], section: str | None) -> Iterator[str]:
    """What is wrong with a table; in a section of a crate its calls are that crate's."""
    heads, *rows = next(tables_in(part.lstrip()))
    crate = section if heads[0] == "Call" else None
    for row in rows:
        goes_on = not row[0] or heads[0] == "Call"
        unit = Unit(before, crate if goes_on else None, heads[0])
        for head, cell in zip(heads, row):
            yield from faults_of(cell, unit, head)
            if head == "Call" and section:
                yield from not_given(cell, section)
            if len(cell) > MOST:
                yield f"a cell has {len(cell)} characters: {cell[:50]}.."
        if heads[0] == "Type":
            yield from left_out(row[0].strip("`"), row[1])
        crate = next(iter(unit.crates), None)
        before += unit.crates


@cache
def anchors(page: str) -> set[str]:
    """What the headings of a page are called in links."""
    heads = re.findall(r"^#+ (.*)$", text_of(page), re.MULTILINE)
    return {re.sub(r"[^\w\- ]", "", without_links(it).lower()).replace(" ", "-") for it in heads}


def dead_links(page: str) -> Iterator[str]:
    for target in re.findall(r"\]\(([^)]+)\)", text_of(page)):
        path, _, place = target.partition("#")
        file = os.path.normpath(os.path.join(os.path.dirname(page), path)) if path else page
        if "://" not in path and not os.path.exists(f"{TOP}/{file}"):
            yield f"there is no {target}"
        elif "://" not in path and place and place not in anchors(file):
            yield f"{file} has no heading {place}"


def faults() -> Iterator[str]:
    for page in files("*.md", "docs/*.md"):
        found, before, section = [*dead_links(page)], list[str](), None
        for part in prose(page):
            if part.lstrip().startswith("#"):
                section = next((it for it in NAMED if part.strip() == f"## {it}"), None)
            if part.lstrip().startswith("|"):
                found += faults_of_table(part, before, section)
            else:
                found += faults_of(part, unit := Unit(before))
                before += unit.crates
        yield from (f"{page}: {it}" for it in found)
