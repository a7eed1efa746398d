"""Names imports of an item from a crate that hands it on, although another crate has it.

A door hands on items of other crates, by `pub use` in src/lib.rt, and definitions of other crates,
by `pub use` in specs/Lib.antt: for programs, also of other repositories. Only programs take what is
handed on, in a `use`, a path or an attribute, and no other crate hands on anything. A door hands on
items that docs/LIBRARY.md names, and files of definitions that its code or that of these items
cites. The root of a room gives, by `pub use`, what some other crate takes from there. crates.txt
lists for a crate all that its files name, from the bottom up.
"""

import re
from collections import defaultdict
from collections.abc import Iterator
from functools import cache

from common.files import crates, files, text_if, text_of
from common.sources import USE, Source, sources

DOORS = re.findall(r"^#.* The door is (\w+)\.", text_of("crates.txt"), re.MULTILINE)
CODE, SPECS = "src/lib.rt", "specs/Lib.antt"  # by which a door hands on
PATH = re.compile(r"(?<![\w:.])(\w+)::(\w+)")
# Another name for what another crate has.
RENAMED = re.compile(r"^ *pub(?:\([^)]*\))? type (\w+)(?:<[^=]*)? = (\w+)::", re.MULTILINE)
DEFINED = re.compile(r"\b(?:Rattle\.)?(\w+)(?:\.|::)specs(?:\.|::)\{?(\w+)")
DECLARED = re.compile(r"^pub (?:const )?(?:fn|struct|enum|trait|type|const) (\w+)", re.MULTILINE)
NAMED = re.compile(r"\bRattle\.(\w+)\.|\b(\w+)::(?:specs|proofs)::")


def taken(file: Source) -> set[tuple[str, str]]:
    """Crates or modules with what a file takes from the root of each, except its own modules."""
    pairs = {(path[0], path[1]) for _, path, _ in file.uses if len(path) > 1}
    body = USE.sub("", file.code)
    return {it for it in pairs | set(PATH.findall(body)) if it[0] not in file.modules}


def own(crate: str) -> list[Source]:
    return sources("src", "specs", "proofs", crate=crate)


def given_by(file: Source) -> Iterator[tuple[str, str, str]]:
    """The names that a file hands on, each with the crate or the module that has it, and with the
    file of a door that may hand it on."""
    others = crates().keys() - file.modules - {file.crate}
    code = [(it.name, it.path[0]) for it in file.uses if it.is_public]
    for name, below in [*code, *RENAMED.findall(file.code)]:
        if below in others:
            yield name, below, CODE
    for _, module, names, alias in (it for it in file.cited if it.is_public):
        if module.partition(".")[0] in others:
            yield from ((name, module, SPECS)
                        for name in names or [alias or module.rpartition(".")[2]])


@cache
def handed_on(crate: str, root: str) -> dict[str, str]:
    """What a crate hands on by one of these files, each with the crate or module that has it."""
    return {name: home for file in own(crate) for name, home, by in given_by(file) if by == root}


def misplaced() -> Iterator[str]:
    """What is handed on by no door, or elsewhere than at its root."""
    for file in sources("src", "specs", "proofs"):
        for name, home, root in given_by(file):
            what = f"and hands on {name} of {home.partition('.')[0]}"
            if file.crate not in DOORS:
                yield f"{file.path}: it is of no door, {what}"
            elif file.path != f"crates/{file.crate}/{root}":
                yield f"{file.path}: it is not {root}, {what}"


def misnamed() -> Iterator[str]:
    """What is taken from a crate that only hands it on."""
    for file in sources("src", "specs", "proofs", "must-fail"):
        if files(f"crates/{file.crate}/src/main.rt"):
            continue
        for below, name in sorted(taken(file)):
            if name == "*" and below in crates():
                yield f"{file.path}: it takes all of {below}, and not item by item"
            if name in handed_on(below, CODE):
                yield f"{file.path}: {name} isn't declared in {below}"
        for below, name in DEFINED.findall(file.code) if not file.path.endswith(SPECS) else ():
            below = file.crate if below == "crate" else below
            if name in handed_on(below, SPECS):
                yield f"{file.path}: {below}.specs only hands on {name}"


def unasked() -> Iterator[str]:
    """What a door hands on and no program can use, and what a room gives and no crate takes."""
    asked = defaultdict[str, set[str]](set)
    library = {*re.findall(r"\w+", "".join(re.findall("`[^`]+`", text_if("docs/LIBRARY.md"))))}
    pages = text_if("docs/LIBRARY.md") + text_if("docs/MACHINES.md")
    for file in sources("src", "specs", "proofs"):
        for below, name in taken(file):
            asked[below] |= {name} if below != file.crate else set()
    for crate in crates():
        root, items = f"crates/{crate}/{CODE}", handed_on(crate, CODE)
        given = {use.name for it in sources("src", crate=crate) if it.path == root
                 for use in it.uses if use.is_public}
        known = asked[crate] | (library if crate in DOORS else set())
        for name in sorted(items.keys() - library):
            yield f"{root}: it hands on {name}, which docs/LIBRARY.md doesn't name"
        for name in sorted(given - items.keys() - known):
            yield f"{root}: nobody takes {name} from here"
        code = "".join(it.code for it in sources("src", crate=crate))
        code += "".join(it.code for below in {*items.values()} for it in own(below)
                        if not items.keys().isdisjoint(DECLARED.findall(it.code)))
        for name, module in handed_on(crate, SPECS).items():
            if module.endswith(".specs"):
                yield f"crates/{crate}/{SPECS}: it hands on all of {name}"
            elif f"Rattle.{module}" not in code and f"Rattle.{crate}.specs.{name}." not in pages:
                yield f"crates/{crate}/{SPECS}: no code and no page cites {name}"


def unlisted() -> Iterator[str]:
    """Crates that a crate names and crates.txt doesn't list for it, or not in their order."""
    for crate, below in crates().items():
        named = {it for file in own(crate) for pair in NAMED.findall(file.code) for it in pair}
        named |= {it for file in own(crate) for it, _ in taken(file)}
        for it in sorted((named & crates().keys()) - {crate, *below}):
            yield f"crates.txt: {crate} names {it}, which isn't listed"
        ours = [it for it in crates() if it in below]
        if below[: len(ours)] != ours:
            yield f"crates.txt: what {crate} lists isn't in order"


def faults() -> list[str]:
    return [*misplaced(), *misnamed(), *unasked(), *unlisted()]
