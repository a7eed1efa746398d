"""The files of the crates, as checks read them: a module.

    for it in sources("src", "specs"): it.path, it.crate, it.code, it.uses, it.functions
    functions_named("burn")     all functions of that name, each with its contract
    changes(text_of(path))      what a wrong body changes
"""

import re
from collections.abc import Iterator
from functools import cache, cached_property
from typing import NamedTuple

from common.files import files, text_of

COMMENT = re.compile(r"^ *(?://|--).*$", re.MULTILINE)
USE = re.compile(r"^ *(pub(?:\([^)]*\))? )?use (?:::)?((?!Rattle\.)[^;]*);", re.MULTILINE)
# A part of a `use`: what stands before braces or alone, with what it is called here.
PART = re.compile(r"([\w:*]*)(\{|\}|(?: as (\w+))?)")
MODULE = re.compile(r"^ *(?:pub(?:\(\w+\))? )?mod (\w+)\b", re.MULTILINE)
# An impl of a type, or a trait.
BLOCK = re.compile(r"^(?:pub(?:\(crate\))? )?(impl|trait)\b(.*?)\{$.*?^\}$", re.M | re.S)
FUNCTION = re.compile(
    r"((?:#\[[^\]]*\]\s*)*)^ *(pub(?:\(crate\))? )?(?:const )?fn (\w+)(?:<[^(]*>)?"
    r"\((\s*&?(?:'\w+ )?(?:mut )?self\b)?", re.MULTILINE)
CITED = re.compile(
    r"^ *(pub |ghost )?use Rattle\.([\w.+-]*\w)(?:\.\{([^}]*)\}| as (\w+))?;?(?: *--.*)?$",
    re.MULTILINE)
# A clause of a contract: its kind, its label, and what it says, up to the next one.
CLAUSE = re.compile(
    r"^ *(requires|ensures)\*? (?:(\w+) )?\{(.*?)(?=^ *(?:requires|ensures)\b|\Z)", re.M | re.S)


class Use(NamedTuple):
    """An item that code takes from elsewhere, `a::b as name`."""

    is_public: bool
    path: list[str]
    name: str


class Cited(NamedTuple):
    """What a file imports for its proofs, `Rattle.MODULE`: names of it, or all by an alias."""

    is_public: bool
    module: str
    names: list[str]
    alias: str


class Function(NamedTuple):
    """A function, with the type or the trait that has it, what stands above it, and what it asks
    and promises."""

    name: str
    owner: str
    is_public: bool
    takes_self: bool
    attributes: str
    contract: str

    def labels(self, *kinds: str) -> list[str]:
        """The labels of its clauses of these kinds, each an empty word if it has none."""
        return [label for kind, label, _ in CLAUSE.findall(self.contract) if kind in kinds]


class Source:
    """A file of a crate. Its code is its text without lines that are comments."""

    def __init__(self, path: str) -> None:
        self.path, self.crate, self.text = path, path.split("/")[1], text_of(path)
        self.code = COMMENT.sub("", self.text)

    @cached_property
    def uses(self) -> list[Use]:
        return [Use(bool(found[1]), path, name) for found in USE.finditer(self.code)
                for path, name in items(found[2])]

    @cached_property
    def cited(self) -> list[Cited]:
        return [Cited(visible == "pub ", module, re.findall(r"([^\s,]+)\s*(?:,|$)", names), alias)
                for visible, module, names, alias in CITED.findall(self.code)]

    @cached_property
    def modules(self) -> set[str]:
        return {*MODULE.findall(self.code)}

    @cached_property
    def parts(self) -> list[tuple[str, str]]:
        """Each type or trait with a part of its code, and what is between these, which has none."""
        found, end = list[tuple[str, str]](), 0
        for block in BLOCK.finditer(self.code):
            head = re.sub(r"\bwhere\b.*", "", block[2], flags=re.DOTALL).strip()
            name = r"^\w+" if block[1] == "trait" else r"(\w+)(?:<.*>)?$"
            owner = "".join(re.findall(name, head))
            found += [("", self.code[end : block.start()]), (owner, block[0])]
            end = block.end()
        return [*found, ("", self.code[end:])]

    @cached_property
    def functions(self) -> list[Function]:
        return [it for owner, text in self.parts for it in functions_in(owner, text)]


def functions_in(owner: str, text: str) -> Iterator[Function]:
    """The functions of a part; those of a public trait are public."""
    for found in FUNCTION.finditer(text):
        attributes, visible, name, receiver = found.groups()
        is_public = visible == "pub " or text.startswith("pub trait")
        contract = re.split(r"(?:;|\s\{|\{\})\n", text[found.end() :], maxsplit=1)[0]
        yield Function(name, owner, is_public, bool(receiver), attributes, contract)


def items(use: str) -> Iterator[tuple[list[str], str]]:
    """The paths of a `use`, each with the name that it gives: `a::{b, c::d as e}`."""
    heads = [""]
    for head, mark, alias in PART.findall(re.sub(r"\s+", " ", use)):
        if mark == "{":
            heads.append(heads[-1] + head)
            continue
        if head:
            path = (heads[-1] + head).split("::")
            yield path, alias or path[-1]
        if mark == "}":
            heads.pop()


source = cache(Source)


@cache
def sources(*folders: str, crate: str = "*") -> list[Source]:
    """The files of these folders of a crate, or of all crates."""
    return [source(it) for folder in folders for it in files(f"crates/{crate}/{folder}/**/*.*")]


@cache
def functions_named(name: str, crate: str = "*") -> list[Function]:
    return [it for file in sources("src", crate=crate) for it in file.functions if it.name == name]


def changes(edit: str) -> Iterator[tuple[str, str, str]]:
    """Each file that a wrong body names, with each text that it changes there, and what into."""
    _, *parts = re.split(r"^file: (.*)$", edit, flags=re.M)
    for file, part in zip(parts[::2], parts[1::2]):
        for old, new in re.findall(r"^old: (.*)\nnew: (.*)$", part, re.M):
            yield file, old, new
