"""Which functions of the crates are called, as a module: by main, a test, a law, a method of a
trait, or by what is called itself.

So a function that only calls itself isn't called, nor are two that only call each other. A call by
a dot, such as `it.push(x)`, is of any type that the crate names, or that a type has that it names.
"""

import re
from collections import defaultdict
from collections.abc import Iterator
from functools import cache
from typing import NamedTuple

from common.files import section_of
from common.sources import FUNCTION, Function, Source, functions_in, sources

LAWS = ("turn_laws/", "play_laws/", "play_theorem/", "laws.rt")
# A call, or a function that is handed to a method or to a function by just its name.
CALL = re.compile(
    r"(?:(\w+)(?:::<[^>]*>)?::|(\w*\)?\??(?<!\.)\.\s*))?\b([a-z]\w*)(?=\(|::<|\)|,|;)", re.ASCII)
# A table of rows, whose effects are methods of the scene; each follows an arrow or another effect.
ROWS = re.compile(r"^( *)rows! \{.*?^\1\}", re.MULTILINE | re.DOTALL)
EFFECT = re.compile(r"(?:=>|\),)\s+([a-z]\w*)(?=\()", re.ASCII)
ALIASED = re.compile(r"^ *pub type (\w+) = (\w+)", re.MULTILINE)
# A clause ends at the brace that ends its line; a contract of several lines is indented further.
CLAUSE = re.compile(r"^ *(?:requires|ensures)\b.*\n(?:^ {8,}[^a-z{].*\n)*", re.MULTILINE)
USES = re.compile(r"^ *(?:pub |ghost )*use [^;]*;", re.MULTILINE)
TYPE = re.compile(r"^(?:pub )?(?:struct|enum) (\w+)([^;{]*(?:;|\{.*?^\}))", re.M | re.S)
# What is written for any type parameter, whose functions may be those of any type.
PARAMETER = "T"
Call = tuple[str, str]  # a type, or nothing, and a name; one after a dot begins with it


class Node(NamedTuple):
    """A function with the file that has it, or what stands there beside functions."""

    path: str
    crate: str
    function: Function | None = None
    of_trait: bool = False  # an implementation of one
    is_test: bool = False

    @property
    def is_root(self) -> bool:
        """Whether it needs no caller."""
        it = self.function
        if not it or self.of_trait or it.name == "main" or "#[test]" in it.attributes:
            return True
        return any(law in self.path for law in LAWS) or it.is_public and it.name in library(
            self.crate)

    def counts(self, caller: "Node") -> bool:
        """Whether a call from there is one: those of a public function by tests of its own crate
        aren't, but in a crate of tests."""
        is_public = bool(self.function and self.function.is_public)
        is_own = caller.crate == self.crate and not self.crate.startswith("test_")
        return caller != self and not (is_public and is_own and caller.is_test)


@cache
def library(crate: str) -> list[str]:
    """The functions of a door that other programs may call."""
    return re.findall(r"`(?:\w+::)?(\w+)\(", section_of("docs/LIBRARY.md", crate))


@cache
def named_in(crate: str) -> set[str]:
    """The words of the code of a crate."""
    return {word for it in sources("src", crate=crate) for word in re.findall(r"\w+", it.code)}


@cache
def parts() -> dict[str, set[str]]:
    """The words of what each type has."""
    return {name: {*re.findall(r"\w+", body)} for it in sources("src")
            for name, body in TYPE.findall(it.code)}


@cache
def around(owner: str) -> set[str]:
    """A type and those that have it in a field, or in a part of one."""
    found, more = set[str](), {owner}
    while more:
        found |= more
        more = {name for name, words in parts().items() if words & more} - found
    return found


def calls(owner: str, text: str, owned: set[Call], aliases: dict[str, str]) -> Iterator[Call]:
    """What a part of a file may call: without its imports, its contracts, and the names of its
    functions themselves."""
    executed = re.sub(r"\bfn \w+", "fn", CLAUSE.sub("", USES.sub("", text)))
    executed = executed.replace("write!(", "it.write_fmt(")  # as the macro does
    for path, dotted, name in CALL.findall(executed):
        path = owner if path == "Self" or dotted == "self." else aliases.get(path, path)
        path = PARAMETER if re.fullmatch("[A-Z]", path) else path
        if dotted and (path, name) not in owned:
            yield "", f".{name}"
        else:
            yield path if path[:1].isupper() else "", name
    for rows in ROWS.finditer(executed):
        yield from (("", f".{name}") for name in EFFECT.findall(rows[0]))


def parts_of(file: Source) -> Iterator[tuple[Node, str, str]]:
    """The functions of a file, and what is beside them, each with its type and its text."""
    is_test = False
    for owner, text in file.parts:
        of_trait = re.match(r"impl\b[^{]*\bfor\b", text) is not None
        for part in re.split(r"^(?=#\[cfg\(test\)\])", text, flags=re.MULTILINE):
            is_test = is_test or part.startswith("#[cfg(test)]")
            starts = [it.start() for it in FUNCTION.finditer(part)]
            yield Node(file.path, file.crate, is_test=is_test), owner, part[: [*starts, None][0]]
            for start, end in zip(starts, [*starts[1:], None]):
                function = next(functions_in(owner, part[start:end]))
                public = function.is_public or text.startswith("pub trait")
                yield Node(file.path, file.crate, function._replace(is_public=public), of_trait,
                           is_test or "#[test]" in function.attributes), owner, part[start:end]


class Graph:
    """The functions, and which of them or what beside them calls what."""

    def __init__(self) -> None:
        code = sources("src")
        owned = {(it.owner, it.name) for file in code for it in file.functions if it.owner}
        aliases = dict(pair for file in code for pair in ALIASED.findall(file.text))
        self.free = {(file.path, it.name) for file in code for it in file.functions
                     if not it.owner}
        self.nodes, self.callers = list[Node](), defaultdict[Call, set[Node]](set)
        for file in code:
            for node, owner, text in parts_of(file):
                self.nodes += [node] * bool(node.function)
                for call in calls(owner, text, owned, aliases):
                    self.callers[call].add(node)

    def callers_of(self, node: Node, it: Function) -> Iterator[Node]:
        """What calls a function, by any of the ways in which it may be called."""
        named = self.callers[it.owner, it.name]
        if not it.owner:
            yield from (one for one in named
                        if one.path == node.path or (one.path, it.name) not in self.free)
            return
        yield from named | self.callers[PARAMETER, it.name]
        if it.takes_self:
            yield from (one for one in self.callers["", f".{it.name}"]
                        if around(it.owner) & named_in(one.crate))

    def uncalled(self) -> list[Node]:
        """The functions that nothing calls which is called itself, in their order."""
        found = {it: [one for one in self.callers_of(it, it.function) if it.counts(one)]
                 for it in self.nodes if it.function and not it.is_root}
        called, count = {*self.nodes} - found.keys(), -1
        while count != len(called):
            count = len(called)
            called |= {it for it, callers in found.items()
                       if any(not one.function or one in called for one in callers)}
        return [it for it in self.nodes if it not in called]
