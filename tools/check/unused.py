"""Names public functions without a caller, and names that a file imports and doesn't use. Also
items and definitions that no line names, private functions that their crate doesn't name, such as
tests that lost their attribute, and crates that crates.txt gives to a crate that doesn't use them.

A public function, or method of a public trait, has a caller if code that isn't a test of its own
crate has its name. `Type::name` is a function by itself: `Other::name` is no call of it, nor is
`self.name` in another type. Laws have no caller, and other programs call what docs/LIBRARY.md lists
for a door. What only names itself isn't named, nor are two that only name each other, and what a
type's own methods say of it doesn't count. An import is a name in a `use`, also a ghost one; a
trait may be imported for its methods. Lemmas may be found by search, so only definitions, those of
specs/, need a line that names them, or a page that does so in backquotes.
"""

import re
from collections import Counter, defaultdict
from collections.abc import Iterator
from functools import cache

from called import TYPE, USES, Graph
from common.files import below, crates, files, text_of
from common.sources import Source, sources

USE = {"rt": USES, "antt": re.compile(r"^ *(?:pub )?use .*$", re.MULTILINE)}
ITEM = re.compile(
    r"^ *(?:pub(?:\(crate\))? )?(?:const|static|struct|enum|type|trait) ([A-Z]\w*)", re.MULTILINE)
# A line of a definition: of its type, if a colon follows the name and what it is of, or of a case.
BEGINNING = re.compile(r"^(?:(?: *(?:abbrev |unfoldable )?pub |abbrev |unfoldable )?"
                       r"(?:(?:record|data) )?)([\w'-]+)"
                       r"((?:(?: +\([^)]*\)| +\{[^}]*\})*) +:)?", re.MULTILINE)
IMPL = re.compile(r"^ *impl\b[^{]*", re.MULTILINE)
STRING = re.compile(r'"(?:[^"\\\n]|\\.)*"')
IMPL_FOR = re.compile(r"impl\b[^{]*\bfor\b")
SPAN = re.compile(r"``.+?``|`[^`]+`", re.DOTALL)
SHOWN = re.compile(r"^    (?:pub )?([\w'-]+) :", re.MULTILINE)  # a definition in a block of a page
WORD = re.compile(r"(?:(?<=\w)(\.))?([\w'-]+)")
# Traits of std that are imported for their methods.
TRAITS = {"Write", "Read", "BufRead", "OpenFile", "FromStr", "Error", "Hash", "Hasher",
          "MetadataExt", "OpenOptionsExt", "PermissionsExt"}
Definition = tuple[str, str]  # a file and a name


def uncalled() -> Iterator[str]:
    """Functions that nothing calls: public ones, and lost tests."""
    for path, _, it, *_ in Graph().uncalled():
        if it and it.is_public:
            yield f"{path}: nobody calls {it.owner}{'::' * bool(it.owner)}{it.name}"
        elif it:
            yield f"{path}: nothing calls {it.name}, which is no test"


def is_used(name: str, text: str) -> bool:
    """Whether a text has a name; one with holes for arguments, if each of its words is there."""
    if "◌" in name or not re.fullmatch(r"[\w'-]+", name):
        return all(it in text for it in name.split("◌"))
    return re.search(rf"(?<![\w.'-]){re.escape(name)}(?![\w'-])", text) is not None


def unimported() -> Iterator[str]:
    """What a file imports and doesn't have again."""
    traits = TRAITS.union(*(re.findall(r"\btrait (\w+)", it.text) for it in sources("src")))
    for file in sources("specs", "proofs", "src"):
        body = USE[file.path.rpartition(".")[2]].sub("", file.code)
        for _, module, names, alias in (it for it in file.cited if not it.is_public):
            for name in names:
                if not is_used(name, body):
                    yield f"{file.path}: {name} of Rattle.{module} isn't used"
            if alias and f"{alias}." not in body:
                yield f"{file.path}: {alias}, which is Rattle.{module}, isn't used"
        for use in file.uses if file.path.endswith(".rt") else ():
            is_kept = use.is_public or use.name in traits | {"*", "_", "self"}
            if not is_kept and not re.search(rf"\b{use.name}\b", body):
                yield f"{file.path}: {use.name} isn't used"


@cache
def words_of(file: Source) -> dict[str, Counter[str]]:
    """How often each word stands in the code of each type of a file, and beside the types, without
    imports and the heads of what a type has."""
    found = defaultdict[str, Counter[str]](Counter)
    for owner, text in file.parts:
        text = re.sub(r"//.*", "", IMPL.sub("", USE["rt"].sub("", text)))
        found[owner].update(re.findall(r"\w+", text))
    return found


def unnamed_items() -> Iterator[str]:
    """Items of the code that nothing else names that can mean them, and no definition reads."""
    code = sources("src")
    read = {name for file in sources("specs") for it in file.cited
            if it.module.endswith("TheConstants") for name in it.names}
    items = {file.path: declared_items(file) for file in code}
    for file in code:
        bodies = Counter(name for name, body in TYPE.findall(file.code)
                         for _ in re.findall(rf"\b{name}\b", body))
        above = [it for it in code if file.crate in below(it.crate)]
        for name, own in items[file.path].items():
            others = sum(words[name] for it in above if it == file or name not in items[it.path]
                         for owner, words in words_of(it).items() if owner != name)
            if others <= own + bodies[name] and name not in read:
                yield f"{file.path}: nothing names {name}"


def declared_items(file: Source) -> dict[str, int]:
    """The items that a file declares, each with how often beside its own parts; a trait stands in
    such a part. Those of impls of traits are none."""
    found = Counter[str]()
    for owner, text in file.parts:
        if re.match(r"(pub(\(crate\))? )?trait\b", text):
            found[owner] += 0
        elif not IMPL_FOR.match(text):
            found.update(ITEM.findall(text))
    return found


def definitions_in(file: Source) -> tuple[dict[str, str], str]:
    """The definitions of a file, each with its text, in which a case follows a case; and what
    stands beside them."""
    text = USE["antt"].sub("", re.sub("--.*", "", STRING.sub("", file.text)))
    declared = {it[1] for it in BEGINNING.finditer(text) if it[2]}
    found, name = defaultdict[str, str](str), ""
    for line in text.splitlines(True):
        begun = BEGINNING.match(line)
        if line.strip() and not line.startswith(" ") or begun and begun[2]:
            name = begun[1] if begun and begun[1] in declared else ""
        found[name] += line
    return found, found.pop("", "")


def unnamed_definitions() -> Iterator[str]:
    """Definitions that neither code nor a proof nor a page names, nor one that these name."""
    homes, texts = defaultdict[str, list[str]](list), dict[Definition, str]()
    others = [STRING.sub("", USE[it.path.rpartition(".")[2]].sub("", it.code))
              for it in sources("src", "proofs")]
    for file in sources("specs"):
        own, beside = definitions_in(file)
        others.append(beside)
        for name, text in own.items():
            homes[name].append(file.path)
            texts[file.path, name] = text

    def named_in(text: str, path: str = "") -> set[Definition]:
        """What words mean: without a module before them, what the file has of that name."""
        return {(home, name) for dot, name in WORD.findall(text) for home in homes.get(name, ())
                if home == path or dot or path not in homes[name]}

    pages = [re.sub(r"(?ms)^```.*?^```", "", text_of(it)) for it in files("*.md", "docs/*.md")]
    pages = [" ".join(SPAN.findall(it) + SHOWN.findall(it)) for it in pages]
    found, more = set[Definition](), set().union(*map(named_in, others + pages))
    while more:
        found |= more
        more = set().union(*(named_in(texts[it], it[0]) for it in more)) - found
    yield from (f"{path}: nothing names {name}" for path, name in texts
                if (path, name) not in found)


def unnamed() -> Iterator[str]:
    """Crates that a crate is built on by crates.txt, and that none of its files names."""
    for crate, built_on in crates().items():
        text = "\n".join(it.text for it in sources("src", "specs", "proofs", crate=crate))
        for name in built_on:
            if not re.search(rf"\b{name}\b", text):
                yield f"crates.txt: {crate} doesn't use {name}"


def faults() -> list[str]:
    return [*uncalled(), *unnamed_items(), *unnamed_definitions(), *unimported(), *unnamed()]
