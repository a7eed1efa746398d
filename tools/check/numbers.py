"""Names clauses and definitions that read a number of the code in place of the definitions'.

A constant of the code and the number that a definition means by it have the same name. If a file
has both, a clause reads the code's, and would hold for any number. So such a file imports the
definitions by a name of their own, as `ghost use Rattle.CRATE.specs.FILE as defined`, and a clause
says `defined.NAME`. No file names the module that has the code's constants, also by another name
of one above it, and no definition the declaration of a type, `the_type`, which has numbers too,
except where something else fixes them, or they only tell its variants apart.
"""

import re
from collections.abc import Iterator

from common.sources import sources

NAME = re.compile(r"(?<![\w.])[A-Z][A-Z0-9]*_[A-Z0-9_]+\b|(?<![\w.])[A-Z]{2,}\b")
DEFINED = re.compile(r"^(?:abbrev|unfoldable)(?: pub)? ([A-Z][A-Z0-9_]+) :", re.MULTILINE)
CODES = re.compile(r"\b(TheConstants|the_type)\b(.*)")
FIXED = {
    "crates/play_cover/specs/RuleTables.antt",  # by the pages and by `tables_are_in_order`
    # These numbers only tell roles and names apart: all else is said by rows of the definitions.
    "crates/data_rows/specs/Role.antt",
    "crates/data_rows/specs/PlaceRole.antt",
    "crates/cave_words/specs/Named.antt",
}
CONSTANT = re.compile(r"\bconst ([A-Z][A-Z0-9_]+):")
CLAUSES = re.compile(r"^ *(?:requires|ensures)\b.*", re.MULTILINE | re.DOTALL)
GHOST = re.compile(r"^ *ghost (?!use)[^;]*;", re.MULTILINE)


def faults() -> Iterator[str]:
    defined = {it for file in sources("specs") for it in DEFINED.findall(file.text)}
    for file in sources("src"):
        own = {*CONSTANT.findall(file.code), *(it.name for it in file.uses)}
        clauses = [it for function in file.functions for it in CLAUSES.findall(function.contract)]
        read = {*NAME.findall("\n".join(clauses + GHOST.findall(file.code)))}
        for name in sorted(read & own & defined):
            yield f"{file.path}: a clause reads the code's {name}, and not the definitions'"
    for file in sources("src", "specs"):
        for named, names in CODES.findall(file.code):
            if file.path not in FIXED and (named == "TheConstants" or file.path.endswith(".antt")):
                yield f"{file.path}: it reads the code's {', '.join(NAME.findall(names)) or named}"
