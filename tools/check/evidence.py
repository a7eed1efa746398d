"""Names parts of make soak that have no row for all that they try now, and of which none says so.

Each part of tools/soak/parts has to have a row in docs/MEASURED.md, which soak writes, and in which
it passed on no less than what there is now: wrong bodies of a crate, bugs of model/check-duel,
changed rows, games and databases of the duel. Otherwise docs/PROVED.md has to name the part, or its
kind, in the sentence that begins with "**Without a row**", and no other one.
"""

import os
import re
import runpy
from collections import defaultdict
from collections.abc import Iterator

from common import measured
from common.files import TOP, files, text_of

PAGE = "docs/PROVED.md"
SAYS = re.compile(r"\*\*Without a row\*\*(.*?)[.;]\s", re.S)
SOAK = runpy.run_path(f"{os.path.dirname(__file__)}/../soak/soak")


def tried_now(name: str, command: list[str]) -> list[int]:
    """What a part has to count at least: the numbers that its row begins with."""
    kind, crate = [*name.split(), ""][:2]
    if kind == "loops":
        return [len(files(f"tools/soak/loops/{crate}/*.edit"))]
    if kind == "duel":
        games, databases = [int(it) for it in command if it.isdigit()][:2]
        return [games, 0, databases]
    if name == "planted":  # and the model without a bug
        return [len(runpy.run_path(f"{TOP}/model/check-duel")["BUGS"]) + 1]
    return [len(files("model/rows/*/*.edit"))] if name == "proved rows" else [1]


def counted() -> dict[str, list[int]]:
    """The numbers that each part counted when it passed."""
    return {row[0].strip("`"): [int(it.replace(",", "")) for it in re.findall(r"\d[\d,]*", row[1])]
            for row in measured.rows_of(SOAK["SECTION"]).values() if SOAK["FAILED"] not in row[1]}


def faults() -> Iterator[str]:
    rows, stale = counted(), defaultdict[str, list[str]](list)
    for name, command, *_ in SOAK["parts"](0):
        least, found = tried_now(name, command), rows.get(name, [])
        if len(found) < len(least) or any(count < of for count, of in zip(found, least)):
            stale[name.split()[0]].append(name)
    if not (says := SAYS.search(text_of(PAGE))):
        yield f"{PAGE}: no sentence begins with **Without a row**"
    named = re.findall(r"`([^`]+)`", says[1] if says else "")
    for kind, names in stale.items():
        if left := [it for it in names if not {kind, it} & {*named}]:
            more = f", and {len(left) - 1} more of {kind}" if left[1:] else ""
            yield (f"{PAGE}: {measured.PAGE} has no row in which `{left[0]}` passed on all that it"
                   f" tries now{more}: run tools/soak/soak, or name it after **Without a row**")
    parts = {*stale, *sum(stale.values(), [])}
    yield from (f"{PAGE}: `{it}` has its row, and is named after **Without a row**"
                for it in named if it not in parts)
