"""A page as one file of HTML, made of its parts, as a module.

    page_of(STYLE, WALK, data, TITLE=title, FOOT=foot, MAP=svg)
"""

import base64
import hashlib
import html
import json
import os
import re
from collections.abc import Sequence

HERE = os.path.dirname(os.path.dirname(os.path.realpath(__file__)))  # of the pages' parts
BUILT = os.path.abspath(f"{HERE}/../../crates/cave/out/cave")
STYLE = ["walk_page/page.css"]
WALK = [f"walk_page/{it}.js" for it in "walk map objects lines chart moves".split()]


def part(path: str) -> str:
    """A part of a page: a script, a style or the frame."""
    with open(f"{HERE}/{path}", encoding="utf-8") as file:
        return file.read()


def foot_of(cave: str, bind: str | None, by: str, seed: str | None = None) -> str:
    """By what a log was played, at the foot of its page."""
    named = {"Played in": os.path.basename(cave),
             "with the bindings": os.path.basename(bind or ""), "from the seed": seed,
             "by": by.strip()}
    told = [f"{what} <b>{html.escape(name)}</b>" for what, name in named.items() if name]
    if not bind:
        told.insert(1, "without bindings")
    return ", ".join(told) + "."


def hash_of(content: str) -> str:
    return f"'sha256-{base64.b64encode(hashlib.sha256(content.encode()).digest()).decode()}'"


def page_of(styles: Sequence[str], scripts: Sequence[str], data: object, may: str = "",
            **slots: str) -> bytes:
    """The page, which may run its own scripts, use its own styles, and do what is said besides;
    each of its slots is filled once, so that no text of a cave can be a slot."""
    style = "".join(map(part, styles))
    script = "\n".join(['"use strict";', *map(part, scripts)])
    told = json.dumps(data, ensure_ascii=True, separators=(",", ":"))
    for mark in "<>&":  # so that the data end no element of the page
        told = told.replace(mark, f"\\u{ord(mark):04x}")
    policy = (f"default-src 'none'; script-src {hash_of(script)}; style-src {hash_of(style)};"
              f" {may}base-uri 'none'; form-action 'none'")
    slots |= {"POLICY": html.escape(policy), "STYLE": style, "SCRIPT": script,
              "DATA": told, "TITLE": html.escape(slots["TITLE"])}
    made = re.sub(r"\{\{([A-Z]+)\}\}", lambda found: slots.get(found[1], ""),
                  part("walk_page/page.html"))
    return made.encode(errors="replace")
