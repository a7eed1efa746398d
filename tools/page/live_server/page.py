"""The page of a held log: that of a walk, with what edits it, as one file of HTML."""

from cave_walk.drawing import Drawing
from cave_walk.filled import STYLE, WALK, page_of as filled_page

LIVE = [f"live_page/{it}.js" for it in """held told wire words editor chosen near changes file
live""".split()]


def walk_to_fill(name: str) -> dict[str, object]:
    """A walk as the page has it, before any line is put into it."""
    numbers = ("from", "to", "turns", "score", "lamp", "carried", "draws", "stream")
    named = ("question", "ended", "happened")
    return ({it: [] for it in numbers} | {it: {"words": ["-"], "rows": []} for it in named}
            | {"name": name, "lines": [], "said": [0], "sum": "", "maximum": 0, "carriedThings": [],
               "moved": []})


def page_of(name: str, foot: str, drawn: Drawing, live: dict[str, object]) -> bytes:
    """The page, which calls its own server."""
    data = {"walks": [walk_to_fill(name)], "lines": [], "texts": [[]], "places": drawn.titles,
            "opening": {"to": 0, "score": 0, "lamp": 0, "moved": []}, "parting": None, "live": live}
    return filled_page([*STYLE, "live_page/live.css"], [*WALK, *LIVE], data, "connect-src 'self'; ",
                       TITLE=name, FOOT=foot, MAP=drawn.svg)
