"""How pages look, to eyes and to screen readers, in print, with hostile texts and with long logs,
checked in a browser; used by tools/page/test."""

import base64
import re
import tempfile
from collections.abc import Callable

from common.files import TOP, bytes_of, write
from common.parts import Checks
from live_checks import LOG, edit_line, wandering
from page_checks import line_is
from pages import Pages, Walk, said_at
from served import FULL, FULL_SEED, SEED, Served
from window import Live, Page, Window

WIDTHS = [(1600, 1000), (1200, 800), (900, 1100), (420, 860)]
CONTRAST = 4.5  # of texts with their ground, as guidelines for all readers require
MOST_DRAWN, MOST_MS, MOST_BYTES, MOST_SECONDS = 400, 40, 25_000_000, 10
LONG, LONGEST = 5_000, 65_535
CHART = "return document.getElementById('chart').viewBox.baseVal.width"
GROUND = "return getComputedStyle(document.body).backgroundColor"
NAMED = """button combobox searchbox textbox listbox slider group region option image
img""".split()
FOREIGN = "img, b:not(footer b), i, iframe"
HARM = """</script><script>harm=1</script><!--<img src=x onerror=harm=1> &amp;"'{{DATA}} ]]>"""
HARMED = "return [window.harm ?? 'none', document.scripts.length]"
QUOTES = ["--bind", f"{TOP}/caves/quotes.bind"]
CAVE, LOG_NAME = "a <b>'&\" {{MAP}} cave.txt", "a <i>'&\" {{SCRIPT}} log"


# ---- what both pages have to be

def readable(page: Window, scheme: str) -> Checks:
    yield f"texts that are hard to read, {scheme}", page.ask("hardToRead", CONTRAST), [True, []]


def named(page: Window, *wanted: tuple[str, str]) -> Checks:
    """That each thing that can be used has a name, and these are there."""
    tree = page.execute_cdp_cmd("Accessibility.getFullAXTree", {})
    nodes = [it for it in tree["nodes"] if not it["ignored"]]
    told = [(it["role"]["value"], it.get("name", {}).get("value", "")) for it in nodes]
    live = [it["value"]["value"] for node in nodes for it in node.get("properties", [])
            if it["name"] == "live"]
    yield "without a name", [role for role, name in told if role in NAMED and not name], []
    yield "what is done is said", "polite" in live, True
    for role, name in wanted:
        yield f"a {role}", (role, name) in told, True


def reached(page: Window, count: int, *wanted: str) -> Checks:
    """That things are reached by pressing Tab that often."""
    found = [page.press("Tab").ask("reached") for _ in range(count)]
    yield "all is reached by Tab", [it for it in wanted if it not in found], []


def quotes(*changed: bytes) -> bytes:
    """A cave that has harm in place of some texts, behind the numbers of their lines."""
    cave = bytes_of(f"{TOP}/caves/quotes.txt")
    for text in (b"A dark cell, no more.", b"A lamp.", *changed):
        cave = cave.replace(text, text[: text.find(b"\t") + 1] + HARM.encode(), 1)
    return cave


def unharmed(page: Window) -> Checks:
    yield "harm, and scripts", page.run(HARMED), ["none", 2]
    yield "elements that no page has", page.count(FOREIGN), 0
    yield "the name", page.text("#name"), LOG_NAME


# ---- the page of a walk

def shapes(pages: Pages, page: Page) -> Checks:
    """Nothing is cut off at any width, by day or by night, and each text can be read."""
    walk, grounds = pages.two_tours(), set[str]()
    for scheme in ("light", "dark"):
        page.shade(scheme)
        for width, height in WIDTHS:
            page.resize(width, height).open(walk.path)
            yield f"too wide at {width}, {scheme}", page.ask("tooWide"), 0
            yield f"the chart's width at {width}", 200 < page.run(CHART) < width, True
        page.resize(*WIDTHS[1]).click("#keys summary")
        yield from readable(page, scheme)
        grounds.add(page.run(GROUND))
    yield "night isn't day", len(grounds), 2
    page.shade()


def roles(pages: Pages, page: Page) -> Checks:
    """What a screen reader gets: each thing that can be used has a name."""
    walk = pages.tour()
    yield from named(page.open(walk.path, 11),
                     ("listbox", "The lines of the log, with what was said"),
                     ("slider", "The line, on a chart of score and lamp"), ("region", "Map"),
                     ("region", "Transcript"), ("region", "Figures of the line"),
                     ("button", "37 You're in the mate's berth., 1 visit"),
                     ("searchbox", "Look for a text"), ("combobox", "Go to a place"))
    yield "the chart in words", page.value("#chart", "ariaValueText"), (
        "at 11: ne, You're in the try-works., score 59, lamp 324, treasure found")
    said = page.focus("#chart").press("ArrowRight").value("[role=status]")
    yield "what is said of a move", said.startswith("at 12: take vase, "), True
    sizes = page.each("[role=option]", "it.ariaPosInSet + ',' + it.ariaSetSize")
    wanted = [f"{at},{len(walk.lines) + 1}" for at in range(1, len(walk.lines) + 2)]
    yield "the places of lines in the list", sizes, wanted
    yield from reached(page.focus("#lines"), 14, "chart", "search", "a place", "visited", "whole")


def prints(pages: Pages, page: Page) -> Checks:
    """In print the whole map and all lines."""
    walk = pages.of_walk("printed", FULL, *FULL_SEED)
    printed = page.open(walk.path, 11).shade(medium="print").ask("printed")
    yield "what is printed", printed, [len(walk.lines) + 1, True, "none"]
    sheets = base64.b64decode(page.shade().print_page())
    yield "it takes several sheets", len(re.findall(rb"/Type ?/Page\b", sheets)) > 3, True
    yield from line_is(page, walk, 12, "after print")


def harmless(pages: Pages, page: Page) -> Checks:
    """Texts of a database, of a log and of their names are texts, regardless of what they look
    like."""
    path = pages.file(CAVE, quotes(b"3\tH\xc3\xb6hle", b"1\tNo."))
    lines = ["no", HARM[:60], "north", "east", HARM[20:80], "e", "look", "look"]
    walk = pages.of_walk("hostile", pages.log(LOG_NAME, lines), cave=[path, *QUOTES])
    yield from unharmed(page.open(walk.path, 0))
    yield "the title", page.run("return document.title"), LOG_NAME
    yield "the cave", page.value("footer b"), CAVE
    said = said_at(walk)
    yield "the texts have it", HARM in "\n".join(said), True
    shown = page.each("#lines [data-at]", "[it.querySelector('code')?.textContent,"
                                          " it.querySelector('.said')?.textContent ?? '']")
    yield "the lines", [it[0] for it in shown[1:]], [f"> {it}" for it in lines]
    utf8 = [it.encode("latin-1").decode(errors="replace") for it in said]
    pairs = [(got, want) for (_, got), want in zip(shown, utf8) if "\ufffd" not in want]
    yield "the texts", [it for it, _ in pairs], [it for _, it in pairs]
    titles = page.each("[data-place]", "it.ariaLabel")
    yield "a place's title", any(HARM[:30] in it for it in titles), True


def long(pages: Pages, page: Page) -> Checks:
    """A log of 5,000 lines moves without a delay."""
    yield from quick(page, pages.of_walk("long", pages.log("long.log", wandering(LONG))))


def quick(page: Page, walk: Walk) -> Checks:
    """That moves are quick, and that lines are drawn when they come into sight, and no others."""
    before = page.seconds()
    taken = page.open(walk.path).seconds() - before
    yield "seconds in which the page opens", min(taken, MOST_SECONDS), taken
    for keys in (["ArrowDown"] * 100, ["PageDown", "ArrowUp"] * 30, ["End", "Home"] * 10):
        before = page.seconds()
        page.ask("move", keys)
        taken = (page.seconds() - before) / len(keys) * 1_000
        yield f"milliseconds that {keys[0]} takes", min(taken, MOST_MS), taken
    for part in (0.3, 0.9, 0.1, 0.5):
        page.ask("scroll", part)
        drawn = page.wait("return tests.isFullSight()")
        yield f"lines are drawn after a scroll to {part}", drawn, True
        drawn = page.count("#lines [data-at]")
        yield f"how many are drawn after a scroll to {part}", min(drawn, MOST_DRAWN), drawn
    yield from line_is(page.press("End"), walk, len(walk.lines), "End")


def longest(pages: Pages, page: Page) -> Checks:
    """A log of 65,535 lines makes a page that isn't too large."""
    walk = pages.of_walk("longest", pages.log("longest.log", wandering(LONGEST)), *SEED)
    size = len(bytes_of(walk.path))
    yield f"the page has less than {MOST_BYTES} bytes", min(size, MOST_BYTES), size
    yield from quick(page, walk)


# ---- the page on which a log is edited

def live_shapes(window: Live, server: Served) -> Checks:
    edit_line(window, 18, "drop vase")
    for scheme in ("light", "dark"):
        window.shade(scheme)
        for width, height in [*WIDTHS, (400, 800)]:
            wide = window.resize(width, height).do("go(18)").ask("tooWide")
            yield f"too wide at {width}, {scheme}", wide, 0
        window.resize(*WIDTHS[1]).press("Enter").retype("drop xyz")
        yield from readable(window, scheme)
        window.press("Escape")
    window.shade().resize(*window.size)


def live_roles(window: Live, server: Served) -> Checks:
    edit_line(window, 18, "drop vase")
    yield from named(window.press("Enter").retype("dr"), ("group", "Edit"), ("textbox", "Seed"),
                     *(("button", it) for it in ("Undo", "Redo", "Save", "New line")),
                     ("combobox", "The line at 16"), ("listbox", "Words"), ("group", "From here"),
                     ("listbox", "The lines of the log, with what was said"))
    window.press("Escape")
    yield from reached(window, 30, "seed", "undo", "save", "lines", "end")


def live_harmless(window: Live, program: str) -> Checks:
    log = "".join(f"{it}\n" for it in ["no", HARM[:60], "north", "e", "look"]).encode()
    room = tempfile.TemporaryDirectory()
    words = [write(f"{room.name}/{CAVE}", quotes()), *QUOTES]
    with room, Served(program, words, log=log, name=LOG_NAME) as server:
        edit_line(window.open(server.address), 3, HARM[20:80])
        yield "the log", window.run(LOG)[2], HARM[20:80]
        yield from unharmed(window)
        yield "lines that are shown", window.count("#lines [data-at]"), 6
        allowed = window.run("return fetch('http://127.0.0.1:1/').then(() => 1, () => 0)")
        yield "no other server is called", allowed, 0
        window.messages()


PARTS: dict[str, Callable[[Pages, Page], Checks]] = {
    it.__name__: it for it in (shapes, roles, prints, harmless, long)}
TOURS = {"shapes": live_shapes, "screen readers": live_roles}
LIVE_PARTS = {"hostile texts": live_harmless}
