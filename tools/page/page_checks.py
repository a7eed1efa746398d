"""What a page shows and what moves it, checked in a browser; used by tools/page/test."""

from collections.abc import Callable

from common.files import TOP, match_in, text_of
from common.parts import Checks
from pages import (Pages, Walk, happened_at, line_beside, named, place_at, said_at, score_of,
                   things_at, trail_of, visits_of)
from served import FULL, FULL_SEED, SEED, SHOAL, TOUR
from window import Page

ADDRESS = "return location.hash === arguments[0]"
THERE = "return beside(now.at)"
MARKED = ["died", "hint", "closing", "closed", "treasure found", "treasure home"]
GO = "go(arguments[0])"


def facts_of(walk: Walk, line: int) -> dict[str, str]:
    """What has to be said about a line, by the steps."""
    place = {"Place": str(place_at(walk, line) or "nowhere")}
    if not line:
        return place
    at, steps = line - 1, walk.steps
    gained = steps["score"][at] - steps["score"][at - 1] if at else 0
    sign = f"{'+' if gained > 0 else chr(0x2212)}{abs(gained)}"
    drawn = f"{steps['draws'][at] or 'none'} drawn"
    facts = {"At": f"{at}, of {len(walk.lines)} lines", "Turn": str(steps["turns"][at]),
             "Score": f"{steps['score'][at]} of {score_of(walk).split()[-1]}"
                      + (f", {sign} at this line" if gained else ""),
             "Lamp": str(steps["lamp"][at]), "Carried": named(walk.told[line]["carried"]),
             "Here": named(things_at(walk, place_at(walk, line), line)),
             "Chance": f"{drawn}, stream at {steps['stream'][at]}",
             "Happened": ", ".join(happened_at(walk, line))}
    facts |= {it.title(): steps[it][at].replace("-", "") for it in ("question", "ended")}
    return place | {name: it for name, it in facts.items() if it}


def line_is(page: Page, walk: Walk, line: int, how: str) -> Checks:
    """That a line is the one that is looked at, everywhere."""
    place = place_at(walk, line)
    wanted = {"the lines": [line], "what a screen reader is at": f"line-{line}", "the chart": line,
              "is in sight": True, "the place": [place] * bool(place),
              "the trail": len(trail_of(walk, line)), "the trail leads to the place": True,
              "the facts": facts_of(walk, line)}
    seen = page.ask("seen")
    for what, it in wanted.items():
        yield f"{how}: {what}", seen[what], it


def fact(page: Page, name: str) -> str:
    return str(page.value(f'#facts [data-fact="{name}"]'))


def pressed(page: Page, *rows: tuple[str, int]) -> Checks:
    for key, line in rows:
        yield key, page.press(key).chosen(), line


def facts(pages: Pages, page: Page) -> Checks:
    """Each line of two walks, one after another: all that is shown of it."""
    for walk in (pages.tour(), pages.of_walk("full", FULL, *FULL_SEED)):
        page.open(walk.path)
        length, said = len(walk.lines), said_at(walk)
        for line in range(length + 1):
            yield from line_is(page, walk, line, f"line {line}")
            for at, shown in page.ask("said"):
                if abs(at - line) < 3:
                    yield f"what was said at line {at}", shown.rstrip("\n"), said[at]
            page.press("ArrowDown")
        yield "after the last line", page.chosen(), length
        score = fact(page, "Score").split(",")[0]
        yield "the last score is the transcript's", score, score_of(walk)
        yield "the sum is the transcript's", page.text("#sum"), walk.transcript.splitlines()[-1][3:]


def marks(pages: Pages, page: Page) -> Checks:
    """What happened is marked on the chart, and at its line."""
    for name in ("three-deaths", "hints", "full-score"):
        log = f"{TOP}/logs/shoal/{name}.log"
        walk = pages.of_walk(name, log, "--seed", match_in(r"--seed (\d+)", text_of(log))[1])
        page.open(walk.path)
        badges = [(at, it) for at in range(len(walk.lines) + 1) for it in happened_at(walk, at)]
        titles = [f"at {at - 1}: {it}" for at, it in badges if it in MARKED]
        yield f"{name}: marks of the chart", page.each("#chart .event-mark title"), titles
        for at in (at for at, place in enumerate(walk.steps["to"]) if place == 0):
            in_sight = page.open(walk.path, at).ask("isPlaceInSight")
            yield f"{name}: the place of the death at {at} is in sight", in_sight, True
        shown = page.do("dispatchEvent(new Event('beforeprint'))").ask("events")
        yield f"{name}: what happened at lines", shown, [[*it] for it in badges]


def keys(pages: Pages, page: Page) -> Checks:
    walk = pages.tour()
    last = len(walk.lines)
    yield "the page opens", page.open(walk.path).chosen(), 0
    yield "the lines have the keys", page.focused(), "lines"
    moves = [("End", last), ("ArrowDown", last), ("ArrowUp", last - 1), ("ArrowRight", last),
             ("ArrowLeft", last - 1), ("Home", 0), ("ArrowUp", 0), ("ArrowLeft", 0),
             ("PageDown", 10), ("PageDown", 20), ("PageDown", last), ("PageUp", last - 10),
             ("Home", 0), ("ArrowDown", 1), ("ArrowRight", 2)]
    for key, line in moves:
        yield from line_is(page.press(key), walk, line, key)
    page.open(walk.path, 7)
    yield from pressed(page, ("v", 11), ("V", 8), ("V", 14), ("v", 8))  # visits of place 27
    width, whole = page.press("0").ask("sightOfMap")[2], page.run("return whole[2]")
    yield "0 shows the whole map", width >= whole, True
    yield "+ comes nearer", page.press("+").ask("sightOfMap")[2] < width, True
    yield "- goes farther", page.press("-").ask("sightOfMap")[2], width
    yield "Keys shows keys", page.click("#keys summary").value("#keys", "open"), True
    for key, is_open in [("Escape", False), ("?", True), ("?", False)]:
        yield f"{key}: keys are shown", page.press(key).value("#keys", "open"), is_open
    yield "End on the chart", page.focus("#chart").press("End").chosen(), last
    first = visits_of(walk, 3)[0]
    page.focus(".place.here")
    yield from pressed(page, ("Enter", first), ("ArrowDown", first + 1))  # its next visit


def addresses(pages: Pages, page: Page) -> Checks:
    walk = pages.tour()
    for address, wanted in [(11, 12), (0, 1), ("opening", 0), (999, len(walk.lines))]:
        yield from line_is(page.open(walk.path, address), walk, wanted, f"#{address}")
    at_last = page.wait(ADDRESS, f"#{len(walk.lines) - 1}")
    yield "the address of what isn't there is that of the last line", at_last, True
    page.run("location.hash = '#4'")
    page.wait("return document.getElementById('line-5').ariaSelected === 'true'")
    yield from line_is(page, walk, 5, "a link to #4")
    for key, address in [("ArrowDown", "#5"), ("Home", "#opening")]:
        goes = page.press(key).wait(ADDRESS, address)
        yield f"the address goes with the line to {address}", goes, True
    yield "an address that is none", page.open(walk.path, "x1").chosen(), 0


def small(pages: Pages, page: Page) -> Checks:
    """Logs in which nothing is played."""
    for name, lines in [("no-line", list[str]()), ("comment", ["# No line is played."])]:
        walk = pages.of_walk(name, pages.log(f"{name}.log", lines))
        page.open(walk.path).press("ArrowDown", "End", "v", "/", *"tide", "Escape")
        yield f"{name}: the opening has what is looked for", page.chosen(), 0
        yield f"{name}: the last line", page.press("End").chosen(), len(lines)
        yield f"{name}: the sum", page.value("#sum"), walk.transcript.splitlines()[-1][3:]
        place = fact(page, "Place").split(" ")[0]
        yield f"{name}: the place", place, str(place_at(walk, 1) if lines else 1)
    asked = pages.log("asked.log", ["yes"])
    page.open(pages.of_walk("asked", asked).path, 0)
    yield "the first line loses", fact(page, "Score"), f"27 of 326, {chr(0x2212)}5 at this line"
    page.open(pages.of_walk("alone", asked, against=f"{pages.room}/no-line.log").path)
    yield "against a log without a line", page.value("#parting"), (
        "Parts from no-line.log at 0 by yes, not its end; ends with 27, 5 less than 32.")


def clicks(pages: Pages, page: Page) -> Checks:
    """Clicks on lines, on the chart, on places, on the small map, on a list of places."""
    walk = pages.tour()
    page.open(walk.path, 9).click("#line-12 .said")
    yield from line_is(page, walk, 12, "a click on line 12")
    half = page.ask("mark", 0)[2]
    for mark, event in enumerate(["treasure found", "treasure home"]):
        line = next(at for at in range(len(walk.lines)) if event in happened_at(walk, at))
        right, title, _ = page.ask("mark", mark)
        yield "a mark of the chart", title, f"at {line - 1}: {event}"
        yield from line_is(page.click("#chart", right, 10), walk, line, f"a click at line {line}")
    for right, line in [(half - 3, len(walk.lines)), (3 - half, 0)]:
        yield f"a click at the end {line} of the chart", page.click("#chart", right).chosen(), line
    page.click("#whole")
    for place in (26, 3, 27):
        visits = visits_of(walk, place)
        for line in [*visits, visits[0]]:
            if line == visits[0]:
                page.do(GO, line - 1)
            page.click(f'[data-place="{place}"]')
            yield from line_is(page, walk, line, f"a click on place {place}")
    before = page.chosen()
    yield "a click on a place that wasn't visited", page.click('[data-place="40"]').chosen(), before
    yield "what is said of it", page.value("#said-now").endswith("never visited in tour.log"), True
    old = page.click("#whole").ask("sightOfMap")
    moved = page.click("#overview", 60, 40).ask("sightOfMap")
    yield "a click on the small map", moved[:2] != old[:2], True
    yield "a drag moves the map alone", page.drag("#drawing", 40, 0).chosen(), before
    page.ask("visit", "37")
    yield from line_is(page, walk, visits_of(walk, 37)[0], "place 37 of the list")


def search(pages: Pages, page: Page) -> Checks:
    walk, wanted = pages.tour(), "vase"
    texts = [f"{line}\n{said}".lower() for line, said in zip(["", *walk.lines], said_at(walk))]
    found = [at for at, it in enumerate(texts) if wanted in it]
    yield "/ goes to the field", page.open(walk.path).press("/").focused(), "search"
    yield "the first line that has it", page.press(*wanted).chosen(), found[0]
    yield "how many there are", page.value("#found"), f"1 of {len(found)}"
    yield from pressed(page, ("Enter", found[1]), ("Shift+Enter", found[0]),
                       ("Shift+Enter", found[-1]))
    yield "Esc goes back to the lines", page.press("Escape").focused(), "lines"
    yield from pressed(page, ("n", found[0]), ("N", found[-1]))
    yield "the next match", page.click("#after").chosen(), found[0]
    yield "the match before", page.click("#before").chosen(), found[-1]
    yield "what is marked", {it.lower() for it in page.each("#lines mark")}, {wanted}
    page.press("/", *"the door is")  # with the end of a line in it
    yield "a text over two lines", [page.chosen(), page.value("#found")], [9, "1 of 1"]
    yield "its mark", page.value("#line-9 mark"), "The\ndoor is"
    yield "its text", page.value("#line-9 .said").rstrip("\n"), said_at(walk)[9]
    yield "a text that isn't there", page.press("/", *"@@").value("#found"), "nowhere"
    yield "the line stays", page.chosen(), 9


def colours(pages: Pages, page: Page) -> Checks:
    """Places that were not seen yet are pale."""
    walk = pages.tour()
    page.open(walk.path)
    for line in (0, 3, 7, 12, len(walk.lines)):
        seen = {walk.steps["from"][0], *walk.steps["to"][:line]}
        known = page.do(GO, line).ask("knownPlaces")
        yield f"the places that line {line} knows", known, sorted(seen)


def against(pages: Pages, page: Page) -> Checks:
    walk, other = pages.two_tours(), pages.tour()
    yield from line_is_beside(page.open(walk.path), 18, "the page opens where they part")
    yield "what parts them", page.value("#parting"), (
        "Parts from tour.log at 17 by drop vase, not drop pillow; ends with 59, 14 less than 73.")
    score = "59 of 326; 73 in tour.log"
    yield "both scores", fact(page.press("End"), "Score"), score
    yield "o shows the other walk", page.press("o").value("#name"), "tour.log"
    yield "its score", fact(page, "Score"), "73 of 326; 59 in without-pillow.log"
    yield "the button shows the first again", fact(page.click("#other"), "Score"), score
    lines = walk.lines[:11] + ["# One more line.", "w", "look", "look"]
    walk = pages.of_walk("astray", pages.log("astray.log", lines), *SEED, against=TOUR)
    yield from line_is_beside(page.open(walk.path), 13, "where they part after a comment")
    for line in (13, 14, 15):
        places, there = page.ask("bothPlaces"), page.run(THERE)
        yield f"both places, line {line}", places, [place_at(walk, line), place_at(other, there)]
        theirs = page.count("#trails .trail.theirs")
        yield f"the other trail, line {line}", theirs, len(trail_of(other, there))
        page.press("ArrowDown")
    for how in ("o goes to the line that is beside", "o goes back"):
        there = page.run(THERE)
        yield how, page.press("o").chosen(), there
    there = page.press("Home").count(".trail.theirs, .place.there")
    yield "one trail before they part", there, 0
    page.open(pages.of_walk("same", TOUR, *SEED, against=TOUR).path)
    yield "walks that never part", page.value("#parting"), f"Plays as {TOUR} does."


def beside(pages: Pages, page: Page) -> Checks:
    """After one more line, like stands beside like, and the page says where walks come together."""
    other = pages.tour()
    for name, at, line, told in [
            ("a-look", 12, "look", "Parts from tour.log at 12 by look, not take vase; ends with 73,"
             " as it does."),
            ("lampless", 5, "off", ""), ("a-comment", 12, "# Here is a vase.", "")]:
        lines = [*other.lines[:at], line, *other.lines[at:]]
        walk = pages.of_walk(name, pages.log(f"{name}.log", lines), *SEED, against=TOUR)
        page.open(walk.path)
        if told:
            yield f"{name}: what parts them", page.value("#parting"), told
        found = page.run("return walk().columns.map((column, at) => [beside(at), isAlone(at)])")
        yield f"{name}: the lines beside", found, [[line_beside(walk, other, it), it == at + 1]
                                                   for it in range(len(lines) + 1)]
        back = page.press("o").run("return walk().columns.map((column, at) => beside(at))")
        yield f"{name}: back", back, [line_beside(other, walk, it)
                                      for it in range(len(other.lines) + 1)]
    lines = [*other.lines[:17], "inventory", *other.lines[18:]]
    walk = pages.of_walk("instead", pages.log("instead.log", lines), *SEED, against=TOUR)
    yield "they part", page.open(walk.path).run("return data.parting"), [17, 17]


def objects(pages: Pages, page: Page) -> Checks:
    """Where objects are, on the map and in the figures; the score's table; a line of a script; the
    foot."""
    walk = pages.tour()
    page.open(walk.path)
    for line in (0, 5, 13, 19, len(walk.lines)):
        shown = page.do(GO, line).each(
            "#things text", "[Number(it.dataset.things), it.querySelector('title').textContent]")
        wanted = [[it, named(things)] for it in range(1, 301)
                  if (things := things_at(walk, it, line))]
        yield f"the objects at places, line {line}", sorted(
            [place, names.lower()] for place, names in shown), wanted
    table = pages.printed("play", SHOAL[0], TOUR, *SHOAL[1:], *SEED, "--print", "score")
    rows = page.each("#score-table tr", "[...it.children].map((cell) => cell.textContent)")
    yield "the table of the score", rows, [it.split("\t") for it in table.splitlines()]
    yield "it is shown", page.click("#score-box summary").value("#score-box", "open"), True
    page.do(GO, 18).focus("#lines").press("c")
    yield "a line of a script", page.value("#said-now"), f"copied: replace 17 {walk.lines[17]}"
    yield "the foot", page.value("footer").split(". ")[0], (
        "Played in shoal.txt, with the bindings shoal.bind, from the seed 3, by"
        f" {pages.printed('--version').strip()}")


def line_is_beside(page: Page, line: int, how: str) -> Checks:
    """That a line is looked at, with the other walk's line beside it on the chart."""
    yield how, page.chosen(), line
    yield f"{how}: dots on the chart", page.count("#cursor .dot"), 2
    yield f"{how}: the other score", page.count("#chart .score.theirs"), 1


PARTS: dict[str, Callable[[Pages, Page], Checks]] = {
    it.__name__: it for it in (facts, marks, keys, addresses, small, clicks, search, colours,
                               against, beside, objects)}
