"""What is done on a page of `tools/page/live`, and what it shows; used by tools/page/test."""

import json
import os
import random

from common.files import TOP, bytes_of, text_of, write
from common.parts import Checks
from served import FULL, FULL_SEED, SHOAL, TOUR, Served
from window import Live

TYPED = "return typedField.isConnected ? typedField.value : null"
LOG = "return held.lines"
REHEARSED = "return performance.getEntriesByName('rehearsed').length > 0"
SHOWN = "return performance.getEntriesByName('shown').map((it) => [it.duration, it.detail])"
UNKNOWN = "return [...shadow.querySelectorAll('.unknown')].map((it) => it.textContent)"
SCRIPT = """return [...document.querySelectorAll('#change-list pre')]
  .map((it) => it.textContent).join('')"""
BUTTONS = "return [...near.querySelectorAll('button')].map((it) => it.firstChild.data.trim())"
TAKE = """[...near.querySelectorAll('button')].find((it) =>
  it.textContent.startsWith('take lamp')).focus()"""
SEED_FIELD = "return byId('seed').value"
ASKS = "return !dispatchEvent(new Event('beforeunload', { cancelable: true }))"
LINE_18 = "return held.lines[17]"
MOVES = ["e", "w", "take lamp", "light lamp", "look", "drop lamp", "inventory"]
AT_RANDOM = 300
# Changes by what the page calls for its keys: at a line, with texts, up to another line.
CALLS = {
    "insert": "go(arguments[0]); return insertBelow(arguments[1][0])",
    "paste": "go(arguments[0]); return pasteLines(arguments[1])",
    "delete": "go(arguments[0]); chosen.anchor = arguments[2]; return takeOutChosen()",
    "paste over": "go(arguments[0]); chosen.anchor = arguments[2]; return pasteLines(arguments[1])",
    "undo": "return undo()", "redo": "return redo()"}
LARGEST, LARGEST_SEED = f"{TOP}/logs/shoal/batteries-used.log", ["--seed", "1"]
CHANGES = 10
OPENED = text_of(TOUR).splitlines()


def lines_of(path: str) -> list[str]:
    return text_of(path).splitlines()


def page_is(window: Live, server: Served, how: str) -> Checks:
    """That all the page has is what the program prints of the held log."""
    opening, *lines = map(json.loads, server.played().splitlines())
    found = window.ask("walked")
    yield f"{how}: the opening", found["opening"], opening["said"].removesuffix("\n")
    wanted = [[it["place"], it["line"], it["said"].removesuffix("\n"), it["from"], it["to"],
               it["turns"], it["score"], it["lamp"], len(it["carried"]), it["draws"], it["stream"],
               it["question"] or "-", it["ended"] or "-", it["happened"]] for it in lines]
    yield f"{how}: the lines", found["lines"], wanted
    for at, line, said in window.ask("drawn"):
        if at:
            yield f"{how}: line {at}", [line, said.rstrip("\n")], wanted[at - 1][1:3]


def go(window: Live, line: int) -> Live:
    """Looks at a line, whose list has the keys."""
    return window.do("list.focus(); go(arguments[0])", line)


def edit_line(window: Live, line: int, text: str) -> None:
    """Types over a line by just keys, and leaves the field."""
    go(window, line).press("Enter").retype(text).press("ArrowUp").press("Escape")


# ---- typing

def by_keys(window: Live, server: Served) -> Checks:
    """The tour without its pillow, by just keys: out, back, out again, and saved."""
    yield "the lines have the keys", window.focused(), "lines"
    yield "what to do is said", window.text("#told").startswith("Type over a line."), True
    window.wait(REHEARSED)
    yield "no change, so no curve before it", window.count("#chart .score.before"), 0
    window.press("Home", *["ArrowDown"] * 10, "Enter")
    yield "Enter types over the line", window.run(TYPED), "take pillow"
    yield "an empty line is still there", len(window.retype("").run(LOG)), 22
    window.ask("noteMarks")
    yield "lines are marked", window.press("Backspace").wait("return window.lastMarked > 9"), True
    yield "Backspace takes it out", window.run(LOG)[9], "se"
    yield "the line above is typed over", window.run(TYPED), "nw"
    for selector, text in [("#otherwise", "Score 59 in place of 73"),
                           ("#otherwise", "VASE: at 3, fixed, prop 2"),
                           ("#meeting", "Meets nowhere: "), ("#unsaved", "not saved")]:
        yield text, text in window.text(selector), True
    yield "the old curve", window.count("#chart .score.before"), 1
    yield from page_is(window, server, "without the pillow")
    window.press("Escape").press("Control+z")
    yield "taken back", [window.run(LOG), window.text("#unsaved")], [OPENED, "saved"]
    yield "made again", window.press("Control+y").run(LOG)[9], "se"
    window.press("Control+z").press("Control+s")
    yield "saved as it was", lines_of(server.path), OPENED
    yield "no mark is left", window.wait("return !document.querySelector('.replayed')"), True


def new_lines(window: Live, server: Served) -> Checks:
    """Lines below, blank lines and comments."""
    go(window, 4).press("Enter", "Enter")
    yield "a new line", [window.run(TYPED), len(window.run(LOG))], ["", 22]
    wanted = ["look", "inventory", "", "# a remark"]
    for line in wanted:
        window.type(line).press("Enter")
    yield "the lines", window.run(LOG)[4:8], wanted
    typed = window.press("Backspace").run(TYPED)
    yield "Backspace gives the new line up", [typed, len(window.run(LOG))], ["# a remark", 26]
    yield from page_is(window, server, "new lines")
    yield "Esc goes back to the lines", window.press("Escape").focused(), "lines"
    window.press("Home", "Enter").type("# first").press("Enter", "Escape")
    yield "a line before all others", window.run(LOG)[0], "# first"
    yield "each is a change", window.text("#changes-count"), "5"
    for _ in range(5):
        window.press("Control+z")
    yield "all taken back", window.run(LOG), OPENED
    yield "no more", window.value("#undo", "disabled"), True
    window.do("go(4)").press("Enter", "Enter", *"look", "Enter", "e", "Enter", "w", "Enter", "n")
    yield "who types ahead loses nothing", [window.run(LOG)[4:7], window.run(TYPED)], [
        ["look", "e", "w"], "n"]
    yield "nor the last line", window.press("Enter", "Escape").run(LOG)[7], "n"
    yield from page_is(window, server, "typed ahead")


def refused(window: Live, server: Served) -> Checks:
    """A refusal is shown at its line, which stays as it was typed."""
    for text in ("caf\u00e9", "x" * 256):
        said = go(window, 4).press("Enter").retype(text).press("Enter").text("#typed-wrong")
        yield f"{text[:9]}: it is said", "a bad line" in said, True
        yield "as it was typed", window.run(TYPED), text
        yield "marked", window.run("return typedField.ariaInvalid"), "true"
        yield "the log is as it was", window.run(LOG), OPENED
        yield "another line is looked at", window.click("#line-7 .said").chosen(), 7
        yield "it stays", window.run(TYPED), text
        window.do("go(4)").click("#typed").retype("look").press("Enter", "Escape")
        yield "right at last", window.run(LOG)[3], "look"
        window.press("Control+z")
    window.press("Enter").retype("\u00e9").press("Enter", "Escape")
    yield "Esc gives it up", [window.run(TYPED), window.run(LOG)], [None, OPENED]


def words(window: Live, server: Served) -> Checks:
    """Words complete, and unknown ones are underlined."""
    shown = go(window, 4).press("Enter", "Enter").type("ta").each("#completions li")
    yield "words that begin so", {it[:2] for it in shown}, {"ta"}
    yield "take is one of them", "take" in shown, True
    yield "Tab completes", window.press("Tab").run(TYPED), shown[0]
    yield "Tab again is the next", window.press("Tab").run(TYPED), shown[1]
    said = window.retype("take xyz").text("#typed-wrong")
    yield "an unknown word", said, "The cave doesn't know xyz."
    yield "is underlined", window.run(UNKNOWN), ["xyz"]
    for line in ("# any word", "seed 77", "say anything", "take lamp and more", "YES", ""):
        yield f"{line!r} is known", window.retype(line).run(UNKNOWN), []
    window.retype("take la").click('#completions [data-word="lamp"]')
    yield "a click completes", window.run(TYPED), "take lamp"
    window.press("Escape")


# ---- several lines

def several(window: Live, server: Served) -> Checks:
    """Lines that are chosen, taken out, copied, cut and pasted are one change each."""
    window.do("go(4)").press("Shift+ArrowDown", "Shift+ArrowDown")
    yield "chosen", window.count(".chosen"), 3
    yield "the button says so", window.text("#delete"), "Delete 3 lines"
    yield "copied", window.clipboard("copy"), "".join(f"{it}\n" for it in OPENED[3:6])
    yield "taken out", window.press("Delete").run(LOG), OPENED[:3] + OPENED[6:]
    yield "as one change", window.text("#changes-count"), "1"
    yield from page_is(window, server, "three lines fewer")
    yield "taken back", window.press("Control+z").run(LOG), OPENED
    window.do("go(4)").clipboard("paste", "look\ninventory\n# three\n")
    yield "pasted", window.run(LOG)[4:7], ["look", "inventory", "# three"]
    yield "as one change too", window.text("#changes-count"), "1"
    cut = window.do("go(5)").press("Shift+ArrowDown").clipboard("cut")
    yield "cut", [cut, window.run(LOG)[4]], ["look\ninventory\n", "# three"]
    window.do("go(5)").press("Enter").clipboard("paste", "look\nlook\n")
    yield "pasted into a line", window.run(LOG)[4:6], ["# threelook", "look"]
    yield from page_is(window, server, "after all")
    go(window, 1).click("#line-3 .number", held="Shift")
    yield "chosen by the mouse", window.text("#delete"), "Delete 3 lines"


# ---- by the mouse

def by_mouse(window: Live, server: Served) -> Checks:
    """The same by the mouse: lines, buttons and the list of changes."""
    window.do("go(18)").click("#line-18 .command > code")
    yield "a click types over the line", window.run(TYPED), "drop pillow"
    played = window.retype("drop vase").click("#line-17 .number").run(LINE_18)
    yield "a click elsewhere plays it", played, "drop vase"
    window.click("#line-18 .command > code").retype("drop pillow")
    window.click("#line-17 .command > code")
    yield "a click on another line types over that", [window.run(LINE_18), window.run(TYPED)], [
        "drop pillow", "# The vase would not survive a stone floor."]
    window.press("Escape").click("#undo").do("go(18)").click("#line-18 .command > code")
    window.retype("\u00e9").click("#line-16 .number")
    yield "what is refused then is back", window.run(TYPED), "\u00e9"
    window.press("Escape").do("go(17)").click("#new-line").type("look").click("#undo")
    yield "what is typed is played before", window.text("#changes-count"), "1 of 2"
    yield "redo", window.click("#redo").text("#changes-count"), "2"
    yield "Delete", window.do("go(1)").click("#delete").run(LOG)[0], OPENED[1]
    rows = window.click("#changes summary").each("#change-list > li > code", "it.innerText")
    yield "the list", rows, ["delete 0", "insert 17 look", "replace 17 drop vase",
                             "As it was opened"]
    script = window.click('#change-list [data-count="2"] summary').wait(SCRIPT)
    yield "a script", script, "expect 17 drop vase\ninsert 17 look\n"
    back = window.click('#change-list [data-count="0"] button').run(LOG)
    yield "back to the beginning", back, OPENED
    on = window.click('#change-list [data-count="3"] button').run(LOG)
    yield "on to the end", on[0], OPENED[1]
    yield "saved", window.click("#save").run(LOG), lines_of(server.path)
    yield "what was taken away", sorted(os.listdir(server.room.name)), ["tour.log"]
    away = window.each("#away a", "it.pathname.split('/')[2]")
    yield "the scripts are there", away, ["log", "script", "undo"]


def on_the_map(window: Live, server: Served) -> Checks:
    """Motions and objects that are here put their lines in."""
    leads = window.do("go(3)").each(".way.leads.label", "it.dataset.motion")  # at the start
    yield "ways lead from here", "east" in leads or "in" in leads, True
    before = len(window.do("go(4); lookReadably()").run(LOG))
    window.click('.way.leads.label[data-way="3.26"] polygon')
    yield "a click on a way goes it", [window.run(LOG)[4], window.chosen()], ["mareel", 5]
    buttons = window.do("go(4)").run(BUTTONS)
    yield "the same as buttons", "mareel" in buttons, True
    yield "objects that are here", [it for it in buttons if it.startswith("take ")][:2], [
        "take keys", "take lamp"]
    yield "take lamp", window.do(TAKE).press("Enter").run(LOG)[4], "take lamp"
    window.do("go(4); lookReadably()").click('#things [data-object="1"]')
    yield "a click on an object takes it", [window.run(LOG)[4], window.chosen()], ["take keys", 5]
    yield "it is in the hands", "keys" in window.value("#facts"), True
    yield "three lines more", len(window.run(LOG)), before + 3
    yield from page_is(window, server, "motions")


# ---- the file of the log, other pages, and the server's end

def seeds(window: Live, server: Served) -> Checks:
    yield "the seed", window.run(SEED_FIELD), "3"
    held = window.click("#seed").retype("99").press("Tab").wait(
        "return byId('seed').dataset.held === '99'")
    yield "another seed", held, True
    yield "the opening is replayed too", window.run("return held.stream[0]"), 99
    said = window.click("#seed").retype("2147483648").press("Tab").text("#notice")
    yield "a bad seed", "a bad seed" in said, True
    window.click("#seed").retype("99").do("list.focus()").press("Control+z")
    yield "taken back", window.run(SEED_FIELD), "3"
    yield from page_is(window, server, "the old seed")


def on_disk(window: Live, server: Served) -> Checks:
    edit_line(window, 18, "drop vase")
    write(server.path, server.file() + b"look\n")
    yield "it is said", "changed on disk" in window.press("Control+s").text("#notice"), True
    yield "nothing is saved", lines_of(server.path), [*OPENED, "look"]
    yield "until that is asked for", window.click("#save-over").run(LOG), lines_of(server.path)
    yield "saved", window.text("#unsaved"), "saved"


def two_pages(window: Live, server: Served) -> Checks:
    first, switch = window.current_window_handle, window.switch_to
    switch.new_window("tab")
    edit_line(window.open(server.address), 18, "drop vase")
    switch.window(first)
    yield "the other page shows it", window.wait(
        "return held.lines[17] === 'drop vase' && changes.list.length === 1"), True
    yield from page_is(window, server, "the other page")
    yield "and takes it back", window.do("list.focus()").press("Control+z").run(LOG), OPENED
    switch.window(window.window_handles[1])
    yield "which the first one shows", window.wait(f"{LINE_18} === 'drop pillow'"), True
    window.close()
    switch.window(first)


def leaving(window: Live, server: Served) -> Checks:
    """A page with changes that aren't saved asks before it closes."""
    yield "saved: it doesn't ask", window.run(ASKS), False
    edit_line(window.open(server.address), 18, "drop vase")
    held = server.got("log")
    yield "not saved: it asks", window.run(ASKS), True
    yield "the changes are still there", window.run(LINE_18), "drop vase"
    said = window.do("window.confirm = () => true").click("#end").text("#notice")
    yield "it is said", "The server has ended" in said, True
    server.end()
    yield "the draft", bytes_of(f"{server.path}.unsaved"), held
    yield "the file is as it was", lines_of(server.path), OPENED


def ended(window: Live, server: Served) -> Checks:
    server.end()
    yield "a server that ended", go(window, 4).wait("return wire.isEnded"), True
    yield "is said", "ended" in window.text("#notice"), True


def lost(window: Live, server: Served) -> Checks:
    """A line that is typed as the server ends isn't lost."""
    go(window, 4).press("Enter").retype("look")
    server.end()
    yield "a line for a server that ended stays", window.press("Enter").run(TYPED), "look"
    yield "and what is wrong is said at it", "ended" in window.text("#typed-wrong"), True
    yield "the log is as it was", window.run(LOG), OPENED
    window.press("Escape")


# ---- long logs, and how fast they are

def largest(window: Live, program: str) -> Checks:
    """The largest log of the suite with ten changes in its middle, all taken back and saved."""
    opened, name = lines_of(LARGEST), os.path.basename(LARGEST)
    with Served(program, [*SHOAL, *LARGEST_SEED], log=bytes_of(LARGEST), name=name) as server:
        yield "its lines", len(window.open(server.address).run(LOG)), len(opened)
        for at in range(CHANGES):
            edit_line(window, len(opened) // 2 + 7 * at, MOVES[at % len(MOVES)])
        changed = sum(a != b for a, b in zip(window.run(LOG), opened))
        yield "lines that are changed", CHANGES - 2 <= changed <= CHANGES, True
        yield from page_is(window, server, "ten changes")
        yield "all taken back", window.do("goToChange(() => 0)").settle().run(LOG) == opened, True
        window.press("Control+s")
        yield "saved as it was", lines_of(server.path) == opened, True


def at_random(window: Live, program: str) -> Checks:
    """Changes at random, taken back and made again: the page has what the program prints."""
    chance = random.Random(67)
    with Served(program, [*SHOAL, *FULL_SEED], log=bytes_of(FULL), name="full.log") as server:
        window.open(server.address)
        for at in range(AT_RANDOM):
            line = chance.randrange(1, 300)
            texts = [chance.choice([*MOVES, "", "# a remark", "seed 7", "drop vase", "xyzzy"])
                     for _ in range(chance.randrange(1, 5))]
            kind = chance.choice([*CALLS])
            window.do(CALLS[kind], line, texts, max(line - chance.randrange(4), 1)).settle()
            if at % 30 == 29:
                yield from page_is(window, server, f"after {at + 1}")
        yield "saved", window.press("Control+s").run(LOG), lines_of(server.path)
        window.run("return goToChange(() => 0)")
        yield "all taken back", window.run(LOG), lines_of(FULL)
        yield from page_is(window, server, "all taken back")


def wandering(count: int) -> list[str]:
    """A log that goes about, with a word of its own in each third line."""
    return ["no", *(MOVES[at % 7] if at % 3 else f"word{at}" for at in range(1, count))]


def quick(window: Live, program: str, count: int, most: float) -> Checks:
    """How many milliseconds pass from a key to what it leads to, in a log of this many lines."""
    log = "".join(f"{it}\n" for it in wandering(count)).encode()
    with Served(program, SHOAL, log=log, name=f"{count}.log") as server:
        window.open(server.address).wait("return held.lines.length === arguments[0]", count)
        window.wait(REHEARSED)
        for at in (count // 2, count // 4, count - 20):
            for text in ("read lamp", "wave lamp"):  # which no line of the log is
                go(window.do("performance.clearMeasures('shown')"), at)
                window.press("Enter").retype(text).press("ArrowUp").wait(f"{SHOWN}.length > 0")
                taken, played = window.run(SHOWN)[0]
                print(f"         {count:,} lines, a change at {at}: {taken:.0f} ms from the key to"
                      f" what is shown, {played} of them of the program", flush=True)
                yield f"{count:,} lines: the time of a change at {at}", min(taken, most), taken
                window.press("Escape")
        held = server.got("log").decode().splitlines()
        yield "the log is the page's", held == window.run(LOG), True


TOURS = {"by keys": by_keys, "new lines": new_lines, "refused lines": refused, "words": words,
         "several lines": several, "by the mouse": by_mouse, "on the map": on_the_map,
         "seeds": seeds, "the file on disk": on_disk, "two pages": two_pages, "leaving": leaving,
         "the server's end": ended, "a line that is typed then": lost}
PARTS = {"changes at random": at_random, "the largest log": largest}
SPEEDS = {3_000: 100.0, 60_000: 400.0}
