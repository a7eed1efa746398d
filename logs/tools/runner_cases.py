"""Cases of `logs/tools/check-runner`: small suites, most with one thing wrong, and what a runner
has to say of each."""

import re

from small_suites import REPEAT, Case, Files, Folder, answers, walk  # first: it finds the rest

from common.files import cases_in, section_of

TABLES = "logs/tools/runner-tables.md"
NO_RUN = ["first", "small/dragon-between", "small/forced-chain"]  # logs of the suite
RIGHT = {"right.log": "# A walk.\n# run: play\nno\n", "right.out": ""}
PLAYED = "# run: play\n"
TEXTS = {"log": PLAYED, "out": "", "script": "delete 0\n"}
QUIET = {"other.log": "# no run: it is here for others.\nno\n", "other.script": "delete 0\n"}
EDITED = QUIET | {"edit.log": "# run: edit CAVE logs/other.log logs/other.script\n", "edit.out": ""}
# What is added to a right suite, and what is then said.
ADDED: list[tuple[Files, str]] = [
    *(({"other.log": f"{log}\n", "other.out": ""}, said)
      for log, said in cases_in(TABLES, "Heads")),
    *(({it: TEXTS[it.rpartition(".")[2]] for it in names.split()}, said)
      for names, said in cases_in(TABLES, "Files")),
    (QUIET, "the log is meant for no run, and no other log names it"),
    ({"other.log": PLAYED, "other.out": "Something was said.\n"}, "logs/other.out:1:\n"),
]
FOLDERS = {f"{folder}/{name}": text for folder in "ab" for name, text in RIGHT.items()}
SUITES = [
    *(Case(RIGHT | files, "", 1, said) for files, said in ADDED),
    *(Case(FOLDERS, words, int(status), said, at=at)
      for at, words, status, said in cases_in(TABLES, "Suites")),
    Case({}, "", 2, "the suite is empty"),
    Case(RIGHT, "--part 2/2", 2, "the part is empty"),
]
WHOLE = RIGHT | EDITED | FOLDERS, "4 passed, 0 failed\n"  # a right suite, and all that is said

WORDS = "no in down get drop east west wait look up out".split()
WALK, SAID = walk(WORDS), answers(WORDS)
KNOWN = walk(WORDS, "# xfail: the bird\n")
TWO_WRONG = SAID.replace("So in.", "So inside.").replace("So up.", "So upwards.")
IN_WRONG = SAID.replace("So in.", "So inside.")
FIRST, SECOND = re.findall(r"```\n(.*?)```", section_of(TABLES, "Differences"), re.DOTALL)
MORE = "  .. 10 lines more: --all shows them\n"
SCRIPT, LOOK = {"walk.script": "look\n"}, "\n> look\nSo look.\n"
TAP = "".join(f"  {line}".rstrip() + "\n" for line in (FIRST + SECOND).splitlines())
# The transcript of the walk, further files and words, and the status and what is then said.
SHOWN: list[tuple[str, Files, str, int, str]] = [
    (SAID, {}, "", 0, "1 passed, 0 failed\n"),
    (TWO_WRONG, {}, "", 1, f"FAILED walk\n{FIRST}{MORE}"),
    (TWO_WRONG, {}, "--all", 1, f"FAILED walk\n{FIRST}{SECOND}0 passed, 1 failed\n"),
    (SAID, {"a#b.out": ""}, "--tap", 1, "TAP version 13\n1..2\nnot ok 1 - a\\#b\n  ---\n"
     "  message: |\n    there is no log of this name\n  ...\nok 2 - walk\n# 1 passed, 1 failed\n"),
    (SAID, {}, "--tap", 0, "TAP version 13\n1..1\nok 1 - walk\n# 1 passed, 0 failed\n"),
    (TWO_WRONG, {}, "--tap --all", 1, "TAP version 13\n1..1\nnot ok 1 - walk\n  ---\n"
     f"  message: |\n{TAP}  ...\n# 0 passed, 1 failed\n"),
    (SAID.replace("> up", "> upwards"), {}, "", 1, "  logs/walk.log:12: up\n  logs/walk.out:29:\n"
     "      > look\n      So look.\n\n    - > upwards\n    + > up\n      So up.\n\n      > out\n"),
    (SAID.replace("So up.", "So up. "), {}, "", 1, "    - So up. $\n    + So up.\n"),
    (SAID.replace("So up.", "So up.\r"), {}, "", 1, "    - So up.\\x0d\n    + So up.\n"),
    (SAID[:-1], {}, "", 1, "    - So out. (no line feed)\n    + So out.\n"),
    ("".join(f"It {it}.\n" for it in WORDS * 9), {}, "", 1, "    - It west.\n  .. 114 lines more"),
    # A line that a script inserts isn't one of the log, and those after it are.
    (LOOK + IN_WRONG, SCRIPT, "", 1, "  logs/walk.log:4: in\n"),
    (LOOK.replace("So", "And") + SAID, SCRIPT, "", 1, "FAILED walk\n  logs/walk.out:3:\n"),
]
REPORTS = [Case({"walk.log": WALK, "walk.out": transcript} | files, words, status, said, REPEAT)
           for transcript, files, words, status, said in SHOWN]

# Transcripts that have the lines of what is printed, but differ from it.
ALIKE = [
    "".join(sorted(SAID.splitlines(True))),
    SAID.replace("> up\nSo up.", "So up.\n> up"),
    SAID + "So out.\n",
    SAID.removesuffix("So out.\n"),
    SAID.removeprefix("\n"),
    SAID.replace("So in.", "SO IN."),
]
DIFFERENT = [
    *(Case({"walk.log": WALK, "walk.out": SAID}, "--seconds 2" * ("sleep" in line), 1, said,
           f"{REPEAT}{line}\n") for line, said in cases_in(TABLES, "Ends")),
    *(Case({"walk.log": WALK, "walk.out": it}, "", 1, "FAILED walk", REPEAT) for it in ALIKE),
]

# A game in a folder `logs`, and one in a folder of another name. Only from the folder that has it
# the program finds the cave.
FINDS = "#!/bin/sh\n[ -f \"$2\" ] && [ -f \"$3\" ] || exit 5\n"
BIRD = {"bird.log": "# cave: caves/CAVE\nno\n", "bird.out": ""}
GAMES = {f"{top}/caves/CAVE": "" for top in "abc"} | {
    f"{folder}/{name}": text for name, text in BIRD.items()
    for folder in ("a/logs/shoal", "b/walks/deep", "c/logs/shoal")}
PLACES = [Case(GAMES, words, int(status), said, FINDS, at=at, kind=Folder)
          for at, words, status, said in cases_in(TABLES, "Games")]

# A difference of two logs, and two of another, of which one is the same.
ALL_WALK = {f"{it}.log": WALK for it in "abcd"}
DIFFERS = {"a.out": IN_WRONG, "b.out": IN_WRONG, "c.out": SAID, "d.out": TWO_WRONG}
OF = {it: (FIRST.replace("walk", it), SECOND.replace("walk", it)) for it in "abd"}
SAME = [
    Case(ALL_WALK | DIFFERS, "", 1, f"FAILED a\n{OF['a'][0]}FAILED b, with what differs in a\n"
         f"FAILED d, with what differs in a\n{OF['d'][1]}{MORE}1 passed, 3 failed\n", REPEAT),
    Case(ALL_WALK | DIFFERS, "--all", 1, f"FAILED a\n{OF['a'][0]}FAILED b\n{OF['b'][0]}"
         f"FAILED d\n{OF['d'][0]}{OF['d'][1]}1 passed, 3 failed\n", REPEAT),
]

# Logs that are played by a program that ends with a status of its own, and their transcripts.
LOGS = {"walk": (WALK, ""), "known": (KNOWN, ""), "status": (f"{WALK}# status: 3\n", "exit 3\n"),
        "known crash": (KNOWN, "kill -SEGV $$\n"), "known status": (KNOWN, "exit 3\n"),
        "known wait": (KNOWN, "exec sleep 5\n")}
OUTS = {"right": SAID, "wrong": TWO_WRONG, "in wrong": IN_WRONG,
        "up wrong": SAID.replace("So up.", "So upwards.")}
WRITTEN = {part: [
    Case({"a.log": LOGS[log][0]} | {"a.out": OUTS[it] for it in [before] if it}, words, int(status),
         said, REPEAT + LOGS[log][1], OUTS.get(after))
    for log, before, words, status, said, after in cases_in(TABLES, part)]
    for part in ("Known failures", "Updates")}
PARTS = {"suites": SUITES, "reports": REPORTS, "ends": DIFFERENT, "places": PLACES, "same": SAME,
         "known": WRITTEN["Known failures"], "updates": WRITTEN["Updates"]}
