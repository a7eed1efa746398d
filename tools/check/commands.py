"""Names commands, options and statuses that pages have and the repository hasn't.

In backquotes and in blocks: the word after `make` is a target, those after `tools/check/run` are
checks, a line of a block that begins with a script has one that is there, and each option is one of
some script or of the program; of `cave WORD` and of an installed script one that its help has, and
after `--print` what that help lists. docs/PROGRAM.md has the options of each help, the short beside
the long, in its table and for each command in its synopsis, with the numbers that help has of them:
ranges, what holds without them, and statuses. It has what each help prints, first what it prints by
itself. Its exit statuses are those of help and of the definitions, and each row there has a word
that of the lines of help only that of its status has.
"""

import os
import re
from collections import defaultdict
from collections.abc import Iterator

from common.files import (TOP, files, match_in, ran_in, section_of, spans_of, tables_in, text_if,
                          text_of)

PAGE, HELP, STATUSES = "docs/PROGRAM.md", "logs/help/", "crates/cave_play/specs/Fault.antt"
SCRIPTS = ("Makefile", "tools/**", "logs/run", "logs/tools/*", "model/*", "recipes/**")
FOLDERS = ("tools/", "logs/", "model/")  # of scripts
BLOCK = re.compile(r"(?m)^(?:    .*\n)+|^```.*\n(?s:.*?)^```")
OPTION = re.compile(r"(?<![\w-])(--[a-z][a-z-]*|-[a-zA-Z]\b)(?:[ =]\[?([\w-]+))?")
LISTED = re.compile(r"(?m)^ +(?:(-\w), +)?(--[a-z-]+)(?: \[?<\w+>\]?)? +(.*)$")
NUMBERS = re.compile(r"\bfrom (\d+) to (\d+)\b|\bstatus (\d)\b|(\d+) if it isn't given|"
                     r"\[default: (\d+)\]")
WORD = re.compile(r"[a-z]{3,}")
Options = dict[str, tuple[str, str]]  # each with its short one, if any, and what is said of it
# The options of each command, as help lists them; no word is the program itself.
HELPED: dict[str, Options] = {
    os.path.basename(path).removesuffix(".out").removeprefix("program"):
    {long: (short, said) for short, long, said in LISTED.findall(text_of(path))}
    for path in files(f"{HELP}*.out")}
# The options of scripts and of the program; and those of each script that is installed, by help.
KNOWN = {option for it in files(*SCRIPTS) if os.path.isfile(f"{TOP}/{it}") and "/tests/" not in it
         for option in re.findall(r"--[a-z][a-z-]*", text_of(it, "latin-1"))}
KNOWN |= {option for options in HELPED.values() for option in options}
INSTALLED = {
    name: {*re.findall(r"(?<![\w-])--?[a-z][a-z-]*", ran_in(".", [path, "--help"]).stdout)}
    for name, path in re.findall(
        r'"(cave-\w+)": "(tools/\S+)"', text_if("tools/install/packed.py"))}
CHECKS = match_in(r'(?s)CHECKS = "+(.*?)"', text_of("tools/check/run"))[1].split()
TARGETS = re.findall(r"(?m)^([a-z]+)(?: [a-z]+)*:", text_of("Makefile"))


def printed(command: str) -> list[str]:
    """What a command prints by `--print`, first what it prints by itself."""
    said = HELPED[command].get("--print", ("", ""))[1]
    return [*dict.fromkeys(re.findall(r"\[default: ([\w-]+)\]", said)
                           + re.findall(r"`([\w-]+)` \(", said))]


def commands_of(page: str) -> Iterator[tuple[str, bool]]:
    """What stands in backquotes, and the lines of blocks, each with whether it is one of these."""
    text = text_of(page)
    prose = re.sub(r"(?s)<!--.*?-->", "", BLOCK.sub("\n", text))
    yield from ((it, False) for it in spans_of(prose))
    for block in BLOCK.findall(text):
        for line in re.sub(r"\\\n *", "", block).splitlines():
            yield re.sub(r"  +#.*", "", line.strip().removeprefix("$ ")), True


def faults_of_options(line: str) -> Iterator[str]:
    """The options of a command of the program that its help doesn't have, or of any other."""
    words = line.split()
    if words[:1] and words[0] in INSTALLED:
        yield from (f"`{line}`: there is no option {option}" for option, _ in OPTION.findall(line)
                    if option not in INSTALLED[words[0]])
        return
    command = words[1] if words[:1] == ["cave"] and len(words) > 1 else None
    found = HELPED.get(command) if command else None
    if command and found is None and re.fullmatch("[a-z]+", command) and command != "help":
        yield f"there is no command `cave {command}`"
    for option, value in OPTION.findall(line.partition(" -- ")[0]):
        if found is None or command is None:
            is_known = option in KNOWN or not option.startswith("--")
        else:
            is_known = option in {*found, *(short for short, _ in found.values()), "-h"}
        if not is_known:
            yield f"`{line}`: there is no option {option}"
        elif command in HELPED and option in ("--print", "-p") and value.islower():
            if value not in printed(command):
                yield f"`{line}`: {command} prints no {value}"


def faults_of(line: str, is_shown: bool) -> Iterator[str]:
    """What is wrong with a command of a page."""
    first, *words = line.split() or [""]
    if first == "make" and words and re.fullmatch("[a-z]+", words[0]) and words[0] not in TARGETS:
        yield f"there is no `make {words[0]}`"
    if first == "tools/check/run":
        yield from (f"there is no check {it}" for it in words
                    if re.fullmatch("[a-z]+", it) and it not in CHECKS)
    if is_shown and first.startswith(FOLDERS) and re.fullmatch(r"[\w/.-]+", first):
        if not os.path.exists(f"{TOP}/{first}"):
            yield f"there is no {first}"
    if first in ("cave", *INSTALLED) or first.startswith((*FOLDERS, "--", "make")):
        yield from faults_of_options(line)


def table_of(heading: str, *wanted: str) -> Iterator[list[str]]:
    """The rows of the table with these heads, below a heading of the page of the program."""
    for heads, *rows in tables_in(section_of(PAGE, heading)):
        yield from rows if heads == [*wanted] else ()


def faults_of_listed() -> Iterator[str]:
    """The options that the page of the program lists differently from help, or doesn't list."""
    shorts, names = dict[str, list[str]](), list[str]()
    for cell, meaning in table_of("Options", "Option", "Meaning"):
        names = [it for it, _ in OPTION.findall(cell.replace("`", " "))] or names
        for at, name in enumerate(names):
            shorts[name] = [it for it in names[at + 1: at + 2] if not it.startswith("--")]
        for command in re.findall(r"^of `(\w+)`", meaning) or HELPED:
            said = [HELPED[command][it][1] for it in names if it in HELPED[command]]
            theirs, ours = numbers_in(" ".join(said)), numbers_in(meaning)
            yield from (f"{names[0]} of {command} has {' '.join(it)}, and help doesn't"
                        for it in sorted(ours - theirs) if theirs)
    given = {long: short for options in HELPED.values() for long, (short, _) in options.items()}
    for name in sorted({it for it in shorts if it.startswith("--")} ^ {*given}):
        yield f"the table of options and help differ in {name}"
    yield from (f"{name} isn't {short or 'alone'} for short" for name, short in given.items()
                if name in shorts and shorts[name] != [short] * bool(short))


def numbers_in(text: str) -> set[tuple[str, ...]]:
    """The ranges, statuses and values without an option that a text says."""
    return {("from", low, "to", high) if low else ("status", status) if status
            else ("default", one or other)
            for low, high, status, one, other in NUMBERS.findall(text)}


def faults_of_synopsis() -> Iterator[str]:
    """The options that the synopsis of a command lacks, or has and help hasn't; what is printed."""
    lines = re.sub(r"\n {6,}", " ", section_of(PAGE, "Synopsis")).splitlines()
    for command, options in HELPED.items():
        own = " ".join(it for it in lines if it.split()[:2] == ["cave", command])
        longs = {it for it, _ in OPTION.findall(own) if it.startswith("--")}
        missing = {*options} - {"--help", "--edit"} - longs
        yield from (f"the synopsis of {command} and help differ in {it}"
                    for it in sorted(missing | longs - {*options}) if command)
    shown = defaultdict[str, list[str]](list)
    for cell, _ in table_of("Options", "Option", "What it prints"):
        command, _, names = cell.replace("`", "").partition(" --print ")
        shown[command] += names.split(", ")
    for command in (it for it in HELPED if it and printed(it)):
        if shown[command][:1] != printed(command)[:1] or {*shown[command]} != {*printed(command)}:
            yield f"{command} prints {', '.join(printed(command))} by help"


def faults_of_statuses() -> Iterator[str]:
    """The statuses of the page that help or the definitions don't have so."""
    rows = {it[0]: it[1] for it in table_of("Exit status", "Status", "When")}
    lines = dict(re.findall(r"(?m)^  (\d)  (.*)$", text_of(f"{HELP}program.out")))
    defined = {"0", *re.findall(r"(?m)^status_of .* = (\d+)$", text_of(STATUSES))}
    if [*rows] != sorted(rows) or {*rows} != {*lines} or {*rows} != defined:
        yield (f"the statuses are {' '.join(rows)}, of help {' '.join(lines)},"
               f" and of the definitions {' '.join(sorted(defined))}")
        return
    words = {it: {*WORD.findall(said)} for it, said in lines.items()}
    for status, said in rows.items():
        others = set().union(*(words[it] for it in words if it != status))
        if not {*WORD.findall(said)} & words[status] - others:
            yield f"status {status} isn't that of help: {lines[status]}"


def faults() -> Iterator[str]:
    for page in files("*.md", "docs/*.md"):
        found = dict.fromkeys(it for line in commands_of(page) for it in faults_of(*line))
        yield from (f"{page}: {it}" for it in found)
    if text_if(PAGE):
        yield from (f"{PAGE}: {it}" for it in (
            *faults_of_listed(), *faults_of_synopsis(), *faults_of_statuses()))
