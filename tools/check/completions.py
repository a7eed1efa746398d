"""Names commands, options and values that the completions of a shell lack, or that the help lacks.

The help is that of the transcripts in logs/help, the completions are tools/install/complete.
"""

import re
from collections.abc import Iterator

from common.files import text_of

COMMAND = re.compile(r"(?m)^  ([a-z]+)  +\S")
OPTION = re.compile(r"(?m)^ +(?:(-\w), )?(--[\w-]+)(.*)$")
VALUE = re.compile(r"`([\w-]+)`")
# How a file names a command, its long options, and those of one letter.
SHELLS = {
    "cave.bash": (r"\['(\w+) -'\]", r"(--[a-z][\w-]*)", r",(-\w)(?=[ '])"),
    "_cave": (r"(?m)^'(\w+)'\)", r"(--[a-z][\w-]*)", r"[)*](-\w)[+\[]"),
    "cave.fish": (r"__cave '(\w+)'", r" -l ([a-z][\w-]*)", r" -s (\w)\b"),
}


def faults() -> Iterator[str]:
    commands = {it for it in COMMAND.findall(text_of("logs/help/program.out"))}
    helps = "".join(text_of(f"logs/help/{it}.out")
                    for it in ["program", *sorted(commands - {"help"})])
    options = OPTION.findall(helps)
    due = [commands, {long for _, long, _ in options}, {short for short, _, _ in options} - {""}]
    values = {it for *_, said in options if "<" in said and "FILE" not in said
              for it in VALUE.findall(said)}
    for name, forms in SHELLS.items():
        text = text_of(f"tools/install/complete/{name}")
        for form, names, mark in zip(forms, due, ("", "--", "-")):
            found = {mark + it.lstrip("-") for it in re.findall(form, text)}
            yield from (f"{name}: it doesn't complete {it}" for it in sorted(names - found))
            yield from (f"{name}: {it} isn't in the help" for it in sorted(found - names))
        yield from (f"{name}: it doesn't complete the value {it}" for it in sorted(values)
                    if not re.search(rf"(?<![\w-]){it}(?![\w-])", text))
