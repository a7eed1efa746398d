"""What checks of `tools/check` have to refuse, by the pages of cases beside this file."""

import runpy

from small import TOP, files_of, cases_of, of_page  # first: it finds the scripts

from common import command_line
from rule_tables import Tables

RUN, PROVED = "tools/check/run", "docs/PROVED.md"

Commands = of_page(f"{RUN} commands", "pages", "Commands")
Figures = of_page(f"{RUN} figures", "figures", "Figures")
Unused = of_page(f"{RUN} unused", "unused", "Changes")
Homes = of_page(f"{RUN} homes", "homes", "Imports")
Mentions = of_page(f"{RUN} mentions", "mentions", "Pages")
Numbers = of_page(f"{RUN} numbers", "numbers", "Numbers")
Help = of_page(f"{RUN} help", "help", "Help")
Documents = of_page("logs/tools/check-documents", "documents", "Documents")

LISTS = files_of("lists")
Version = of_page(f"{RUN} version", "lists", "Versions")
Rooms = of_page("tools/check/rooms --check", "lists", "Rooms",
                {"docs/ROOMS.md": LISTS["OILS"] + LISTS["SCRIPTS"]})

NAMED = {PROVED: "**Without a row** are `plant` and `planted`; all else has one.\n"}
Evidence = of_page(f"{RUN} evidence", "evidence", "Cases")
Named = of_page(f"{RUN} evidence", "evidence", "Named", NAMED)
Kept = of_page("tools/soak/soak lamps shown", "evidence", "Kept")

GLOWS = {PROVED: files_of("proved")[PROVED] + "| | `glow`: `light` |\n"}
Proved = of_page(f"{RUN} proved", "proved", "Cases")
Emptied = of_page(f"{RUN} proved", "proved", "Clauses", GLOWS)

ROWS = files_of("rows")
VERBS = {"docs/VERBS.md": f"# Verbs\n\n{ROWS['TABLE']}{ROWS['FILLING']}{ROWS['OTHERS']}"}
Shown = of_page(f"{RUN} rows", "rows", "Shown", VERBS)
Coded = of_page(f"{RUN} rows", "rows", "Coded", VERBS)
Modelled = of_page(f"{RUN} rows", "rows", "Modelled", VERBS)
# What is made of the tables of the right page, whose rows say this.
WORDS: Tables = {"Lamp": ("the lamp", ("LAMP is low", "OIL is low", "otherwise")),
                 "Oil": ("the oil", ("otherwise",))}
MADE = runpy.run_path(f"{TOP}/tools/check/rule-words")["declared"](WORDS)
Declared = of_page("tools/check/rule-words --check", "rows", "Declared", VERBS | MADE)

if not command_line.skips(len(cases_of("scripts", "Scripts")), "cases of tools/soak/scripts",
                          "pyflakes3"):
    Flakes = of_page("tools/soak/scripts pyflakes", "scripts", "Scripts")
