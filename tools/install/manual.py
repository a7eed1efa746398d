"""Pages in Markdown as manual pages, for man(1), as a module.

    manual.of_page(text)                                a page with a title such as `# cave(1)`
    manual.of_pages("cave-rules(7): what it is about", {"TURN.md": text, ..})

A page by itself has a line below its title that says what it is about. Several pages are given a
title, with such a line, and the file and title of each become a heading. A page has headings,
paragraphs, lists, tables and indented blocks. A row of a table becomes a term with what its other
cells say; a row with a number that doesn't say when it applies does so otherwise.
"""

import re
from collections.abc import Iterable, Iterator

from common.files import match_in, tables_in, without_links

SET_APART = re.compile(r"`` ?(.+?) ?``|`([^`]+)`|\*\*(.+?)\*\*|\*([^*]+)\*")
BLANK_LINES = {  # where a page needs them: a comment's line, below a heading, above a list or table
    r"^(?=.*<!--)": "\n", r" *<!--.*-->$": "\n", r"^(#+ .*)$": r"\1\n",
    r"^([^|\n].*)\n(?=\||- |1\. )": r"\1\n\n"}


def inline(text: str) -> str:
    """A line of text: code and what is set in bold are bold, and a link is its words."""
    text = without_links(text).replace("\\", "\\e").replace("→", "\\(->")
    return guarded(SET_APART.sub(
        lambda it: rf"\fI{it[4]}\fR" if it[4] else bold(it[1] or it[2] or it[3]), text))


def bold(text: str) -> str:
    """What is set in bold keeps its hyphens, and its blanks if two are together."""
    return "\\fB" + text.replace("-", "\\-").replace("  ", "\\ \\ ") + "\\fR"


def guarded(line: str) -> str:
    """A line that only begins like a request isn't taken for one."""
    return f"\\&{line}" if line[:1] in (".", "'") else line


def table(text: str) -> Iterator[str]:
    heads, *rows = next(tables_in(text))
    for first, second, *rest in rows:
        said = [second or "otherwise" * (heads[0] == "#")]
        said += (f"{head}: {cell}" for head, cell in zip(heads[2:], rest) if cell)
        yield from (".TP", inline(first) or "\\&", inline(". ".join(said)))


def part(text: str) -> Iterator[str]:
    """The lines of a manual page for a part of the page, between blank lines."""
    if found := re.match(r"(##+) (.*)", text):
        yield f".SH {found[2].upper()}" if found[1] == "##" else f".SS {found[2]}"
    elif text.startswith("|"):
        yield from table(text)
    elif text.startswith("    "):
        lines = (it[4:].replace("\\", "\\e").replace("-", "\\-") for it in text.split("\n"))
        yield from (".PP", ".EX", *map(guarded, lines), ".EE")
    elif re.match(r"(-|\d+\.) ", text):
        for mark, said in re.findall(r"(?ms)^(-|\d+\.) (.*?)(?=\n- |\n\d+\. |\Z)", text):
            bullet = "\\(bu" if mark == "-" else mark
            yield from (f".IP {bullet} 3", inline(re.sub(r"\n *", " ", said.strip())))
    else:
        yield from (".PP", inline(text.replace("\n", " ")))


def parts_of(page: str) -> list[str]:
    """The parts of a page, also a heading, and a list or a table, without a blank line between."""
    for pattern, lines in BLANK_LINES.items():
        page = re.sub(pattern, lines, page, flags=re.MULTILINE)
    return re.split(r"\n\n+", page.strip())


def written(title: str, about: str, parts: Iterable[str]) -> bytes:
    """A manual page with a title such as cave(1)."""
    name, section = match_in(r"^([\w-]+)\((\d)\)$", title).groups()
    head = [f".TH {name.upper()} {section}", ".SH NAME", f"{bold(name)} \\- {inline(about)}"]
    return "\n".join([*head, *(line for it in parts for line in part(it.strip("\n"))), ""]).encode()


def of_page(page: str) -> bytes:
    title, about, *parts = parts_of(page)
    return written(title.removeprefix("# "), " ".join(about.split()).partition(": ")[2], parts)


def of_pages(head: str, pages: dict[str, str]) -> bytes:
    title, _, about = head.partition(": ")
    parts = list[str]()
    for name, (first, *others) in ((name, parts_of(page)) for name, page in pages.items()):
        parts.append(f"#{first}".replace(" ", f" {name}: ", 1))
        parts += (re.sub("^##", "###", it) for it in others)
    return written(title, about, parts)
