"""Which texts of a cave the plays of logs never say, and lists of what is known (docs/FORMATS.md,
Coverage and Known doubts)."""

from database import ROLES, first_line
from lines import is_blank, lines_of

class KnownList:
    """A list, which is in a file. Blanks that begin its lines don't count."""

    def __init__(self, file, text):
        self.file, self.entries = file, [it.lstrip(" \t") for it in lines_of(text)]

    def unmet(self, entries, words):
        """A line with these words for each line of the list that says something else."""
        for at, entry in enumerate(self.entries, 1):
            if not is_blank(entry) and entry not in entries:
                yield f"{self.file}:{at}: {words}"

def texts_of(cave):
    """The texts of a cave: for each kind, by name, a number to sort by and the first line."""
    yield "long text", cave.long
    yield "short text", cave.short
    yield "object text", {it: of for it, of in cave.object_texts.items() if it[1] is not None}
    yield "inventory text", {x: of for (x, prop), of in cave.object_texts.items() if prop is None}
    yield "message", cave.messages
    yield "role", {it: None for it in ROLES}
    reached = {cave.class_of(it) for it in range(cave.greatest_score() + 1)} - {None}
    yield "class", {bound: [text] for bound, text in (cave.classes[at] for at in reached)}

def name_of(it):
    return ":".join(map(str, it)) if isinstance(it, tuple) else str(it)

def report(cave, said, count, view, known):
    """The entries of all texts that the logs didn't say, the report on the logs, as lines, and how
    many texts are left that the list doesn't know."""
    shown, all_texts, met, lines, left = 0, 0, [], [], 0
    for kind, texts in texts_of(cave):
        never = [it for it in sorted(texts) if (kind, it) not in said]
        shown, all_texts = shown + len(texts) - len(never), all_texts + len(texts)
        entries = [f"{kind} {name_of(it)}" + (f": {first_line(texts[it])}" if texts[it] else "")
                   for it in never]  # a role has no text
        unknown = [it for it in entries if it not in known.entries]
        met, left = [*met, *entries], left + len(unknown)
        if view == "texts":
            lines += unknown
            continue
        listed = f", never {' '.join(map(name_of, never))}" if never else ""
        heading = "classes" if kind == "class" else f"{kind}s"
        lines.append(f"{heading}: {len(texts) - len(never)} of {len(texts)}{listed}")
    logs = "log" if count == 1 else "logs"
    return met, [*lines, f"-- {shown} of {all_texts} texts in {count} {logs}"], left
