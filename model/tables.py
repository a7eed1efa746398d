"""Tables of rules: rows of tests and effects, in the words of the pages, and their interpreter.

A row is `test, test | effect; effect`. The rows are tried from the top, and only the first one
whose tests hold is done. A test or an effect is a phrase; modules say, by `phrases`, which
functions they call. Each row counts how often it applied, and `rule` counts what isn't a row of a
table. A phrase without such a function is the name of one: `ask back` is `ask_back`, of the module
that has the table.
"""

import re
from collections import Counter
from pathlib import Path

from database import NAMES, SECONDS
from lines import rows_of

applied = Counter[str]()
rows: dict[str, str] = {}  # for each row its text, in the order in which the tables were made
TESTS: list = []
EFFECTS: list = []
TABLES: dict = {}
# In a phrase A is an object by its name, or by a letter (x is what a verb is for), N a number, and
# W a word.
PARTS = {"A": r"([A-Z][A-Z0-9]*|[a-z])", "N": r"(-?\d+)", "W": r"([a-z][\w-]+)"}

def rule(label):
    """Counts that a rule applied which is a row of no table."""
    applied[label] += 1

def known():
    """Each rule with its text: the rows of all tables, and what modules count by `rule`."""
    sources = "".join(it.read_text("utf-8") for it in sorted(Path(__file__).parent.glob("*.py")))
    calls = re.findall(r'\brule\("([^"]+)"(?:\s+if .*?else "([^"]+)")?\)', sources)
    return rows | {it: "" for call in calls for it in call if it}

def counted():
    """How often each rule applied, a line each."""
    return [f"{applied[it]:8} {it}{text and '  ' + text}\n" for it, text in known().items()]

def phrases(tests, effects):
    """Says which functions phrases call, with what they have in the place of A, N and W."""
    for kind, meanings in (TESTS, tests), (EFFECTS, effects):
        for pattern, function in meanings.items():
            kind.append((re.compile(pattern.replace(" are ", " is ").format(**PARTS)), function))

def argument(word):
    """An argument of a phrase: a number, an object by its name or letter, or a word as it is."""
    if word in NAMES or word in SECONDS or word in ("x", "k"):
        return lambda game: game.names[word]
    if len(word) == 1 and word.isalpha():
        return lambda game: game.letters[word](game)
    return int(word) if re.fullmatch(r"-?\d+", word) else word

def called(function, of):
    """What calls a function with a game and arguments; it is called often."""
    if not any(map(callable, of)):
        return (lambda game: function(game, *of)) if of else function
    first, *others = of
    if callable(first) and not any(map(callable, others)):
        return lambda game: function(game, first(game), *others)
    return lambda game: function(game, *[it(game) if callable(it) else it for it in of])

def meaning(kind, text, names):
    """Whether a phrase says that something holds, and what it calls, as a function of a game."""
    plain = re.sub(r" (isn't|aren't|are) ", " is ", text).replace("doesn't come", "comes")
    for form, function in kind:
        if found := form.fullmatch(plain):
            return "n't " not in text, called(function, [argument(it) for it in found.groups()])
    return "n't " not in text, names[text.replace("n't", "").replace(" ", "_").lower()]

class Table:
    """The rows of a table of the pages."""

    def __init__(self, name, lines, names):
        self.rows, TABLES[name] = [], self
        for number, line in enumerate(lines, 1):
            label, (when, _, do) = f"{name}: row {number}", line.partition("|")
            rows[label] = " ".join(line.split())
            tests = [meaning(TESTS, it.strip(), names) for it in when.split(",") if it.strip()]
            effects = [meaning(EFFECTS, it.strip(), names) for it in do.split(";") if it.strip()]
            self.rows.append((label, tests, [effect for _, effect in effects]))

    def apply(self, game):
        """Does the first row that fits, if there is one. Whether there is."""
        for label, tests, effects in self.rows:
            for is_so, test in tests:
                if test(game) != is_so:
                    break
            else:
                rule(label)
                for effect in effects:
                    effect(game)
                return True
        return False

def tables(file, names):
    """The tables of a file of rules/ by their names: a line without a bar is the name of what
    follows it. `names` has the functions of the module."""
    found, name = {}, ""
    for line in rows_of(f"rules/{file}"):
        if "|" in line:
            found[name].append(line)
        else:
            found[name := line] = []
    return {name: Table(name, lines, names) for name, lines in found.items()}
