"""What `check` prints of an accepted cave (docs/FORMATS.md, Names to Doubts)."""

from database import NAMES, ROLES, SECONDS, SECTIONS, SILENT, first_line, numbered_rows
from lines import FIELD, fields_of, folded, is_blank, lines_of

ORDER = [it for it in NAMES if it != "MIRROR"]  # in which rules number the names
ORDER.insert(ORDER.index("DRAGON"), "MIRROR")
CLASSES = ["motion", "object", "action", "special"]  # what words are
ALWAYS = (0, 100)  # the conditions under which a way is always taken
ENTERED = ["start", "building", "ne", "alcove", "plover"]  # places that rules bring a player to
BROUGHT = ["CHEST", "PEARL"]  # treasures that rules put somewhere
GIVEN = ["ROD2", "OYSTER", "AXE", "TROLL2", "MESSAGE", "BATTERIES", *BROUGHT]  # and others
TOOLS = ["KEYS", "LAMP", "BIRD"]  # objects that players need and no rule brings
DWARVES = [f"dwarf{it}" for it in range(1, 6)]
# What rules ask of objects: texts for props that they set or print, and places of the bindings.
PROPS = {"LAMP": [1], "GRATE": [1], "BIRD": [1], "DOOR": [1], "FISSURE": [1, 2], "OYSTER": [1],
         "BOTTLE": [1, 2], "PLANT": [1, 2, 3, 4, 5], "PLANT2": [1, 2], "AXE": [1], "DRAGON": [1, 2],
         "CHASM": [1], "TROLL": [1], "BEAR": [1, 2, 3], "BATTERIES": [1], "EGGS": [1, 2],
         "VASE": [1, 2, 3], "CHAIN": [2]}
FOUND = {"RUG": 1, "CHAIN": 1}  # the props that treasures get as they are found, if not 0
ROOMS = {"ROD": ["ne", "sw"], "MAGAZINE": ["witt"], "DWARF": [*DWARVES, "dwarfalt"],
         "MESSAGE": ["message"], "CHEST": ["chest"], "PEARL": ["culdesac"]}
NEEDERS = """LAMP GRATE ROD BIRD DOOR FISSURE OYSTER MAGAZINE DWARF BOTTLE PLANT PLANT2 AXE DRAGON
    CHASM TROLL BEAR MESSAGE BATTERIES CHEST EGGS VASE PEARL RUG CHAIN""".split()

# ---- Names

def object_of(cave, name):
    """The object of a name as rules look it up, without what WATER and OIL may not be."""
    word = SECONDS.get(name, name)[:5]
    found = next((it for kind, it, other in cave.words if kind == 1 and other[:5] == word), None)
    if name in SECONDS and found is not None:
        return found + 1 if found < 100 else None
    return found

def names_lines(cave):
    yield "name\tobject\ttext"
    for name in [*ORDER, *SECONDS]:
        found = object_of(cave, name)
        label = name if name in SECONDS else name[:5]
        text = first_line(cave.object_texts.get((found, None)))
        yield f"{label}\tabsent\t" if found is None else f"{label}\t{found}\t{text}"

# ---- Unused messages

def said_by(cave):
    """The messages that a role, a way, a verb, a special word or a hint says."""
    yield from (cave.bound[f"msg.{it}"] for it in ROLES if f"msg.{it}" in cave.bound)
    yield from (target % 1000 - 500 for rows in cave.travel.values() for target, _ in rows)
    yield from cave.defaults.values()
    yield from (it for kind, it, _ in cave.words if kind == 3)
    yield from (it for hint in cave.hints.values() for it in hint[2:])

def unused_lines(cave):
    yield "message\ttext"
    for number in sorted({*cave.messages} - {*said_by(cave)}):
        yield f"{number}\t{first_line(cave.messages[number])}"

# ---- Words

def words_lines(cave):
    """Each thing that words mean, with the words."""
    yield "class\tnumber\twords"
    for number in sorted({number for number, _ in cave.word_rows}):
        words = [word for other, word in cave.word_rows if other == number]
        yield "\t".join([CLASSES[number // 1000], str(number % 1000), *words])

# ---- Doubts

def tried(rows):
    """For each way out of a place whether a player can get to it."""
    before, failed = set(), None  # motions that are listed, and the target of a way that failed
    for target, motions in rows:
        begins = 1 not in before and any(it not in before for it in motions)
        comes = begins or failed not in (None, target)
        yield comes
        if comes:
            ends = target // 1000 in ALWAYS and target % 1000 != 302
            failed = None if ends else target
        elif failed != target:
            failed = None
        before.update(motions)

def has_text(cave, place):
    return place in cave.long or place in cave.short

def is_entered(cave, place):
    """Whether a way from another place leads to it, or a rule brings a player there."""
    ways = any(target % 1000 == place for other, rows in cave.travel.items() if other != place
               for target, _ in rows)
    troll, dragon = object_of(cave, "TROLL"), object_of(cave, "DRAGON")
    lair = cave.homes.get(dragon, (0, 0))
    return (ways or place in [cave.place(it) for it in ENTERED]
            or troll is not None and place in cave.homes.get(troll, ())
            or lair[0] != 0 and lair[1] > 0 and place == sum(lair) // 2)

def is_hidden(cave, number, word):
    """Whether the word means something else by an earlier row, and no rule asks for its class."""
    word, means = folded(word, cave.letters), divmod(number, 1000)
    rows = [it[:2] for it in cave.words if it[2] == word]
    of_class = [it for it in rows if it[0] == means[0]]
    pairs = [(1, object_of(cave, SECONDS[it]), object_of(cave, it)) for it in SECONDS]
    objects = [it[1] for it in rows if it[0] == 1]
    return (rows[0] != means and not (means[0] in (1, 3) and of_class[0] == means)
            and not (objects and (means[0], objects[0], means[1]) in pairs))

def message_doubts(cave, words, number):
    """What is said about a message that has no text; 0 is no message."""
    if number and number not in cave.messages:
        yield f"{words} message {number}, which has no text"

def row_doubts(cave, section, row, before):
    """What is doubtful about a row, after those before it in its section."""
    it, bounds = row[0], [other[0] for other in before]
    is_first, is_treasure = it not in bounds, 50 <= it <= 79
    if section in (1, 2):
        if is_first and (section == 1 or it not in cave.long) and not is_entered(cave, it):
            yield f"no way leads to place {it}"
    elif section == 3:
        yield from way_doubts(cave, it, row[1] % 1000, bounds.count(it))
    elif section == 4:
        if is_hidden(cave, *row):
            yield "an earlier row of this word hides it"
    elif section == 5 and is_first:
        if is_treasure and not is_placed(cave, it) and not is_one_of(cave, it, BROUGHT):
            yield f"no place holds treasure {it}"
        if it > 0 and it % 100:
            yield from object_doubts(cave, it)
    elif section == 7:
        if is_treasure and (it, None) not in cave.object_texts:
            yield f"treasure {it} has no inventory text"
        start = cave.homes[it][0]
        if start and not has_text(cave, start) and (is_treasure or is_tool(cave, it)):
            named = f"treasure {it}" if is_treasure else f"object {it}, which players need,"
            yield f"{named} begins at place {start}, which has no text"
    elif section == 8:
        yield from message_doubts(cave, f"action {it} says", row[1])
        if all(word[:2] != (2, it) for word in cave.words):
            yield f"no word means action {it}"
    elif section == 10:
        greatest = cave.greatest_score()
        if any(bound >= it for bound in bounds):
            yield "an earlier class takes its scores"
        elif any(bound >= greatest for bound in bounds):
            yield "no score reaches this class"
        elif not before and all(bound < greatest for bound, _ in cave.classes):
            yield f"no class has the greatest score, {greatest}"
    elif section == 11:
        for does, message in zip(("asks by", "gives"), row[3:]):
            yield from message_doubts(cave, f"hint {it} {does}", message)
            if it >= 4 and not message:
                yield f"hint {it} {does} no message"

def way_doubts(cave, place, end, index):
    """What is doubtful about a way by where it leads and how many of its place come before it."""
    if 0 < end <= 300 and not has_text(cave, end):
        yield f"the way leads to place {end}, which has no text"
    if 303 < end <= 500:
        yield f"the way leads to {end}, for which there is no rule"
    yield from message_doubts(cave, "the way says", max(end - 500, 0))
    if not [*tried(cave.travel[place])][index]:
        yield "no player takes this way: an earlier one is always taken"
    for role in ["alcove", "plover"] * (end == 301):
        if cave.place(role) is None:
            yield f"the way leads to 301, which needs place.{role}, which is unbound"

def is_one_of(cave, it, names):
    return it in [object_of(cave, name) for name in names]

def is_tool(cave, it):
    """Whether players need an object that no rule brings."""
    return is_one_of(cave, it, TOOLS if any(map(cave.place, DWARVES)) else [*TOOLS, "AXE"])

def is_placed(cave, it):
    """Whether a place holds an object as a game begins."""
    return max(cave.homes.get(it, (0, 0))) > 0

def object_doubts(cave, it):
    """What an object lacks of what rules ask."""
    if is_tool(cave, it) and not is_placed(cave, it):
        yield f"no place holds object {it}, which players need"
    given = [0 for name in GIVEN if object_of(cave, name) == it]
    yield from prop_doubts(cave, it, [0] if is_placed(cave, it) else given)
    for name in NEEDERS:
        if object_of(cave, name) == it:
            found = [FOUND[name]] if name in FOUND and 50 <= it <= 79 else []
            yield from prop_doubts(cave, it, [*found, *PROPS.get(name, ())])
            for role in ROOMS.get(name, ()):
                if cave.place(role) is None:
                    yield f"rules about object {it} need place.{role}, which is unbound"

def prop_doubts(cave, it, props):
    for prop in props:
        if (it, prop) not in cave.object_texts:
            yield f"object {it} has no text for prop {prop}, which rules need"

def line_doubts(cave, section, line, row):
    """What is doubtful about how a line is written."""
    if section in (1, 2, 5, 6, 10):
        rest = line[FIELD.search(line).end():]
        if rest.startswith("  "):
            yield "no tab is before this text, and it begins with blanks"
        elif rest.startswith(" \t"):
            yield "a blank is before this text's tab, which is printed"
        elif rest[1:].lstrip(" \t").startswith(">$<") and len(rest) > 4:
            yield "this is printed, since more than >$< is there"
    elif section == 9 and row[0] >= 4 and row[1] and row[0] not in cave.hints:
        yield f"hint {row[0]} has places here, but no row in section 11"

def binding_doubts(cave, key, digits):
    number = int(digits)
    if key.startswith("msg."):
        yield from message_doubts(cave, f"{key} is", number)
        if cave.messages.get(number) == SILENT:
            yield f"{key} is message {number}, whose text prints nothing"
        if key == "msg.hollow" and cave.place("y2") is None:
            yield f"{key} is said at place.y2, which is unbound"
    elif key.startswith("place.") and not has_text(cave, number):
        yield f"{key} is place {number}, which has no text"

def doubts(cave, database, bindings):
    """Each doubt: which input it is about, its line, and what it says."""
    listed, before, lines = [], {it: [] for it in SECTIONS}, lines_of(database)
    rows = [*numbered_rows(database)]
    for at, section, row in rows:
        listed += [("cave", at, it) for it in row_doubts(cave, section, row, before[section])]
        before[section].append(row)
    listed += [("cave", at, it) for at, section, row in rows
               for it in line_doubts(cave, section, lines[at - 1], row)]
    return listed + [
        ("bindings", at, it) for at, line in enumerate(lines_of(bindings), 1) if not is_blank(line)
        for it in binding_doubts(cave, *fields_of(line))]

def entries_of(found):
    """What lists of known doubts have for these."""
    return [f"{source}: {says}" for source, _, says in found]
