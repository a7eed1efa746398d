"""The program `cave` (docs/PROGRAM.md): its words, files, output, messages and statuses.

What is left out: `map`, `script`, `--to`, `--output`, `--help`, tips on words that no slip makes of
a name, and what `edit --print reports` and `table` say with a distance of checkpoints above 1, for
which the pages leave room.
"""

import os
from functools import lru_cache
from re import findall, fullmatch

import checks
import cover
import edits
import scores
import walk
from database import KEYS, PLACES, ROLES, Cave, bindings_of, first_line, sections_of, with_mark
from lines import (GREATEST_SEED, MOST_BYTES, Fault, flaw_of, lines_of, log_of, near_name,
                   text_of)

# The commands, each with what other programs call it.
COMMANDS = {"check": ["test", "verify"], "play": ["run"], "edit": ["replay", "patch"],
            "script": ["diff"], "cover": ["coverage"], "map": ["graph"]}
FILES = {"check": ["<CAVE>"], "play": ["<CAVE>", "<LOG>"], "edit": ["<CAVE>", "<LOG>", "[SCRIPT]"],
         "cover": ["<CAVE>", "<LOG>..."]}
PRINTS = {"check": ["maximum", "bindings", "names", "unused", "words", "doubts", "known"],
          "play": ["transcript", "steps", "walk", "score", "state"],
          "edit": ["transcript", "play", "log", "undo", "guarded", "reports", "table", "steps",
                   "walk", "score", "state"],
          "cover": ["counts", "texts", "rules", "known"]}
OPTIONS = {"--bind": "FILE", "--seed": "N", "--every": "K", "--print": "WHAT", "--strict": None,
           "--guarded": None, "--edit": "EDIT", "--quiet": None, "--known": "FILE",
           "--report": "WHAT"}
LISTS = {"check": "doubts", "cover": "texts"}  # what runs that are strict or know a list print
USUAL = {"--report": "reports"}  # what an option without a value stands for
REPORTS = ["reports", "table"]
LETTERS = {"-b": "--bind", "-s": "--seed", "-p": "--print", "-e": "--edit", "-q": "--quiet"}
KNOWN = {"check": ["--bind", "--print", "--strict", "--known"],
         "play": ["--bind", "--seed", "--print"],
         "edit": [it for it in OPTIONS if it != "--known"],
         "cover": ["--bind", "--seed", "--print", "--strict", "--known"]}

class Stop(Exception):
    """The end of a run: its status, what is said on standard error, and the lines that are printed
    before."""

    def __init__(self, status, message, printed=()):
        super().__init__(message)
        self.status, self.message, self.printed = status, message, printed

# ---- The words

def wrong(message, usage=None):
    shown = f"\n\nUsage: cave {usage}" if usage else ""
    return Stop(2, f"error: {message}{shown}\n\nFor more information, try '--help'.\n")

def tip_of(what, given, names):
    """The tip on a name that isn't one of these, if it is near to one."""
    near = near_name(given, names)
    return f"\n\n  tip: a similar {what} exists: '{near}'" if near else ""

def words_of(words):
    """The command, its files and its options."""
    command, rest = command_of((words or [""])[0]), words[1:]
    files, options, only_files = [], {}, False
    usage = f"{command} {' '.join(FILES[command])}"
    with_options = usage.replace(" ", " [OPTIONS] ", 1)
    while rest:
        word, *rest = rest
        name, has_value, value = word.partition("=")
        if letter := LETTERS.get(word[:2]):
            name, has_value, value = letter, word[2:], word[2:].removeprefix("=")
        if only_files or not is_option(word):
            files.append(word)
            if len(files) > len(FILES[command]) and command != "cover":
                raise unexpected(word, with_options)
        elif word == "--":
            only_files = True
        elif name not in KNOWN[command]:
            is_long = name.startswith("--")
            raise unexpected(name if is_long else name[:2], usage if is_long else with_options)
        elif name in options and name != "--edit":
            raise wrong(f"the argument '{shown_option(name)}' cannot be used multiple times",
                        with_options)
        elif has_value and not OPTIONS[name]:
            raise wrong(f"unexpected value '{value}' for '{name}' found; no more were expected",
                        usage.replace(" ", f" {name} ", 1))
        else:
            if OPTIONS[name] and not has_value:
                value, rest = value_after(name, rest, with_options)
            named = {"--print": PRINTS[command], "--report": REPORTS}.get(name, [value])
            if value not in named:
                of = f"{', '.join(named)}]{tip_of('value', value, named)}"
                raise wrong(f"invalid value '{value}' for '{shown_option(name)}'"
                            f"\n  [possible values: {of}")
            options[name] = [*options.get(name, []), value] if name == "--edit" else value
    if missing := [it for it in FILES[command][len(files):] if it.startswith("<")]:
        raise wrong("\n  ".join(["the following required arguments were not provided:", *missing]),
                    " ".join([command, *map(shown_option, options), *FILES[command]]))
    return command, files, judged_options(command, files, options)

def command_of(word):
    """The command that a word names."""
    if word in FILES:
        return word
    meant = [command for command, others in COMMANDS.items()
             if any(near_name(word, [it]) for it in others)]
    tip = f"\n\n  tip: did you mean '{meant[0]}'?" if meant else tip_of(
        "subcommand", word, COMMANDS)
    raise wrong(f"unrecognized subcommand '{word}'{tip}", "<COMMAND>")

def is_option(word):
    return word.startswith("-") and word != "-"

def value_after(name, rest, usage):
    """The value of an option, of the words after it, and the words after the value."""
    if name in USUAL and (not rest or is_option(rest[0])):
        return USUAL[name], rest
    if not rest or rest[0].startswith("--"):
        raise wrong(f"a value is required for '{shown_option(name)}' but none was supplied")
    if is_option(rest[0]):
        raise unexpected(rest[0][:2], usage)
    return rest[0], rest[1:]

def shown_option(name):
    """An option as messages show it, with its value."""
    if not OPTIONS[name]:
        return name
    return f"{name} [<{OPTIONS[name]}>]" if name in USUAL else f"{name} <{OPTIONS[name]}>"

def unexpected(word, usage):
    return wrong(f"unexpected argument '{word}' found", usage)

def judged_options(command, files, options):
    """The options, with those that each run has though they aren't given."""
    options["--seed"] = number_in("--seed", options.get("--seed", "0"), 0, GREATEST_SEED)
    number_in("--every", options.get("--every", "50"), 1, 10_000)
    asks_left = "--strict" in options or "--known" in options
    usual = LISTS.get(command) if asks_left else None
    prints = options.setdefault("--print", usual or PRINTS[command][0])
    if command == "check" and asks_left and prints != "doubts":
        raise wrong("'--strict' and '--known <FILE>' are for '--print doubts'")
    if command == "cover" and asks_left and prints == "known":
        raise wrong("'--strict' and '--known <FILE>' are not for '--print known'")
    if command == "edit" and len(files) == 3 and "--edit" in options:
        raise wrong("only one of SCRIPT, '--edit <EDIT>' and '--to <FILE>' can be used")
    if command == "edit" and len(files) == 2 and "--edit" not in options:
        raise wrong("SCRIPT, '--edit <EDIT>' or '--to <FILE>' is required")
    if "--report" in options:
        raise wrong("'--report <WHAT>' is for '--output <FILE>' or '--in-place': without these,"
                    " '--print <WHAT>' prints reports")
    return options

def number_in(option, text, least, most):
    """The number of an option, of 1 to 10 digits."""
    if text.isascii() and text.isdigit() and len(text) <= 10 and least <= int(text) <= most:
        return int(text)
    raise wrong(f"invalid value '{text}' for '{option} <{OPTIONS[option]}>': expected 1 to 10"
                f" digits, from {least} to {most}")

# ---- Files

def opened(name):
    """A file that can be read, or status 5."""
    try:
        return open(name, "rb")
    except OSError as error:
        reason = ("is a directory" if isinstance(error, IsADirectoryError) else
                  f"{os.strerror(error.errno)} (os error {error.errno})")
        raise Stop(5, f"cave: {name}: the file can't be opened: {reason}\n") from None

def read(file):
    with file:
        return file.read().decode("latin-1")

def bounded(text, status, flaw):
    """A text that a run may have; another one ends it."""
    if len(text) > MOST_BYTES:
        raise Stop(status, f"cave: {flaw}\n")
    return text

def judged_as(status, name, judge, *of):
    """What a judge says of an input; its fault ends the run."""
    try:
        return judge(*of)
    except Fault as fault:
        at = f"{name}:{fault.line}" if fault.line else name
        raise Stop(status, f"cave: {at}: {fault.message}\n") from None

@lru_cache(maxsize=2)
def cave_of(name, database, bind, bindings):
    """The cave of a database and of bindings; the last one is kept for another run."""
    sections = judged_as(1, name, with_mark, sections_of, database)
    return Cave(sections, judged_as(1, bind, with_mark, bindings_of, bindings))

# ---- A log and its head

def read_log(name, file, database, options, told):
    """The text of a log. What is said of its head is added to `told`."""
    text = read(file)
    if len(text) <= MOST_BYTES and "--quiet" not in options:
        told.append(head_notice(name, text, database, options))
    return text

def head_notice(name, text, database, options):
    """What is said of a log whose head says how it is played, if the words differ."""
    line = [*lines_of(text), ""][0]
    if not line.startswith("# cave:") or flaw_of(line):
        return ""
    words = findall("[^ \t]+", line.removeprefix("# cave:"))
    cave = [*words, ""][0]
    bind, seed = said_in_head(words, "--bind"), said_in_head(words, "--seed")
    bound = options.get("--bind")
    if cave and not cave.startswith("-") and base(cave) != base(database):
        other = cave
    elif bind is not None and (bound is None or base(bind) != base(bound)):
        other = f"--bind {bind}"
    elif seed and fullmatch("[0-9]{1,10}", seed) and int(seed) != options["--seed"]:
        other = f"--seed {seed}"
    else:
        return ""
    return f"cave: {name}:1: the log's head says {other}\n"

def said_in_head(words, option):
    """The value of an option: in the first word that has it, or the word after its name."""
    letter = option[1:3]
    for word, after in zip(words, [*words[1:], None]):
        if word in (option, letter):
            return after
        if word.startswith(f"{option}="):
            return word.removeprefix(f"{option}=")
        if word.startswith(letter):
            return word.removeprefix(letter).removeprefix("=")
    return None

def base(path):
    return path.rpartition("/")[2]

# ---- Commands

def bindings_lines(cave):
    """Each key with what it is bound to."""
    counts = {"message": 0, "place": 0}
    for key in KEYS[:-1]:
        kind, number = "message" if key in KEYS[:len(ROLES)] else "place", cave.bound.get(key)
        texts = cave.messages if kind == "message" else cave.short | cave.long
        if number is None:
            yield f"{key} unbound"
        elif number not in texts:
            yield f"{key} {number}: no such {kind}"
        else:
            counts[kind] += 1
            yield f"{key} {number}: {first_line(texts[number])}"
    yield f"num.letters {cave.letters}"
    yield (f"-- {counts['message']} of {len(ROLES)} messages and {counts['place']} of {len(PLACES)}"
           " places have a text")

def check_lines(cave, options, names, database, bindings, known):
    """What is asked for of a cave. Doubts are those that a list doesn't know, after the entries of
    the list that no doubt is."""
    what = options["--print"]
    views = {"bindings": bindings_lines, "names": checks.names_lines,
             "unused": checks.unused_lines, "words": checks.words_lines}
    if what in views:
        return views[what](cave)
    if what == "maximum":
        return [f"cave ok, maximum {cave.greatest_score()}"]
    found = checks.doubts(cave, database, bindings)
    entries = checks.entries_of(found)
    if what == "known":
        return entries
    left = [f"{names[source]}:{at}: {says}" for (source, at, says), entry in zip(found, entries)
            if entry not in known.entries]
    lines = [*known.unmet(entries, "no doubt says this"), *left,
             f"-- {len(left)} doubt{'s' * (len(left) != 1)}"]
    if left and "--strict" in options:
        raise Stop(1, f"cave: {left[0]}\n", lines)
    return lines

def play_lines(cave, seed, log, what):
    """What is asked for of a play."""
    if what in ("steps", "walk"):
        return (edits.steps if what == "steps" else walk.walk)(cave, seed, log)
    played = edits.play(cave, seed, log)
    return {"score": scores.table(played.game), "state": played.game.state_lines()}.get(
        what, played.transcript)

def stretch(group, log, new_log, old, new):
    """Where a replay begins, the place where it meets the old play, and how many lines it plays.
    `old` and `new` are the states at all places, each of which is a checkpoint except the end of a
    log that isn't empty."""
    prefix, suffix, length = len(log), len(log), len(log)
    for edit in group.edits:
        if edit.kind == "seed":
            prefix = 0
        if edit.kind in ("seed", "expect"):
            continue
        prefix = min(prefix, edit.number)
        suffix = min(suffix, length - edit.number - (edit.kind != "insert"))
        length += {"insert": 1, "delete": -1, "replace": 0}[edit.kind]
    start = min(prefix, max(len(log) - 1, 0))
    shift = len(new_log) - len(log)
    for at in range(len(log) - suffix, len(log) or 1):
        if old[at] == new[at + shift]:
            return start, at + shift, at + shift - start
    return start, "none", len(new_log) - start

def run_edit(cave, file, log, script, log_ends, options, told):
    """Edits a log by a script, and gives what is printed: its lines, or a text with its own ends.
    What is said on standard error is added to `told`."""
    seed, what, is_quiet = options["--seed"], options["--print"], "--quiet" in options
    reports, undo, guarded, rows = [], [], [], []
    replays, is_told = what in REPORTS, not is_quiet and what not in ("transcript", "reports")
    before, played, wanted = edits.play(cave, seed, log, True) if replays else None, 0, 0
    for group in script:
        try:
            new_seed, new_log = edits.apply_group(group, seed, log)
        except edits.Refused as refused:
            said, why = f"refused {refused.fault}", f", {refused.words}"
            line = f"cave: {file}:{refused.line}: {said}{why}\n"
            if "--strict" in options:
                raise Stop(4, line) from None
            told += [line] * is_told
            reports.append(f"line {refused.line}: {said}{why if replays else ''}")
            rows.append([refused.line, edits.words_of(group), "", said, *["-"] * 8])
            continue
        reports.append(f"line {group.line}: ok")
        if replays:
            after = edits.play(cave, new_seed, new_log, True)
            start, met, count = stretch(group, log, new_log, before.states, after.states)
            game = after.game
            reports[-1] += (f", from {start}, met {met}, played {count} of {len(new_log)},"
                            f" {edits.score_and_turns(game)}, at {game.here}"
                            + (f", ended: {game.ended}" if game.ended else ""))
            rows.append([group.line, edits.words_of(group), edits.text_of(group, log), "ok", start,
                         met, count, game.score(), game.turns, game.here, game.ended or "-",
                         edits.differences(before.states[-1], after.states[-1])])
            before, played, wanted = after, played + count, wanted + len(new_log)
        back, again = edits.scripts_of(group, seed, log, "--guarded" in options)
        undo, guarded = back + undo, guarded + again
        log_ends.follow(group)
        seed, log = new_seed, new_log
    if what == "table":
        return ["\t".join(map(str, row)) for row in [edits.TABLE, *rows]]
    if what == "reports":
        return [*reports, f"replayed {played} lines instead of {wanted}"]
    large = "would be larger than 1,048,576 bytes, and no run could read it"
    if what in ("undo", "guarded"):
        text = log_ends.script_text(undo if what == "undo" else guarded)
        return bounded(text, 6, f"the script {large}")
    if what == "log":
        lost = (f"cave: the edits set the seed {seed}, and a log holds none:"
                f" play this one with --seed {seed}\n")
        told += [lost] * (seed != options["--seed"] and not is_quiet)
        return bounded(log_ends.log_text(log), 6, f"the edited log {large}")
    return reports * (what == "transcript") + [*play_lines(cave, seed, log, what)]

def run_cover(cave, names, options, known, told):
    """Plays logs, each of which is opened when its turn comes, and returns what is printed about
    the texts that none of them says, as lines."""
    said, (database, *logs) = set(), names
    for name in logs:
        log = judged_as(3, name, log_of, read_log(name, opened(name), database, options, told))
        said |= edits.play(cave, options["--seed"], log).game.said
    entries, lines, left = cover.report(cave, said, len(logs), options["--print"], known)
    lines = [*known.unmet(entries, "nothing that is never shown says this"), *lines]
    if left and "--strict" in options:
        what = "left that no log shows: add logs, or list them for --known"
        raise Stop(1, f"cave: {left} {what}\n", lines)
    return lines

def known_list(name, text):
    """A list of what is known, by its file."""
    flaw = "the list of what is known is too large: it has at most 1,048,576 bytes"
    return cover.KnownList(name, bounded(text, 1, f"{name}: {flaw}"))

def run_words(words, told):
    """What a run prints, as lines or as a text; a fault of it ends it by `Stop`. What else is said
    on standard error is added to `told`, as lines."""
    command, names, options = words_of(words)
    bind, known = options.get("--bind"), options.get("--known")
    others = names[1:] if command != "cover" else []
    in_order = [names[0], bind, *others, *([known] if known is not None else [])]
    files = [None if it is None else opened(it) for it in in_order]
    listed = read(files.pop()) if known is not None else ""
    if command == "cover":
        known_list(known, listed)
    database, bindings = read(files[0]), read(files[1]) if files[1] else ""
    for name, text, says in [(names[0], database, "a database has"),
                             (bind, bindings, "bindings have")]:
        bounded(text, 1, f"{name}: the input is too large: {says} at most 1,048,576 bytes")
    cave = cave_of(names[0], database, bind, bindings)
    if command == "check":
        files = {"cave": names[0], "bindings": bind}
        return check_lines(cave, options, files, database, bindings, known_list(known, listed))
    if command == "cover":
        return run_cover(cave, names, options, known_list(known, listed), told)
    moves = read_log(names[1], files[2], names[0], options, told)
    log = judged_as(3, names[1], log_of, moves)
    if command == "play":
        return play_lines(cave, options["--seed"], log, options["--print"])
    name, text = (names[2], read(files[3])) if names[2:] else (
        "--edit", text_of(options["--edit"]))
    script = judged_as(4, name, edits.script_of, text, "--guarded" in options)
    return run_edit(cave, name, log, script, edits.Ends(moves, text), options, told)

def bytes_of(printed):
    """The bytes of a text or of lines."""
    text = printed if isinstance(printed, str) else text_of(printed)
    return text.encode("latin-1")

def run(words):
    """The status, the output and what is said on standard error, as bytes."""
    told = []
    try:
        printed = run_words(words, told)
        return 0, bytes_of(printed), "".join(told).encode("latin-1")
    except Stop as stop:
        return stop.status, bytes_of(stop.printed), "".join([*told, stop.message]).encode()
