"""What the duel compares: random games, directed games, and mutated databases."""

import random
from collections import Counter, namedtuple

import checks
import cover
import directed
import generate
from database import Cave, bindings_of, sections_of
from errands import stage_of
from lines import Fault, text_of
from players import Player
from scripts import known_list, mutated, script_for, script_words

FILES = ("cave.txt", "bindings.txt", "log.txt", "script.txt")
KNOWN = ["--known", "known.txt"]
STATE = ["--print", "state"]
KINDS = {"directed": "directed game", "game": "game", "database": "database"}

# A case is its files and the words with which both are called.
Case = namedtuple("Case", "name texts words")

def cave_of(texts):
    return Cave(sections_of(texts["cave.txt"]), bindings_of(texts["bindings.txt"]))

def calls_of(rng, call, options, is_edited):
    """A call of a game that prints something other than its transcript, at random."""
    if is_edited:
        what = rng.choice(["play", "log", "undo", "guarded", "steps", "walk", "score", "reports",
                           "table"])
        every = "1" if what in ("reports", "table") else rng.choice(["1", "2", "7", "50", "10000"])
        call = [*call, "--every", every, *["--quiet"] * (rng.random() < 0.2)]
        return call, [*call, "--print", what, *["--strict"] * (rng.random() < 0.1)]
    covers = ["cover", "cave.txt", "log.txt", *options]
    covers += ["--strict"] * (rng.random() < 0.3) + KNOWN * (rng.random() < 0.5)
    views = [[*call, "--print", it] for it in ("steps", "walk", "score")]
    return call, rng.choice([*views, covers, [*covers, "--print", "texts"]])

def game_cases(rng, seed, number, counts):
    """A random game, called in three ways, one of which prints the state to which it leads."""
    stage = stage_of(seed, number)
    maker = generate.Maker(rng, stage)
    texts = {"cave.txt": maker.database(), "bindings.txt": maker.bindings()}
    cave = cave_of(texts)
    start = rng.choice([0, 1, rng.randrange(1 << 20), rng.randrange(1 << 31)])
    log = Player(rng, cave, start, counts, stage).make()
    # A head says how the log is played, or something else.
    says = rng.choice(["cave.txt", "other.txt", "cave.txt --bind=bindings.txt"])
    head = f"# cave: {says} --seed {start + rng.choice([0, 1])}"
    log = [head] * (rng.random() < 0.1) + log
    texts["log.txt"] = text_of(log)
    if rng.random() < 0.02:
        texts["log.txt"] = mutated(rng, texts["log.txt"])
    call = ["play", "cave.txt", "log.txt"]
    options = ["--bind", "bindings.txt", "--seed", f"{start}"]
    if is_edited := rng.random() < 0.4:
        others = [Player(rng, cave, start, counts).candidate() for _ in range(4)]
        guarded = rng.random() < 0.4
        texts["script.txt"] = script_for(rng, log, others, guarded)
        call = ["edit", *call[1:], *script_words(rng, texts["script.txt"])]
        options += ["--guarded"] * guarded
    call, other = calls_of(rng, call + options, options, is_edited)
    if KNOWN[0] in other:
        report = cover.report(cave, set(), 1, "texts", cover.KnownList(None, ""))
        texts["known.txt"] = known_list(rng, report[0])
    return [Case(f"game-{number}", texts, it) for it in (call, [*call, *STATE], other)]

def directed_cases(number):
    """A directed game, with its transcript and the state to which it leads."""
    game = directed.GAMES[number]
    texts = {"cave.txt": game.database, "bindings.txt": game.bindings,
             "log.txt": text_of(game.lines)}
    call = ["play", "cave.txt", "log.txt", "--bind", "bindings.txt", "--seed", "0"]
    calls = [call, [*call, *STATE]][game.is_long:]
    return [Case(f"directed-{game.name}", texts, it) for it in calls]

def doubts_of(texts):
    """The doubts about a cave as lists of what is known have them; none if it is refused."""
    try:
        return checks.entries_of(
            checks.doubts(cave_of(texts), texts["cave.txt"], texts["bindings.txt"]))
    except Fault:
        return []

def database_cases(rng, number, kept):
    """A mutated database, or bindings; the text that is changed stays for some cases."""
    if number % 10 == 0 or not kept:
        maker = generate.Maker(rng)
        kept[:] = [maker.database(), maker.bindings()]
    texts = dict(zip(FILES, kept))
    name = "bindings.txt" if rng.random() < 0.2 else "cave.txt"
    texts[name] = mutated(rng, texts[name])
    prints = ["bindings", "names", "unused", "words", "doubts", "known"]
    what = ["--print", rng.choice(prints)] if rng.random() < 0.3 else []
    what += ["--strict"] * (rng.random() < 0.1)
    if what[1:2] in ([], ["doubts"]) and rng.random() < 0.2:
        what += KNOWN
        texts["known.txt"] = known_list(rng, doubts_of(texts))
    call = ["check", "cave.txt", "--bind", "bindings.txt", *what]
    return [Case(f"database-{number}", texts, call)]

def chunk_of_cases(kind, seed, numbers):
    """The cases of some numbers."""
    counts, kept = Counter(), []
    for number in numbers:
        rng = random.Random(f"{seed} {kind} {number}")
        if kind == "game":
            yield from game_cases(rng, seed, number, counts)
        elif kind == "directed":
            yield from directed_cases(number)
        else:
            yield from database_cases(rng, number, kept)
