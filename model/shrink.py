"""A case as program and model play it, and a difference made small and kept."""

import itertools
import os
import shutil
import subprocess
import time
import traceback
from collections import namedtuple

import program

SECONDS, SHRINKING = 360, 60  # of a run, and of making a difference small

# Which files are made small, and how long the runs of lines are at least that are taken out.
PASSES = [("script.txt", 1), ("log.txt", 1), ("cave.txt", 8), ("log.txt", 1), ("cave.txt", 1),
          ("bindings.txt", 1), ("known.txt", 1), ("log.txt", 1)]

BOTH = ("program", "model")
Said = namedtuple("Said", "status output errors")  # what one of both said

# ---- Both

def write(texts):
    for name, text in texts.items():
        with open(name, "w", encoding="latin-1", newline="") as file:
            file.write(text)

def program_says(path, words):
    """What the program says, in time that is enough on a machine with much else to do."""
    try:
        ran = subprocess.run([path, *words], capture_output=True, stdin=subprocess.DEVNULL,
                             timeout=SECONDS)
        return Said(ran.returncode, ran.stdout, ran.stderr)
    except subprocess.TimeoutExpired:
        return Said("none", b"", f"no end in {SECONDS} seconds\n".encode())

def model_says(words):
    try:
        return Said(*program.run(words))
    except Exception:
        return Said("raised", b"", traceback.format_exc().encode())

def both(path, texts, words):
    """What program and model say of a case, whose files are written into the folder of now."""
    write(texts)
    return program_says(path, words), model_says(words)

# ---- Making a difference small

def fewer_lines(text, lasts, least, until):
    """The text without the runs of lines, of some length at least, that nothing differs by."""
    lines = text.splitlines(True)
    size = max(len(lines) // 2, 1)
    while size >= least and lines and time.time() < until:
        at = 0
        while at < len(lines) and time.time() < until:
            less = lines[:at] + lines[at + size:]
            if lasts("".join(less)):
                lines = less
            else:
                at += size
        size //= 2
    return "".join(lines)

def made_small(path, case, seconds):
    """The case with as little as its difference needs, as far as one comes in some seconds."""
    until = time.time() + seconds
    statuses = [it.status for it in both(path, case.texts, case.words)]
    texts = dict(case.texts)
    for name, least in PASSES:
        if name in texts:
            def lasts(text):
                one, other = both(path, {**texts, name: text}, case.words)
                return one != other and [one.status, other.status] == statuses

            texts[name] = fewer_lines(texts[name], lasts, least, until)
    return case._replace(texts=texts)

def first_difference(one, other, names=BOTH):
    """The first line in which two outputs differ, as both have it."""
    pairs = [it.decode("latin-1").split("\n") for it in (one, other)]
    at = next((it for it, (a, b) in enumerate(zip(*pairs)) if a != b), min(map(len, pairs)))
    return [f"  {f'{who}:':8} {(of[at:at + 1] or ['(nothing)'])[0]}"
            for who, of in zip(names, pairs)]

def kept_in(folder, case, one, other, names=BOTH):
    """Keeps a case in a folder with what both said, and gives the lines that show it."""
    shutil.rmtree(folder, ignore_errors=True)
    os.makedirs(folder)
    for name in case.texts:
        shutil.copy(name, folder)
    for who, said in zip(names, (one, other)):
        with open(f"{folder}/{who}.out", "wb") as file:
            file.write(said.output + said.errors + f"status {said.status}\n".encode())
    with open(f"{folder}/args", "w", encoding="utf-8") as file:
        file.write("".join(it + "\n" for it in case.words))
    log = case.texts.get("log.txt", "").splitlines()
    runs = [(line, len([*of])) for line, of in itertools.groupby(log)]
    of_cave = len(case.texts["cave.txt"].splitlines())
    return [f"DIFFERS {case.name}: {folder}", f"  cave {' '.join(case.words)}",
            *(f"  log: {it}" + f"  ({count} times)" * (count > 1) for it, count in runs[:12]),
            f"  with {len(log)} lines of log, {of_cave} of cave",
            f"  statuses {one.status} and {other.status}",
            *first_difference(one.output + one.errors, other.output + other.errors, names)]
