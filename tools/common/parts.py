"""Parts of a test, as a module: what each finds, and the line that is printed of it."""

import time
from collections.abc import Callable, Iterable, Iterator

# What is looked at, what is found there, and what is expected.
Checks = Iterator[tuple[str, object, object]]
Part = tuple[str, Checks]  # and its name
SHOWN = 10


def brief(value: object) -> str:
    text = repr(value)
    return text if len(text) < 400 else f"{text[:200]} .. {text[-200:]}"


def run(name: str, checks: Checks, console: Callable[[], list[str]]) -> tuple[int, int]:
    """Runs a part, prints its line, and gives how many checks it has, and how many are wrong."""
    begun, count, wrong = time.monotonic(), 0, list[str]()
    console()
    try:
        for what, got, wanted in checks:
            count += 1
            if got != wanted:
                wrong.append(f"{what}: {brief(got)}, expected {brief(wanted)}")
    except Exception as failed:  # of the program, of a server or of a browser
        wrong.append(f"after {count} checks: {brief(failed)}")
    wrong += ["nothing is checked"] * (not count)
    wrong += [f"on the console: {it}" for it in console()]
    held = "FAILED" if wrong else "ok    "
    print(f"{held} {name}: {count} checks ({time.monotonic() - begun:.1f} s)", flush=True)
    print(*(f"         {it}\n" for it in wrong[:SHOWN]), sep="", end="", flush=True)
    return count, len(wrong)


def run_all(parts: Iterable[Part], words: list[str], of: str,
            console: Callable[[], list[str]] = list) -> int:
    """Runs the parts whose names have one of the words, or all; the last line has their sums. What
    is said on a console while a part runs is wrong."""
    ran = [run(name, checks, console) for name, checks in parts
           if any(word in name for word in words or [""])]
    counts, wrongs = sum(count for count, _ in ran), sum(wrong for _, wrong in ran)
    print(f"{counts} checks {of}, {wrongs} of them wrong")
    return 1 if wrongs or not counts else 0
