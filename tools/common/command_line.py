#!/usr/bin/env python3
"""What scripts share on the command line: the answer to `--help`, and programs that aren't there.

    command_line.run(main)                is what a script does if it isn't asked for help
    command_line.demand("rt", "git")      before it runs these programs
    command_line.skips(2, "maps", "dot")  whether it leaves out two maps, for lack of `dot`
    command_line.check(faults)            is all that a check does: it names each fault in a line

As a script it says which of some programs isn't there, with status 1.
"""

import argparse
import os
import shutil
import sys
from collections.abc import Callable, Iterable
from typing import NoReturn

# The packages of Debian that have the programs, if they have other names.
PACKAGES = {"cc": "gcc", "dot": "graphviz", "gnuplot": "gnuplot-nox",
            "chromedriver": "chromium-driver", "dpkg-deb": "dpkg", "strip": "binutils",
            "man": "man-db", "sha256sum": "coreutils"}
OLDEST = (3, 10)  # Python
NO_PROGRAM = ("there is no program `{}`:"
              " install the package `cave-logs`, or build it by `make play`")

if sys.version_info < OLDEST:
    sys.exit(f"{sys.argv[0]}: this is Python %d.%d, and %d.%d is needed, or a later one"
             % (*sys.version_info[:2], *OLDEST))


def answer_help(words: list[str] | None = None, said: str | None = None) -> None:
    """Prints what the script says about itself, or something else, and ends it, if one of its words
    asks for help."""
    if {"-h", "--help"} & {*(sys.argv[1:] if words is None else words)}:
        print((said or sys.modules["__main__"].__doc__ or "").strip())
        sys.exit()


def parser(*words: str, **options: str) -> argparse.ArgumentParser:
    """What reads the words of a script, whose help is what the script says about itself: those that
    have to be given, by their names in help, and options, each with the name of its value there."""
    asks = argparse.ArgumentParser(description=sys.modules["__main__"].__doc__,
                                   formatter_class=argparse.RawDescriptionHelpFormatter)
    for it in words:
        asks.add_argument(it.lower(), metavar=it)
    for name, value in options.items():
        asks.add_argument(f"--{name}", metavar=value)
    return asks


def the_program(*others: str) -> str:
    """The program, which the command line has to name alone, by its whole path. It and the others
    have to be there."""
    answer_help()
    if len(sys.argv) != 2:
        sys.exit(sys.modules["__main__"].__doc__)
    program = os.path.abspath(sys.argv[1])
    demand(program, *others)
    return program


def told(faults: Iterable[str]) -> int:
    """Prints faults, a line each, and gives the status: 1 if there is one."""
    found = [*faults]
    print(*found, sep="\n", end="\n" * bool(found))
    return 1 if found else 0


def run(main: Callable[[], int | None]) -> NoReturn:
    """Does what a script is for, unless it is asked for help, and ends with that status."""
    answer_help()
    sys.exit(main())


def check(faults: Callable[[], Iterable[str]]) -> NoReturn:
    """Ends a check by naming what it finds."""
    run(lambda: told(faults()))


def missing(*programs: str) -> str | None:
    """What to do about the first of some programs that isn't there, or None."""
    lost = next((it for it in programs if not shutil.which(it)), None)
    if lost is None:
        return None
    if "/" in lost:
        return f"there is no program {lost}: `make play` builds it"
    if lost == "rt":
        return "there is no `rt` on the path: install the Rattle toolchain, which has it"
    package = PACKAGES.get(lost, lost)
    return f"there is no `{lost}`: install it, for example with `apt-get install {package}`"


def demand(*programs: str) -> None:
    """Ends the script with a line on standard error if a program isn't there."""
    if said := missing(*programs):
        print(f"{os.path.basename(sys.argv[0])}: {said}", file=sys.stderr)
        sys.exit(2)


def skips(count: int, parts: str, *programs: str, reason: str | None = None) -> bool:
    """Whether parts of a check are skipped, because a program isn't there or for another reason. It
    says how many, and why. `make test` adds these up, by the file that SKIPPED names."""
    if not (why := reason or missing(*programs)):
        return False
    line = f"{count} {parts} skipped: {why}"
    print(line)
    if path := os.environ.get("SKIPPED"):
        os.makedirs(os.path.dirname(path), exist_ok=True)
        with open(path, "a", encoding="utf-8") as file:
            print(line, file=file)
    return True


if __name__ == "__main__":
    answer_help()
    sys.exit(missing(*sys.argv[1:]))
