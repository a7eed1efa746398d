"""The suite of this repository, the folder above `logs/`, and the frame of checks, for the scripts
of this folder.

    check(cases, "maps drawn", "failed")      is all that such a script does

Packages of `tools/` can be imported after this one, and `cave_suite`, the runner of suites.
"""

import os
import sys
from collections.abc import Callable, Iterable, Mapping
from concurrent.futures import ThreadPoolExecutor
from typing import NoReturn

sys.path.append(f"{os.path.dirname(os.path.abspath(__file__))}/../../tools")

from common import command_line  # of the folder that is on the path now
from common.files import TOP
from common.suite import SUITE

__all__ = ["SUITE", "TOP", "Case", "check", "counted"]
Case = Callable[[], Iterable[str]]  # what is wrong


def faults_of(case: Case) -> list[str]:
    try:
        return [*case()]
    except Exception as failed:  # of the program, or of what it prints
        return [f"{type(failed).__name__}: {failed}"]


def counted(cases: Mapping[str, Case], right: str, wrong: str) -> int:
    """Looks at cases by their names, as many at a time as there are processors. Each fault is a
    line, and the last one counts the cases: the status is 1 if one is wrong or there is none."""
    with ThreadPoolExecutor(os.cpu_count()) as pool:
        found = dict(zip(cases, pool.map(faults_of, cases.values())))
    command_line.told(f"FAILED {name}: {it}" for name, faults in found.items() for it in faults)
    failed = sum(map(bool, found.values()))
    print(f"{len(found) - failed} {right}, {failed} {wrong}")
    return 1 if failed or not found else 0


def check(cases_of: Callable[[str], Mapping[str, Case]], right: str, wrong: str) -> NoReturn:
    """Ends a script, whose command line has to name a program, by the cases of that program."""
    program = command_line.the_program()
    os.chdir(TOP)
    sys.exit(counted(cases_of(program), right, wrong))
