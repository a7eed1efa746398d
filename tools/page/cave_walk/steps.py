"""The table of `cave play --print steps` as a module; files that are put whole or not at all."""

import errno
import os
import sys
from collections.abc import Callable
from typing import Any

from common import outputs

COLUMNS = """place line from to turns score lamp carried draws stream question ended
happened""".split()
NUMBERS = "place from to turns score lamp carried draws stream".split()
NONE = "-"  # of a column that has nothing to say
Steps = dict[str, list[Any]]  # the columns by their names, those of NUMBERS as numbers


class Stop(Exception):
    """The end of a run: what is said on standard error, and its status."""

    def __init__(self, message: str, status: int = 2) -> None:
        super().__init__(message)
        self.message, self.status = message, status


def text(given: bytes) -> str:
    """Bytes as a text. A line that isn't UTF-8 is taken for Latin-1, as `dot` takes it."""
    def read(line: bytes) -> str:
        try:
            return line.decode()
        except UnicodeDecodeError:
            return line.decode("latin-1")
    return "\n".join(map(read, given.split(b"\n")))


def columns_of(table: str) -> Steps:
    head, *rows = table.removesuffix("\n").split("\n")
    if head.split("\t") != COLUMNS:
        raise Stop("the first line isn't that of `cave play --print steps`")
    cells = [row.split("\t") for row in rows]
    for number, row in enumerate(cells, 2):
        if len(row) != len(COLUMNS):
            raise Stop(f"line {number} has {len(row)} columns, and a step has {len(COLUMNS)}")
    columns: Steps = {name: [row[at] for row in cells] for at, name in enumerate(COLUMNS)}
    try:
        return columns | {it: [int(cell) for cell in columns[it]] for it in NUMBERS}
    except ValueError as wrong:
        raise Stop(f"a column has a word where a number is expected: {wrong}") from None


def events_of(happened: str) -> list[str]:
    return [] if happened == NONE else happened.split(",")


def demand_output(path: str, *inputs: str | None) -> None:
    """Stops a run whose output would replace one of its inputs."""
    if wrong := outputs.fault(path, inputs):
        raise Stop(wrong)


def put(path: str, content: bytes) -> None:
    """Puts a file, whole or not at all."""
    try:
        outputs.put(path, content)
    except OSError as error:
        raise Stop(f"{path}: the output can't be written: {error.strerror}", 6) from None


def print_out(content: bytes) -> None:
    try:
        if not sys.stdout:
            raise OSError(errno.EBADF, os.strerror(errno.EBADF))
        sys.stdout.buffer.write(content)
        sys.stdout.flush()
    except OSError as error:
        # Python would report again what it can't flush as it ends.
        os.dup2(os.open(os.devnull, os.O_WRONLY), 1)
        raise Stop(f"the output can't be written: {error.strerror}", 6) from None


def ended_by(main: Callable[[], int]) -> int:
    """Runs what a tool does; a Stop is reported on standard error, and gives the status."""
    name = os.path.basename(sys.argv[0])
    try:
        return main()
    except Stop as stop:
        own = stop.message.startswith(("cave: ", "error: "))
        print(stop.message if own else f"{name}: {stop.message}", file=sys.stderr)
        return stop.status
