"""The chart of a walk: its score and its lamp, drawn by gnuplot."""

import subprocess
from collections.abc import Iterable

from common import command_line

from .filled import part
from .steps import Steps, Stop, columns_of, demand_output, events_of, print_out, put, text

MARKS = {  # for an event: the type of its points, their size, their colour
    "treasure found": (12, 1.0, "#1d6f86"),
    "treasure home": (13, 1.1, "#1d6f86"),
    "died": (2, 1.2, "#b3261e"),
}


def file_of(name: str) -> str:
    """The text of a file, or of standard input."""
    try:
        with open(0 if name == "-" else name, "rb") as file:
            return text(file.read())
    except OSError as error:
        raise Stop(f"{name}: the file can't be read: {error.strerror}", 5) from None


def block(name: str, rows: Iterable[str]) -> str:
    """A table inside a script of gnuplot."""
    return "\n".join([f"${name} << END_OF_ROWS", *rows, "END_OF_ROWS", ""])


def script_of(steps: Steps) -> str:
    lines = [*zip(steps["place"], steps["score"], steps["lamp"], steps["happened"])]
    head, plot, drawn = part("walk_page/chart.gnuplot").partition("plot ")
    told = [head, block("steps", (f"{at}\t{score}\t{lamp}" for at, score, lamp, _ in lines))]
    plots = [plot + drawn.rstrip("\n")]
    for event, (kind, size, colour) in MARKS.items():
        marked = [f"{at}\t{score}" for at, score, _, it in lines if event in events_of(it)]
        if marked:
            name = event.replace(" ", "_")
            told.append(block(name, marked))
            plots.append(f"${name} using 1:2 with points pt {kind} ps {size} lw 1.5"
                         f" lc rgb '{colour}' title '{event}'")
    lamps, most = steps["lamp"], max(*steps["score"], 1)
    told += [f"set xrange [0:{max(len(lines) - 1, 1)}]", f"set yrange [0:{1.1 * most:.0f}]"]
    told += [f"set y2range [{min(*lamps, 0)}:{1.1 * max(*lamps, 1):.0f}]"]
    return "\n".join([*told, ", ".join(plots), ""])


def main() -> int:
    said = command_line.parser("STEPS", output="CHART.svg").parse_args()
    if said.output:
        demand_output(said.output, "/dev/stdin" if said.steps == "-" else said.steps)
    if lost := command_line.missing("gnuplot"):
        raise Stop(lost)
    steps = columns_of(file_of(said.steps))
    if not steps["line"]:
        raise Stop(f"{said.steps}: a log without a line has no chart")
    drawn = subprocess.run(["gnuplot"], input=script_of(steps).encode(), capture_output=True)
    if drawn.returncode or not drawn.stdout:
        raise Stop(f"gnuplot ends with status {drawn.returncode}: {drawn.stderr.decode()}")
    if said.output:
        put(said.output, drawn.stdout)
    else:
        print_out(drawn.stdout)
    return 0
