"""The command line of the runner of suites, and the run itself."""

import argparse
import io
import os
import shutil
import sys
from shlex import quote

from common.command_line import NO_PROGRAM

from .hunks import Hunk, differences, sentence
from .logs import Log
from .plays import Played, all_played
from .reports import (ForReaders, Progress, Result, Sums, Tap, fault_of_junit, junit, put_junit,
                      say)
from .runs import command_line
from .suites import NAME, Suite, Suites, shards
from .updates import Asked, write

SECONDS = 60.0  # that a run may take
CLOSED, STOPPED = 141, 130  # the status after SIGPIPE, and after SIGINT


def updated(log: Log, found: Played, asked: Asked | None) -> list[Hunk]:
    """Writes a transcript again, as a reader says if one is asked; gives what is left. A log that
    is known to fail only gets its first one, and goes on to fail: it isn't what it should be."""
    is_known = log.xfail is not None
    if not found.is_played or not found.hunks or is_known and log.has(".out"):
        return found.hunks
    if asked is None or not found.new:
        return [] if write(log, found.new) and not is_known else found.hunks
    left = asked.update(log, found.old, found.new, [*differences(log, found.old, found.new)])
    return left if log.has(".out") and not is_known else found.hunks


def result_of(log: Log, found: Played) -> Result:
    """The outcome of a log. Known to fail is only a run that ends as its head says, and differs."""
    known = log.xfail if found.is_played and log.has(".out") else None
    if known is None or found.hunks:
        return Result(log, found.hunks, found.seconds, known)
    said = f"passes, and its head says that it fails: `# xfail: {log.xfail}`"
    return Result(log, [sentence(said)], found.seconds)


def run_all(logs: list[Log], said: argparse.Namespace) -> int:
    """Plays logs, several at once, and says in their order what is wrong with them."""
    report: Tap | ForReaders = Tap(said.all) if said.tap else ForReaders(said.all)
    sums, progress = Sums(), Progress(len(logs))
    results, is_stopped = list[Result](), False
    asked = Asked() if said.is_asking else None
    say(report.head(len(logs)))
    try:
        with all_played(said.program, logs, said.seconds, said.jobs, said.update) as found:
            for at, (log, one) in enumerate(zip(logs, found), 1):
                if said.update and one.hunks:
                    progress.clear()
                    one.hunks = updated(log, one, asked)
                result = result_of(log, one)
                sums.add(result)
                if lines := report.of(result, at):
                    progress.clear()
                    say(lines)
                progress.show(at, sums.failed)
                results += [result] if said.junit else []
    except KeyboardInterrupt:
        is_stopped = True
    finally:
        progress.clear()
    say(report.end(sums.of_part(len(logs)) if is_stopped else str(sums)))
    is_put = not said.junit or put_junit(said.junit, junit(results, sums, said.all))
    return STOPPED if is_stopped else 1 if sums.failed or not is_put else 0


def show_commands(logs: list[Log], said: argparse.Namespace, here: str) -> int:
    """Prints the command line of each log, for a shell in the folder of the call."""
    for log in logs:
        top = log.suite.top
        before = "" if os.path.samefile(here, top) else f"cd {quote(top)} && "
        if log.misplaced:
            print(f"{log.name}: {log.misplaced}", file=sys.stderr)
        else:
            say([before + command_line(said.program, log)])
    return 1 if any(it.misplaced for it in logs) else 0


def shard(text: str) -> tuple[int, int]:
    number, _, of = text.partition("/")
    if not (number.isdigit() and of.isdigit() and 1 <= int(number) <= int(of)):
        raise argparse.ArgumentTypeError("expected K/M, with K from 1 to M")
    return int(number), int(of)


def at_least_one(text: str) -> int:
    if not (text.isdigit() and int(text)):
        raise argparse.ArgumentTypeError("expected a number from 1 on")
    return int(text)


def options(doc: str, usage: str, is_front: bool) -> argparse.ArgumentParser:
    asks = argparse.ArgumentParser(
        usage=usage, description=doc, formatter_class=argparse.RawDescriptionHelpFormatter)
    asks.add_argument("words", metavar="LOG", nargs="*", help="folders, and logs by paths or names")
    if not is_front:
        asks.add_argument("--program", metavar="P", default="cave",
                          help="a file, or a command on the PATH: cave, if nothing else is said")
        asks.add_argument("--top", metavar="FOLDER", help="where the files lie that heads name")
    processors = len(os.sched_getaffinity(0))  # that this process may use
    asks.add_argument("-j", "--jobs", metavar="N", type=at_least_one, default=processors,
                      help="plays N logs at once; as many as there are processors")
    asks.add_argument("--shard", "--part", metavar="K/M", type=shard, default=(1, 1),
                      help="plays the K-th of M parts with about as many lines each")
    asks.add_argument("--seconds", metavar="N", type=float, default=SECONDS,
                      help="how long a run may take; 60, if nothing else is said")
    asks.add_argument("--all", action="store_true", help="shows all differences, not the first")
    asks.add_argument("--tap", action="store_true", help="prints TAP, version 13")
    asks.add_argument("--junit", metavar="FILE", help="writes a file for a CI, in JUnit's form")
    asks.add_argument("--update", action="store_true",
                      help="writes transcripts of the logs that are named again, hunk by hunk"
                           " as you accept them")
    asks.add_argument("--yes", action="store_true", help="with --update, writes without asking")
    asks.add_argument("--accept", action="store_true",
                      help="as --update; away from a terminal it writes without asking")
    asks.add_argument("--command", action="store_true",
                      help="plays nothing, and prints the command line of each log")
    return asks


def settle(asks: argparse.ArgumentParser, said: argparse.Namespace) -> None:
    """Settles whether transcripts are written, and whether a reader is asked."""
    if said.yes and not (said.update or said.accept):
        asks.error("--yes goes with --update")
    idle = [it for it in ("accept", "all", "jobs", "junit", "seconds", "tap", "update")
            if getattr(said, it) != asks.get_default(it)]
    if said.command and idle:
        asks.error(f"--command plays nothing, so leave --{idle[0]} out")
    if (said.update or said.accept) and not said.words:
        asks.error(f"--{'update' if said.update else 'accept'} needs the logs that are meant")
    is_terminal = sys.stdin.isatty() and sys.stdout.isatty()
    if said.update and not (is_terminal or said.yes):
        asks.error("--update asks on a terminal; with --yes it writes without asking")
    said.is_asking = (said.update or said.accept) and is_terminal and not said.yes
    if said.is_asking and said.tap:
        asks.error("--tap leaves no room to ask: add --yes")
    said.update |= said.accept


def chosen(asks: argparse.ArgumentParser, said: argparse.Namespace, suites: Suites) -> list[Log]:
    """The logs that are meant, each once, or those of the shard."""
    default = suites.default
    meant: dict[Log, None] = {}
    for word in said.words:
        found = suites.meant(word)
        if not found:
            asks.error(f"{word} is no log of the suite: no log that is run has this name or path")
        if found[1:] and not any(os.path.isdir(os.path.join(it, word)) for it in suites.places):
            names = ", ".join(it.name for it in found)
            asks.error(f"{word} may be any of {names}: give its folder too")
        meant.update(dict.fromkeys(found))
    logs = [*meant] if said.words else default.logs()
    if len({it.suite for it in logs}) > 1:
        for log in logs:
            log.name = os.path.relpath(log.stem, suites.here)
    if not logs:
        asks.error(f"the suite is empty: {os.path.relpath(default.root, suites.here)} has no log")
    number, count = said.shard
    logs = shards(logs, count)[number - 1] if count > 1 else logs
    if not logs:
        asks.error("the part is empty: there are fewer logs than parts")
    if said.junit and (wrong := fault_of_junit(said.junit, {it.suite for it in logs})):
        asks.error(wrong)
    return logs


def run(words: list[str], doc: str, top: str | None) -> int:
    usage = f"{'logs/run PROGRAM' if top else 'cave-suite'} [OPTION ..] [FOLDER|LOG ..]"
    here, asks = os.getcwd(), options(doc, usage, top is not None)
    said = asks.parse_intermixed_args(words)
    if top is not None:
        if not said.words:
            asks.error("PROGRAM is missing: a file, or a command on the PATH")
        said.program, *said.words = said.words
        said.top = top
    if not (found := shutil.which(said.program)):  # on the PATH, or a file with a slash in its name
        asks.exit(2, f"{asks.prog}: {NO_PROGRAM.format(said.program)}\n")
    said.program = os.path.abspath(found)
    settle(asks, said)
    place = os.path.abspath(said.top or here)
    has_logs = os.path.isdir(os.path.join(place, NAME))
    default = Suite(os.path.join(place, NAME) if has_logs else place, place)
    logs = chosen(asks, said, Suites(here, default, said.top))
    return show_commands(logs, said, here) if said.command else run_all(logs, said)


def main(doc: str, top: str | None = None) -> int:
    """Does what the command line asks. With a top its first word is the program, and the suite is
    that of the top's folder `logs`."""
    sys.stdin = sys.stdin or open(os.devnull, encoding="utf-8")  # each is None if it is closed
    sys.stderr = sys.stderr or open(os.devnull, "w", encoding="utf-8")
    name = os.path.basename(sys.argv[0])
    if not sys.stdout:
        print(f"{name}: standard output is closed", file=sys.stderr)
        return 2
    for stream in (sys.stdout, sys.stderr):
        if isinstance(stream, io.TextIOWrapper):
            stream.reconfigure(errors="backslashreplace")
    try:
        try:
            return run(sys.argv[1:], doc, top)
        finally:
            sys.stdout.flush()
    except BrokenPipeError:
        drop_output()
        return CLOSED
    except KeyboardInterrupt:
        return STOPPED
    except EOFError:
        print("a process that plays logs was killed", file=sys.stderr)
        return 1
    except OSError as error:
        drop_output()
        what = "" if error.filename is None else f"{error.filename}: "
        print(f"{name}: {what}{error.strerror}", file=sys.stderr)
        return 1


def drop_output() -> None:
    """Lets go of what can't be written: Python would try again as it ends."""
    os.dup2(os.open(os.devnull, os.O_WRONLY), sys.stdout.fileno())
