"""Plays logs side by side, and compares what is printed with their transcripts."""

import os
import signal
import subprocess
import sys
import time
from contextlib import contextmanager
from dataclasses import dataclass, field, replace
from multiprocessing import get_context
from multiprocessing.connection import Connection, wait
from typing import Callable, Iterator, Sequence

from .hunks import CONTEXT, Hunk, differences, sentence, visible
from .logs import Log, content, lines_of
from .runs import play

AHEAD = 2  # logs that a process has been given, so that it need not wait for the next one


@dataclass
class Played:
    """The outcome of a run: what is wrong, the transcript, and what is printed now."""

    hunks: list[Hunk]
    old: list[str] = field(default_factory=list)
    new: list[str] = field(default_factory=list)
    is_played: bool = False  # whether both are there to be compared
    seconds: float = 0.0


def wrong_status(log: Log, status: int, said: bytes) -> Hunk:
    """What is said about a run that ends with another status."""
    lines = [f"status {status}, expected {log.status}", *map(visible, lines_of(said)[-CONTEXT:])]
    cave = log.head.get("cave", [""])[0]
    if cave and not os.path.exists(os.path.join(log.suite.top, cave)):
        lines.append(f"there is no {cave} in {log.suite.top}: --top names another folder")
    return sentence(*lines)


def compared(program: str, log: Log, seconds: float) -> Played:
    """Plays a log, and compares what is printed with its transcript."""
    if log.misplaced:
        return Played([sentence(log.misplaced)])
    said, status = play(program, log, seconds)
    if status != log.status:
        return Played([wrong_status(log, status, said)])
    if not log.has(".out"):
        missing = f"there is no {log.path}.out: read what the program prints, and accept it"
        return Played([sentence(missing)], [], lines_of(said), True)
    transcript = content(f"{log.stem}.out")
    if said == transcript:
        return Played([], is_played=True)
    old, new = lines_of(transcript), lines_of(said)
    return Played([*differences(log, old, new)], old, new, True)


def played(program: str, log: Log, seconds: float) -> Played:
    began = time.monotonic()
    try:
        found = compared(program, log, seconds)
    except subprocess.TimeoutExpired:
        found = Played([sentence(f"the run takes longer than {seconds:g} s")])
    except (OSError, ValueError, subprocess.SubprocessError) as error:
        found = Played([sentence(str(error))])
    found.seconds = time.monotonic() - began
    return found


def serve(end: Connection, others: Sequence[Connection], do: Callable[[int], Played]) -> None:
    """What a process does: it plays the logs whose numbers it gets, until there is none."""
    signal.signal(signal.SIGTERM, lambda *_: sys.exit(1))  # and what it made for a run is removed
    signal.signal(signal.SIGINT, lambda *_: None)  # not SIG_IGN, which programs would inherit
    for it in others:
        it.close()
    try:
        while (at := end.recv()) is not None:
            end.send((at, do(at)))
    except (EOFError, BrokenPipeError):
        pass  # the runner has ended


def in_order(ends: Sequence[Connection], count: int) -> Iterator[Played]:
    """Hands numbers to processes, and gives what they send back in the order of the numbers."""
    numbers = iter(range(count))
    found: dict[int, Played] = {}
    for end, at in zip([*ends] * AHEAD, numbers):
        end.send(at)
    for at in range(count):
        while at not in found:
            ready = wait(ends)
            for end in (it for it in ends if it in ready):
                number, one = end.recv()
                found[number] = one
                if (next_one := next(numbers, None)) is not None:
                    end.send(next_one)
        yield found.pop(at)


@contextmanager
def all_played(program: str, logs: Sequence[Log], seconds: float, jobs: int,
               has_texts: bool) -> Iterator[Iterator[Played]]:
    """The outcome of each log, in their order, with the texts if they are asked for. Each job is a
    process: only one thread of a process can begin a program at a time."""

    def do(at: int) -> Played:
        found = played(program, logs[at], seconds)
        return found if has_texts else replace(found, old=[], new=[])

    if min(jobs, len(logs)) == 1:
        yield map(do, range(len(logs)))
        return
    context = get_context("fork")
    ends: list[Connection] = []
    processes = []
    for _ in range(min(jobs, len(logs))):
        ours, its = context.Pipe()
        ends.append(ours)
        processes.append(context.Process(target=serve, args=(its, [*ends], do), daemon=True))
        processes[-1].start()
        its.close()
    try:
        yield in_order(ends, len(logs))
        for end in ends:
            end.send(None)
    except BaseException:
        for process in processes:
            process.terminate()
        raise
    finally:
        for end in ends:
            end.close()
        for process in processes:
            process.join()
