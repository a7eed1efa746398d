"""Plays a log: the folder of its run, what the program prints, and the run as a line of a shell."""

import ctypes
import os
import resource
import shutil
import stat
import subprocess
import tempfile
from shlex import quote
from typing import Callable, Iterator

from .logs import OWN, Head, Log, content

REDIRECTED, UNDONE = {"stdin": "<", "stdout": ">"}, ("disk", "folder", "status")
READ_ONLY = 0o555
# What a process of root gives up so that permissions of files hold for it too.
PR_CAPBSET_DROP, CAP_DAC_OVERRIDE = 24, 1
LIBC = ctypes.CDLL(None)


def limits(head: Head) -> Callable[[], None] | None:
    """A call that takes from a process what a log's run has to do without; None for nothing."""

    def set_limits() -> None:
        if "disk" in head:
            most = int(head["disk"][0])
            resource.setrlimit(resource.RLIMIT_FSIZE, (most, most))
        if "folder" in head:
            LIBC.prctl(PR_CAPBSET_DROP, CAP_DAC_OVERRIDE, 0, 0, 0)

    return set_limits if head.keys() & {"disk", "folder"} else None


def read_by(head: Head, key: str, top: str) -> list[str]:
    """The files that a head names to be read, each of which has to end."""
    paths = [os.path.join(top, it) for it in head.get(key, [])]
    for path in paths:
        if os.path.exists(path) and not os.path.isfile(path):
            raise ValueError(f"{os.path.relpath(path, top)} is no regular file")
    return paths


def call(program: str, log: Log, seconds: float, folder: str = "") -> tuple[int, bytes]:
    """Calls the program, and gives its status and all that it prints."""
    head, top = log.head, log.suite.top
    words, stdout = ([it.replace(OWN, f"{folder}/") for it in words]
                     for words in (log.words, head.get("stdout", [os.devnull])))
    piped = b"".join(map(content, read_by(head, "stdin", top)))
    with open(stdout[0], "wb") as file:
        # If the disk is full a write returns an error, and there is no signal.
        ran = subprocess.run(
            [program, *words], cwd=top, timeout=seconds, input=piped,
            stdout=file if "stdout" in head else subprocess.PIPE, stderr=subprocess.PIPE,
            preexec_fn=limits(head), restore_signals="disk" not in head)
    return ran.returncode, (ran.stdout or b"") + ran.stderr


def fill(folder: str, head: Head, top: str) -> None:
    """Puts into the folder of a run what the head of its log says is there."""
    for path in read_by(head, "copies", top):
        copy = shutil.copy(path, folder)
        if "mode" in head:
            os.chmod(copy, int(head["mode"][0], 8))
    if "link" in head:
        name, leads_to = head["link"]
        os.symlink(leads_to, f"{folder}/{name}")
    if head.get("folder") == ["read-only"]:
        os.chmod(folder, READ_ONLY)


def left_in(folder: str, head: Head) -> Iterator[bytes]:
    """Each file of a run's folder, below a line with its name."""
    for name in sorted(os.listdir(folder)):
        path = f"{folder}/{name}"
        if os.path.islink(path):
            yield os.fsencode(f"== {OWN}{name}, a link to {os.readlink(path)}\n")
            continue
        mode = f", mode {stat.S_IMODE(os.stat(path).st_mode):o}" if "mode" in head else ""
        yield os.fsencode(f"== {OWN}{name}{mode}\n") + content(path)


def play(program: str, log: Log, seconds: float) -> tuple[bytes, int]:
    """What a log's run prints, with the files that it leaves, and its status."""
    head = log.head
    named = [*log.words, *head.get("stdout", [])]
    if not (head.keys() & {"copies", "link", "folder"} or any(OWN in it for it in named)):
        status, said = call(program, log, seconds)
        return said, status
    with tempfile.TemporaryDirectory() as folder:
        try:
            fill(folder, head, log.suite.top)
            status, said = call(program, log, seconds, folder)
            said += b"".join(left_in(folder, head))
        finally:
            os.chmod(folder, stat.S_IRWXU)
    return said.replace(f"{folder}/".encode(), OWN.encode()), status


def command_line(program: str, log: Log) -> str:
    """The run of a log as a line for a shell; what a shell can't do is said in a comment."""
    head, own = log.head, '"$own"'
    words = " ".join(quote(it).replace(OWN, f"{own}/") for it in [program, *log.words])
    words += "".join(f" {mark} {quote(head[it][0]).replace(OWN, f'{own}/')}"
                     for it, mark in REDIRECTED.items() if it in head)
    steps = ["own=$(mktemp -d)"] if own in words else []
    for file in head.get("copies", []):
        steps.append(f"cp {quote(file)} {own}")
        if "mode" in head:
            steps.append(f"chmod {quote(head['mode'][0])} {own}/{quote(os.path.basename(file))}")
    if "link" in head:
        link, leads_to = map(quote, head["link"])
        steps.append(f"ln -s {leads_to} {own}/{link}")
    notes = (f"  # {key}: {' '.join(head[key])}" for key in UNDONE if key in head)
    return " && ".join([*steps, words]) + "".join(notes)
