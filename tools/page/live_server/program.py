"""Runs of the program. Texts are handed to it in memory, so that no file is written for it.

    program = Program("/usr/bin/cave")
    cave = Given("caves/shoal.txt", content)
    program.said("check", cave, "--print", "names")
"""

import os
import subprocess
from typing import NamedTuple

from cave_walk.steps import Stop

SECONDS = 120  # that a run may take
LOST = 127


class Given:
    """A text in memory, with a path by which a program that is started with it can read it."""

    def __init__(self, name: str, content: bytes = b"") -> None:
        self.name = name
        self.number = os.memfd_create("cave")
        self.path = f"/dev/fd/{self.number}"
        with open(self.number, "wb", closefd=False) as file:
            file.write(content)

    def content(self) -> bytes:
        return os.pread(self.number, os.fstat(self.number).st_size, 0)

    def __enter__(self) -> "Given":
        return self

    def __exit__(self, *_: object) -> None:
        os.close(self.number)


Word = str | Given


class Program(NamedTuple):
    path: str

    def said(self, *words: Word) -> bytes:
        """What a run prints. If it fails, a Stop says what the program said, and has its status."""
        given = [it for it in words if isinstance(it, Given)]
        command = [self.path, *(it if isinstance(it, str) else it.path for it in words)]
        try:
            # A session of its own, so that Ctrl-C on the terminal ends only the server.
            ran = subprocess.run(command, stdin=subprocess.DEVNULL, capture_output=True,
                                 timeout=SECONDS, start_new_session=True,
                                 pass_fds=[it.number for it in given])
        except OSError as error:
            raise Stop(f"{self.path} can't be run: {error.strerror}", LOST) from None
        except subprocess.TimeoutExpired:
            raise Stop(f"the program takes longer than {SECONDS} seconds", LOST) from None
        if ran.returncode:
            message = ran.stderr.decode(errors="replace").rstrip("\n")
            for it in sorted(given, key=lambda it: it.number, reverse=True):
                message = message.replace(it.path, it.name)
            raise Stop(message or f"the program ended with status {ran.returncode}", ran.returncode)
        return ran.stdout
