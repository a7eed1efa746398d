"""A server of `tools/page/live` as a module, for its tests: started on a copy of a log, and asked.

    with Served(program, [*SHOAL, *SEED], log=b"no\\n") as server:
        status, events = server.post("change", {"number": 0, "edits": [..]})
        server.walk.put(events)
"""

import json
import signal
import subprocess
import sys
import tempfile
from contextlib import closing
from http.client import HTTPConnection, HTTPResponse
from urllib.parse import urlsplit

from common.files import TOP, bytes_of, write

SHOAL = [f"{TOP}/caves/shoal.txt", "--bind", f"{TOP}/caves/shoal.bind"]
TOUR, SEED = f"{TOP}/logs/tour.log", ["--seed", "3"]
FULL, FULL_SEED = f"{TOP}/logs/shoal/full-score.log", ["--seed", "229"]
SECONDS = 60
Head = dict[str, object]
Event = tuple[Head, list[bytes]]  # and its lines of a walk


class Walk:
    """A walk as a page has it: with what events say put in."""

    def __init__(self) -> None:
        self.number, self.opening, self.lines = -1, b"", list[bytes]()

    def put(self, events: list[Event]) -> None:
        """Puts what events say into the walk, by what the manual says about them."""
        for head, lines in events:
            if head.get("kind") == "whole":
                self.opening, self.lines = lines[0], lines[1:]
            elif "from" in head:
                self.patch(head, lines)
            self.number = int(str(head.get("number", self.number)))

    def patch(self, head: Head, lines: list[bytes]) -> None:
        start, until, was, turns, others = (
            int(str(head[it])) for it in ("from", "until", "was", "turns", "others"))
        if head["opening"]:
            self.opening, lines = lines[0], lines[1:]
        put, changed = lines[:len(lines) - others], lines[len(lines) - others:]
        later = [moved(it, until - was, turns) for it in self.lines[was:]]
        self.lines = [*self.lines[:start], *put, *later]
        for line in changed:
            self.lines[json.loads(line)["place"]] = line

    def text(self) -> bytes:
        return b"".join(it + b"\n" for it in (self.opening, *self.lines))

    def texts(self) -> list[str]:
        return [json.loads(it)["line"] for it in self.lines]


def moved(line: bytes, places: int, turns: int) -> bytes:
    """A line of a walk at another place, after more turns."""
    told = json.loads(line)
    for form, more in (('"place":{},', places), (',"turns":{},', turns)):
        old = told[form.split('"')[1]]
        line = line.replace(form.format(old).encode(), form.format(old + more).encode(), 1)
    return line


def events_of(content: bytes) -> list[Event]:
    rows, events = content.split(b"\n")[:-1], []
    while rows:
        head = json.loads(rows.pop(0))
        events.append((head, rows[:head["lines"]]))
        rows = rows[head["lines"]:]
    return events


class Served:
    """A server that runs until the `with` ends, with a copy of its log in a folder of its own."""

    def __init__(self, program: str, words: list[str], *, log: bytes = b"",
                 name: str = "tour.log") -> None:
        self.room = tempfile.TemporaryDirectory(prefix="live-")
        self.path = write(f"{self.room.name}/{name}", log)
        self.program, self.words = program, [words[0], self.path, *words[1:]]
        self.command = [sys.executable, f"{TOP}/tools/page/live", *self.words, "--program", program,
                        "--no-browser"]
        self.walk, self.errors = Walk(), ""

    def __enter__(self) -> "Served":
        self.process = subprocess.Popen(
            self.command, stdout=subprocess.PIPE, stderr=subprocess.PIPE, text=True,
            cwd=self.room.name)
        assert self.process.stdout
        self.address = self.process.stdout.readline().strip().rpartition(": ")[2]
        if not self.address:
            raise RuntimeError(f"the server says: {self.process.communicate()[1]}")
        parts = urlsplit(self.address)
        self.host, self.token = parts.netloc, parts.path.strip("/")
        self.walk.put(events_of(self.got("walk")))
        return self

    def __exit__(self, *how: object) -> None:
        self.end()
        self.room.cleanup()

    def end(self, how: signal.Signals = signal.SIGINT) -> int:
        """Ends the server by a signal, and gives its status."""
        if self.process.poll() is None:
            self.process.send_signal(how)
        self.errors += self.process.communicate(timeout=SECONDS)[1]
        return self.process.returncode

    # ---- asking

    def ask(self, method: str, name: str, content: bytes | None = None, *, token: str | None = None,
            headers: dict[str, str] | None = None) -> tuple[HTTPResponse, bytes]:
        path = f"/{self.token if token is None else token}/{name}"
        with closing(HTTPConnection(self.host, timeout=SECONDS)) as connection:
            connection.request(method, path, content, headers or {})
            answer = connection.getresponse()
            return answer, answer.read()

    def got(self, name: str) -> bytes:
        return self.ask("GET", name)[1]

    def post(self, name: str, said: object) -> tuple[int, list[Event]]:
        """The answer of this server to a page, as events."""
        headers = {"Content-Type": "application/json", "Origin": f"http://{self.host}"}
        answer, content = self.ask("POST", name, json.dumps(said).encode(), headers=headers)
        return answer.status, events_of(content)

    def told(self, name: str, **said: object) -> tuple[int, Head]:
        """The same as a page does it: the answer is put into the walk."""
        status, events = self.post(name, said | {"number": self.walk.number})
        if status == 200:
            self.walk.put(events)
        return status, events[-1][0] if events else {}

    def change(self, *edits: Head) -> tuple[int, Head]:
        return self.told("change", edits=edits)

    def file(self) -> bytes:
        return bytes_of(self.path)

    def played(self, log: bytes | None = None, seed: str = "") -> bytes:
        """The walk of the held log, or of another, as the program itself prints it."""
        cave, _, *options = self.words
        if seed:
            options[options.index("--seed") + 1] = seed
        with tempfile.NamedTemporaryFile() as file:
            write(file.name, self.got("log") if log is None else log)
            words = [self.program, "play", cave, file.name, *options, "--print", "walk"]
            return subprocess.run(words, capture_output=True, check=True).stdout


def tour(program: str) -> Served:
    return Served(program, [*SHOAL, *SEED], log=bytes_of(TOUR))
