"""The server: only on the loopback address, and only for pages that have its token."""

import json
import secrets
import sys
import threading
from collections.abc import Callable
from contextlib import suppress
from http.server import BaseHTTPRequestHandler, ThreadingHTTPServer
from socket import SHUT_RDWR, socket
from urllib.parse import parse_qsl

from .scripts import Malformed
from .site import Answer, Site, told

HOST = "127.0.0.1"
MOST_SENT = 4_000_000  # bytes of what a page sends
MOST_AT_ONCE = 32  # connections
SECONDS = 30  # that the connection of a page may be silent
HEAD_SECONDS = 5  # in which a connection has to show the token, whatever it sends
HEADERS = {
    "Cache-Control": "no-store", "Referrer-Policy": "no-referrer",
    "X-Content-Type-Options": "nosniff", "X-Frame-Options": "DENY",
    "Cross-Origin-Resource-Policy": "same-origin", "Cross-Origin-Opener-Policy": "same-origin"}
UNQUOTED = {ord(it): "_" for it in '"\\/?'} | dict.fromkeys(range(32), "_")
Request = socket | tuple[bytes, socket]


class Server(ThreadingHTTPServer):
    """The server of a site, with the token of its addresses."""

    request_queue_size = MOST_AT_ONCE

    def __init__(self, site: Site, port: int) -> None:
        super().__init__((HOST, port), Answers)
        self.site, self.token = site, secrets.token_urlsafe(24)
        self.hosts = [f"{HOST}:{self.server_port}", f"localhost:{self.server_port}"]
        self.address = f"http://{self.hosts[0]}/{self.token}/"
        self.room = threading.BoundedSemaphore(MOST_AT_ONCE)

    def process_request(self, request: Request, client: object) -> None:
        """Serves a connection, unless there are too many."""
        if self.room.acquire(blocking=False):
            super().process_request(request, client)
        else:
            self.shutdown_request(request)

    def process_request_thread(self, request: Request, client: object) -> None:
        try:
            super().process_request_thread(request, client)
        finally:
            self.room.release()

    def handle_error(self, request: Request, client: object) -> None:
        """A page that goes away before its answer is complete isn't a fault."""
        if not isinstance(sys.exc_info()[1], (ConnectionError, TimeoutError)):
            super().handle_error(request, client)


class Answers(BaseHTTPRequestHandler):
    """Answers what comes over a connection."""

    protocol_version, timeout = "HTTP/1.1", SECONDS
    server: Server

    def setup(self) -> None:
        """Begins the time for the token. That of the library begins again with each byte."""
        super().setup()
        self.limit = threading.Timer(HEAD_SECONDS, self.drop)
        self.limit.daemon = True
        self.limit.start()

    def finish(self) -> None:
        self.limit.cancel()
        super().finish()

    def drop(self) -> None:
        with suppress(OSError):  # it has just ended
            self.connection.shutdown(SHUT_RDWR)

    def version_string(self) -> str:
        return "cave-live"

    def log_message(self, format: str, *_: object) -> None:
        """Nothing is logged."""

    def send_error(self, code: int, message: str | None = None, explain: str | None = None) -> None:
        """What isn't understood gets just a status as its answer."""
        self.answer(None, code)

    def name(self) -> str | None:
        """What is asked for, below the token; None if it may not be asked for."""
        hosts: list[str] = self.headers.get_all("Host", [])
        origins: list[str] = self.headers.get_all("Origin", [])
        path = self.path.partition("?")[0].split("/")
        is_allowed = (
            len(path) == 3 and len(hosts) == 1 and hosts[0] in self.server.hosts
            and all(it == f"http://{hosts[0]}" for it in origins) and len(origins) < 2
            and self.headers.get("Sec-Fetch-Site", "none") in ("none", "same-origin")
            and secrets.compare_digest(path[1].encode(), self.server.token.encode()))
        if not is_allowed:
            return None
        self.limit.cancel()
        return path[2]

    def do_GET(self) -> None:  # noqa: N802, by the name that the library wants
        query = self.path.partition("?")[2]
        self.find(lambda name: self.server.site.get(name, dict(parse_qsl(query))))

    def do_POST(self) -> None:  # noqa: N802
        self.find(lambda name: self.server.site.post(name, self.sent()) if name else None)

    def find(self, found: Callable[[str], Answer | None]) -> None:
        """Answers with what is found by a name, for whoever may ask for it."""
        name = self.name()
        is_asked = name is not None and (self.command == "GET" or self.is_ours())
        try:
            self.answer(found(name or "") if is_asked else None)
        except Malformed as wrong:
            self.answer(told(400, "malformed", str(wrong)))

    def is_ours(self) -> bool:
        """Whether what is sent comes from a page of this server: browsers say so."""
        kind = self.headers.get("Content-Type", "").partition(";")[0].strip()
        return "Origin" in self.headers and kind == "application/json"

    def sent(self) -> dict[str, object]:
        """What a page sends, one object of JSON, which isn't larger than a change may be."""
        length = self.headers.get("Content-Length", "")
        if not length.isdecimal() or len(length) > 9 or int(length) > MOST_SENT:
            self.close_connection = True
            raise Malformed("what is sent is too large, or has no length")
        try:
            said = json.loads(self.rfile.read(int(length)))
        except (ValueError, RecursionError):
            raise Malformed("a page sends JSON") from None
        if not isinstance(said, dict):
            raise Malformed("a page sends an object")
        return said

    def answer(self, answer: Answer | None, status: int = 404) -> None:
        """Sends an answer; just a status if there is none."""
        given = answer or Answer(b"", status=status)
        self.close_connection |= answer is None
        self.send_response(given.status)
        for name, value in HEADERS.items():
            self.send_header(name, value)
        if answer:
            self.send_header("Content-Type", given.kind)
        if self.close_connection:
            self.send_header("Connection", "close")
        if given.file:
            name = given.file.encode("ascii", "replace").decode().translate(UNQUOTED)
            self.send_header("Content-Disposition", f'attachment; filename="{name}"')
        self.send_header("Content-Length", str(len(given.content)))
        try:
            self.end_headers()
            self.wfile.write(given.content)
        finally:
            if given.ends:
                self.server.site.ending.put(None)
