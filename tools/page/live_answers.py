"""What a server of `tools/page/live` answers over HTTP; used by tools/page/test."""

import os
import random
import signal
import socket
import subprocess
import threading
import time
from concurrent.futures import ThreadPoolExecutor
from contextlib import suppress
from http.client import HTTPException
from typing import Any

from common.files import bytes_of, write
from common.parts import Checks
from served import FULL, FULL_SEED, SEED, SHOAL, TOUR, Head, Served, tour

WORDS = ["e", "w", "n", "take lamp", "drop lamp", "look", "# a remark", "", "inventory", "plugh",
         "seed 7", "drop vase", "take vase", "score", "no", "yes", "  in  ", "mareel"]
SAVES = {"Content-Type": "application/json"}
DELETE = b'{"number":0,"edits":[{"kind":"delete","place":0}]}'
MALFORMED = [b"", b"[]", b"{", b"[" * 100_000, b'{"number":0}', b'{"number":0,"edits":[]}',
             DELETE.replace(b"delete", b"eat"), DELETE.replace(b"0}", b"-1}"),
             DELETE.replace(b"0}", b"true}"), DELETE.replace(b":0,", b':"0",'),
             *(b'{"number":0,"edits":[{"kind":"insert","place":1,"text":"%s","was":"%s"}]}' % it
               for it in ((b"a\\nb", b""), (b"\\ud800", b""), (b"", b"a\\udfffb"),
                          (b"\xed\xa0\x80", b"")))]  # halves of a character
HELD_ON, LONGEST = 40, 8.0  # connections, and seconds until they are all closed


def pillow(server: Served) -> tuple[int, Head]:
    """The change that breaks the vase: its pillow isn't taken."""
    return server.change({"kind": "delete", "place": 9, "was": "take pillow"})


def insert(place: int, text: str) -> Head:
    return {"kind": "insert", "place": place, "text": text}


# ---- who is answered

def strangers(server: Served) -> Checks:
    """No one without the token, from another page or by another name gets an answer."""
    home, other = f"http://{server.host}", "http://evil.example"
    yield "the address", server.host.partition(":")[0], "127.0.0.1"
    answer, page = server.ask("GET", "")
    yield "the page", [answer.status, b"default-src &#x27;none&#x27;" in page], [200, True]
    yield "nobody keeps the page", answer.headers["Cache-Control"], "no-store"
    asks: list[tuple[str, str, int, dict[str, Any]]] = [
        ("GET", "walk", 404, {"token": "x" * 32}), ("GET", "walk", 404, {"token": ""}),
        *(("GET", "walk", 404, {"headers": it}) for it in [
            {"Host": "evil.example"}, {"Host": "127.0.0.1:1"}, {"Origin": other},
            {"Sec-Fetch-Site": "cross-site"}]),
        *(("POST", "change", 404, {"content": DELETE, "headers": it}) for it in [
            SAVES, SAVES | {"Origin": other}, {"Origin": home, "Content-Type": "text/plain"},
            SAVES | {"Origin": other, "Host": "evil.example"}]),
        *((it, "walk", 501, dict[str, Any]()) for it in ("PUT", "DELETE", "OPTIONS", "TRACE"))]
    for method, name, status, asked in asks:
        answer, content = server.ask(method, name, **asked)
        yield f"{method} {name}, {asked}: nothing is answered", [answer.status, content], [
            status, b""]
    for name in ("../walk", "walk/", "static/x", "Walk", "%2e%2e/walk"):
        yield f"{name} isn't there", server.ask("GET", name)[0].status, 404
    yield "the log is as it was", server.got("log"), server.file()


def holding_on(server: Served) -> Checks:
    """Those who send a byte now and then, and never the token, lock no page out."""
    host, _, port = server.host.partition(":")
    held, begun = dict[socket.socket, bytes](), time.monotonic()
    for at in range(HELD_ON):
        head = b"GET /" if at % 2 else b"GET /x HTTP/1.1\r\n"
        held[socket.create_connection((host, int(port)))] = head
    page = b""
    while (held or not page) and time.monotonic() - begun < 2 * LONGEST:
        for it in [*held]:
            try:
                it.sendall(held[it])
                held[it] = b"x" if held[it][-1:] != b"\n" else b"x: y\r\n"
                it.settimeout(0.01)
                is_closed = it.recv(1) == b""
            except TimeoutError:
                continue
            except OSError:
                is_closed = True
            if is_closed:
                it.close()
                del held[it]
        with suppress(OSError, HTTPException):
            page = page or server.got("")
        time.sleep(0.2)
    yield "all of them are closed in time", [len(held), time.monotonic() - begun < LONGEST], [
        0, True]
    yield "a page is answered", b"tour.log" in page, True
    waiting = threading.Thread(target=server.got, args=[f"news?after={server.walk.number}"])
    waiting.start()
    waiting.join(LONGEST)
    yield "whoever has the token may wait longer", waiting.is_alive(), True
    yield "and gets what another page does", pillow(server)[0], 200
    waiting.join(LONGEST)
    yield "then", waiting.is_alive(), False
    yield "nothing is said of it", [server.end(), server.errors.count("\n")], [0, 1]


def wrong_requests(server: Served) -> Checks:
    """What no page sends is refused, and changes nothing."""
    ours = SAVES | {"Origin": f"http://{server.host}"}
    for body in MALFORMED:
        answer, content = server.ask("POST", "change", body, headers=ours)
        yield f"{body[:40]!r}", [answer.status, b"malformed" in content], [400, True]
    large = ours | {"Content-Length": "4000024"}
    yield "what is too large", server.ask("POST", "change", headers=large)[0].status, 400
    yield "news of no number", server.ask("GET", "news?after=x")[0].status, 400
    yield "the log is as it was", server.got("log"), server.file()


# ---- changes

def changes(server: Served) -> Checks:
    """The tour without its pillow: the vase breaks. Taken back, all is as it was."""
    yield "the walk", server.walk.text(), server.played(server.file())
    status, head = pillow(server)
    yield "the change", [status, head["score"], head["unsaved"]], [200, 59, True]
    yield "the walk is that of the changed log", server.walk.text(), server.played()
    facts = head["facts"]
    assert isinstance(facts, dict)
    yield "what is otherwise", [it for it in facts["come"] if "VASE" in it][0], (
        "object 58 VASE: at 3, fixed, prop 2")
    yield "its script", server.got("script"), b"expect 9 take pillow\ndelete 9\n"
    yield "what takes it back", server.got("undo"), b"expect 9 se\ninsert 9 take pillow\n"
    yield "the file is as it was", server.file() == server.got("log"), False
    _, head = server.told("go", count=0)
    yield "taken back", [head["score"], head["unsaved"], head["done"]], [73, False, 0]
    yield "the log is as it was", server.got("log"), server.file()
    yield "no more to take back", server.told("go", count=0)[0], 409
    _, head = server.told("go", count=1)
    yield "made again", [head["score"], head["done"]], [59, 1]
    _, head = server.change({"kind": "seed", "place": 99})
    yield "another seed", head["seed"], "99"
    yield "the walk with it", server.walk.text(), server.played(seed="99")


def refusals(server: Served) -> Checks:
    """What the program refuses is reported in its words, and changes nothing."""
    was = server.walk.texts()[0]
    typed: Head = {"kind": "replace", "place": 0, "was": was}
    edits: list[tuple[str, Head, str]] = [
        ("a line that is too long", typed | {"text": "x" * 256}, "a bad line"),
        ("a byte that no line has", typed | {"text": "caf\u00e9"}, "a bad line"),
        ("a tab is fine, a bell isn't", typed | {"text": "a\tb\x07"}, "a bad line"),
        ("another line", typed | {"text": "no", "was": "yes"}, f"another line: {was}"),
        ("no such line", {"kind": "delete", "place": 99}, "no such line"),
        ("a bad seed", {"kind": "seed", "place": 2_147_483_648}, "a bad seed")]
    for what, edit, wanted in edits:
        status, head = server.change(edit)
        yield what, [status, wanted in str(head["message"])], [422, True]
    wrong = [insert(0, "look"), {"kind": "delete", "place": 99}]
    yield "a group with one wrong edit", server.change(*wrong)[0], 422
    yield "the log is as it was", server.got("log"), server.file()
    yield "no change is listed", server.got("script"), b""
    yield "too many lines", server.change(*[insert(0, "look")] * 65_535)[0], 422
    yield "the log is still as it was", server.got("log"), server.file()


def at_random(program: str, count: int) -> Checks:
    """Random changes, undos and redos: all the time the walk is that of the held log."""
    chance, refused = random.Random(67), 0
    with Served(program, [*SHOAL, *FULL_SEED], log=bytes_of(FULL), name="full.log") as server:
        for at in range(count):
            refused += random_change(chance, server) != 200
            if at % 10 == 9:
                yield f"the walk after {at + 1}", server.walk.text(), server.played()
        yield "most of them are made", refused < count / 3, True
        held = server.got("log")
        yield "saved", server.told("save", told=False)[0], 200
        yield "the file", server.file(), held
        yield "played from its first line", server.walk.text(), server.played(server.file())
        server.told("go", count=0)
        yield "all taken back", server.got("log"), bytes_of(FULL)


def random_change(chance: random.Random, server: Served) -> int:
    """A change, an undo or a redo; its status."""
    texts = server.walk.texts()
    place = chance.randrange(len(texts))
    kind = chance.choice(["insert", "delete", "replace", "go", "group"])
    edits: list[Head] = [{"kind": kind, "place": place, "was": texts[place],
                          "text": chance.choice(WORDS)}]
    if kind == "go":
        return server.told("go", count=chance.randrange(12))[0]
    if kind == "group":
        edits = [insert(place + at, chance.choice(WORDS)) for at in range(chance.randrange(2, 6))]
        edits.append({"kind": "delete", "place": place})
    return server.change(*edits)[0]


def two_pages(server: Served) -> Checks:
    """Two pages of one log: each gets what the other does, and can't change what it doesn't
    know."""
    number = server.walk.number
    with ThreadPoolExecutor() as pool:
        waiting = pool.submit(server.got, f"news?after={number}")
        yield "the change is made", pillow(server)[0], 200
        told = waiting.result(60)
    yield "the other page gets the change", b'"kind":"change"' in told, True
    status, events = server.post("change", {"number": number, "edits": [
        {"kind": "delete", "place": 0, "was": server.walk.texts()[0]}]})
    yield "who doesn't know it can't change it", [status, events[0][0]["kind"]], [409, "stale"]
    yield "news of long ago", b'"kind":"change"' in server.got(f"news?after={number}"), True
    yield "news of another server", b'"kind":"reload"' in server.got("news?after=99"), True


# ---- the file

def saving(server: Served) -> Checks:
    """The log is put into its file whole, and not over what someone else put there."""
    pillow(server)
    held, opened = server.got("log"), server.file()
    status, head = server.told("save", told=False)
    yield "saved", [status, head["unsaved"], server.file()], [200, False, held]
    write(server.path, opened + b"look\n")
    server.told("go", count=0)
    status, head = server.told("save", told=False)
    yield "not over another file", [status, head["kind"]], [409, "changed"]
    yield "which is as it was", server.file(), opened + b"look\n"
    status, _ = server.told("save", told=True)
    yield "unless that is asked for", [status, server.file()], [200, opened]
    yield "no other file", os.listdir(server.room.name), ["tour.log"]
    yield "the end", [server.end(), server.errors], [0, ""]
    yield "no draft", os.listdir(server.room.name), ["tour.log"]


def line_ends(program: str) -> Checks:
    """Lines keep their ends, and a last line without one is kept."""
    for log in (b"no\r\ne\r\ntake lamp\r\n", b"no\ne\ntake lamp", b"", b"no"):
        with Served(program, [*SHOAL, *SEED], log=log) as server:
            place = len(server.walk.lines)
            server.change(insert(place, "look"))
            server.change(insert(0, "# first"))
            server.told("save", told=False)
            end = b"\r\n" if b"\r" in log else b"\n"
            yield f"{log!r}: each line ends as before", server.file().count(end) >= place, True
            yield f"{log!r}: the file is the log", server.file(), server.got("log")
            server.told("go", count=0)
            yield f"{log!r}: taken back", server.got("log"), log


def ends(program: str) -> Checks:
    """However the server ends, changes aren't lost, and the file is as it was."""
    for how in (signal.SIGINT, signal.SIGTERM, signal.SIGHUP):
        with tour(program) as server:
            pillow(server)
            held, opened = server.got("log"), server.file()
            yield f"{how.name}: the status", server.end(how), 0
            draft = f"{server.path}.unsaved"
            yield f"{how.name}: where the draft is", server.errors.strip().endswith(draft), True
            yield f"{how.name}: the draft", bytes_of(draft), held
            yield f"{how.name}: the file", server.file(), opened
    with tour(program) as server:
        status, head = server.told("end")
        yield "told to end on the page", [status, head["kind"], server.process.wait(30)], [
            200, "ended", 0]
    with tour(program) as server:
        opened = server.file()
        with ThreadPoolExecutor() as pool:
            pool.submit(pillow, server)  # which may get no answer
            server.end(signal.SIGTERM)
        yield "in the middle of a change: the file", server.file(), opened
        left = [it for it in os.listdir(server.room.name) if it != "tour.log"]
        yield "and one draft at most", left in ([], ["tour.log.unsaved"]), True


def beginnings(program: str) -> Checks:
    """What can't be served isn't: the program's own line, and its status."""
    for what, words, log, status in [
            ("a log that is refused", SHOAL, b"no\n\x01\n", 3),
            ("a cave that isn't there", ["nowhere.txt"], b"no\n", 5),
            ("a cave that is refused", [TOUR], b"no\n", 1),
            ("a bad seed", [*SHOAL, "--seed", "x"], b"no\n", 2),
            ("a port that is none", [*SHOAL, "--port", "99999"], b"no\n", 2)]:
        server = Served(program, words, log=log)
        ran = subprocess.run(server.command, capture_output=True, text=True, timeout=60)
        yield f"{what}: the status", ran.returncode, status
        yield f"{what}: nothing is served", [ran.stdout, bool(ran.stderr)], ["", True]
        yield f"{what}: no path of the server's own", "/dev/fd" in ran.stderr, False
        server.room.cleanup()


TOURS = {"strangers": strangers, "holding on": holding_on, "wrong requests": wrong_requests,
         "changes": changes, "refusals": refusals, "two pages": two_pages, "saving": saving}
PARTS = {"line ends": line_ends, "ends": ends, "beginnings": beginnings}
