"""The run of `tools/page/live`: reads what the command line names, serves its page, and ends."""

import argparse
import os
import signal
import sys
import threading
import time
import webbrowser
from queue import SimpleQueue

from cave_walk import drawing
from cave_walk.filled import foot_of
from cave_walk.page import program_of
from cave_walk.steps import Stop, demand_output
from common import command_line

from . import views
from .answers import Server
from .held import Log
from .page import page_of
from .plays import Game
from .program import Given, Program
from .saving import Home
from .site import Site

UNWRITTEN = 6  # the status
ENDS = (signal.SIGINT, signal.SIGTERM, signal.SIGHUP)


def asked() -> argparse.Namespace:
    asks = command_line.parser("CAVE", "LOG", bind="FILE", seed="N", output="LOG2", program="FILE")
    asks.set_defaults(seed="0")
    asks.add_argument("--port", metavar="P", type=port, default=0)
    asks.add_argument("--no-browser", action="store_true")
    return asks.parse_args()


def port(text: str) -> int:
    if not text.isdecimal() or len(text) > 5 or int(text) > 65_535:
        raise argparse.ArgumentTypeError("a port is a number up to 65535")
    return int(text)


def given(path: str) -> Given:
    """A file, as it is when the server starts."""
    if os.path.exists(path) and not os.path.isfile(path):
        raise Stop(f"{path}: the file can't be read: it is no regular file", 5)
    try:
        with open(path, "rb") as file:
            return Given(path, file.read())
    except OSError as error:
        raise Stop(f"{path}: the file can't be opened: {error.strerror}", 5) from None


def site_of(said: argparse.Namespace, program: Program) -> Site:
    """What is served: the log, played, with the map of its cave, which is drawn once."""
    cave, bind = given(said.cave), given(said.bind) if said.bind else None
    game = Game(program, cave, bind)
    with given(said.log) as opened:
        held = game.play(opened, said.seed)
    home = Home(said.log, held.log, said.output)
    graph = program.said("map", cave, *game.options()).decode(errors="replace")
    known = views.words_of(game.checked("words"))
    live: dict[str, object] = {
        "file": home.to, "most": views.number_in(game.checked("maximum"), views.MAXIMUM, 0),
        "words": known, "rules": views.OF_RULES,
        "letters": views.number_in(game.checked("bindings"), views.LETTERS, 5),
        "motions": views.motions_of(graph, known)}
    command_line.demand("dot")
    drawn = drawing.of(graph)
    version = program.said("--version").decode(errors="replace")
    foot = foot_of(said.cave, said.bind or "none", version)
    return Site(Log(game, held, held.log), home, lambda: page_of(home.name, foot, drawn, live))


def serve(site: Site, at: int, opens: bool) -> None:
    try:
        server = Server(site, at)
    except OSError as error:
        raise Stop(f"port {at} can't be had: {error.strerror}", UNWRITTEN) from None
    threading.Thread(target=server.serve_forever, args=(0.1,), daemon=True).start()
    print(f"{site.home.path}: {server.address}", "Ctrl-C ends it.", sep="\n", flush=True)
    if opens:
        threading.Thread(target=webbrowser.open, args=(server.address,), daemon=True).start()
    # A signal that comes right before a longer wait wouldn't end that.
    while site.ending.empty():
        time.sleep(0.2)
    server.shutdown()
    server.server_close()


def keep(site: Site) -> None:
    """Leaves changes that aren't saved beside the log, and says where."""
    with site.log.lock:
        held = site.log.held
        if not site.log.is_unsaved:
            return
        try:
            path = site.home.draft(site.log.game, held)
            print(f"The changes aren't saved. They are in {path}", file=sys.stderr)
        except Stop as stop:
            print(stop.message, "The script of the changes that aren't saved:", sep="\n",
                  file=sys.stderr)
            print(site.log.script().decode(errors="replace"), end="", file=sys.stderr)
            raise Stop("the changes can't be kept", UNWRITTEN) from None


def main() -> int:
    said, ending = asked(), SimpleQueue[None]()
    for it in ENDS:
        signal.signal(it, lambda *_: ending.put(None))
    demand_output(said.output or said.log, said.cave, said.bind, said.program)
    site = site_of(said, Program(program_of(said.program)))
    site.ending = ending
    serve(site, said.port, not said.no_browser)
    keep(site)
    return 0
