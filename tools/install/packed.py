"""What users get of the program, as a tree of files, and what says by which commit it was proved.

    build = packed.Build(program, is_given, keeps_symbols)
    tree = packed.tree(build, is_debian)           # File by its path below a prefix, in its order
    packed.put(tree, prefix)
"""

import gzip
import hashlib
import os
import re
import shutil
import subprocess
import sys
import tempfile
import textwrap
from contextlib import suppress
from datetime import datetime, timezone
from typing import NamedTuple

import manual
from common import versions
from common.files import TOP, bytes_of, files, ran_in, text_of, write

NAME, SYSTEM = "cave-logs", "linux-x86_64"
SHARE, DOCS = "share/cave", f"share/doc/{NAME}"
MAINTAINER = "Rackshoal maintainers <maintainers@users.noreply.rackshoal.example>"
TRUSTED = re.compile(r"proved with `([^`]+)`")
# The tools of users by their names, and where their scripts are.
TOOLS = {"cave-suite": "tools/install/cave-suite", "cave-live": "tools/page/live",
         "cave-page": "tools/page/page", "cave-chart": "tools/page/chart"}
NEIGHBOUR = 'sys.path.append(f"{sys.path[0]}/..")  # for `common`\n\n'  # is beside them there
# What is put as it is: below which folder it lies, below which one of a prefix it's put, and what.
COPIED = {
    (".", SHARE): ["caves/*.txt", "caves/*.bind", "logs/*.log", "logs/*.out", "logs/*.script",
                   "logs/shown/play.*", "logs/shown/edit.*", "logs/shown/edit-reports.*"],
    ("tools", SHARE): [f"common/{it}.py" for it in ("__init__", "command_line", "outputs")],
    ("tools/install", SHARE): ["cave_suite/*.py"],
    ("tools/page", SHARE): ["cave_walk/*.py", "walk_page/*", "live_server/*.py", "live_page/*"],
    ("recipes", f"{DOCS}/examples"): ["*.yml"],
}
RULES = "cave-rules(7): the rules of the games that cave plays"
PROGRAM, LINK = 0o755, 0o120777  # modes of files


class File(NamedTuple):
    """A file of a tree: what it holds, or for a link where it leads, and its mode."""

    content: bytes
    mode: int = 0o644


def said_by(*words: str) -> bytes:
    """What a command prints for a reader with lines of 80 columns, on any terminal."""
    env = os.environ | {"COLUMNS": "80", "NO_COLOR": "1"}
    return subprocess.run(words, cwd=TOP, env=env, stdout=subprocess.PIPE, check=True).stdout


def said_by_git(*words: str) -> str:
    """What git says, or nothing if there is no git, or this isn't a clone."""
    ran = ran_in(TOP, ["git", *words]) if shutil.which("git") else None
    return "" if ran is None or ran.returncode else ran.stdout.strip()


class Build:
    """A program with the commit by which it was proved, unless it was handed over. It is packed
    without its symbols, which lintian takes for an error, unless it keeps them. All packed files
    have the moment of the commit, or without git the day of the newest version."""

    def __init__(self, program: str, is_given: bool, keeps_symbols: bool = False) -> None:
        self.is_given, self.version = is_given, versions.of_program()
        self.built = self.packed = bytes_of(os.path.abspath(program))
        if self.built.startswith(b"\x7fELF") and not keeps_symbols:
            with tempfile.NamedTemporaryFile() as file:
                subprocess.run(["strip", "-o", file.name, program], check=True)
                self.packed = bytes_of(file.name)
        newest = datetime.fromisoformat(f"{versions.releases()[0].day}T00:00:00+00:00")
        self.moment = int(said_by_git("log", "-1", "--format=%ct") or newest.timestamp())
        self.day = datetime.fromtimestamp(self.moment, timezone.utc)

    def toolchain(self) -> str:
        """The toolchain that is here and built the program, otherwise the one that README names."""
        if not self.is_given and shutil.which("rt"):
            return said_by("rt", "version").decode().strip()
        named = TRUSTED.search(" ".join(text_of("README.md").split()))
        return named[1] if named else "unknown"

    def text(self) -> str:
        """What says by which commit and toolchain the program was proved."""
        commit = said_by_git("rev-parse", "HEAD")
        commit = f"{commit} of {self.day:%Y-%m-%d}" if commit else "unknown"
        if said_by_git("status", "--porcelain"):
            commit += ", with changes that aren't committed"
        rows = [("commit", commit), ("toolchain", self.toolchain()),
                ("program", f"SHA-256 {hashlib.sha256(self.packed).hexdigest()}")]
        if self.packed != self.built:
            rows += [("as built", f"SHA-256 {hashlib.sha256(self.built).hexdigest()}"),
                     ("", "The packed program is the built one without its symbols.")]
        told = [f"{name:10}{said}" for name, said in rows]
        how = filled("given" if self.is_given else "built").decode()
        return "\n".join([f"cave {self.version}, {SYSTEM}", "", *told, "", how])


def filled(path: str, **words: object) -> bytes:
    """A text of this folder without its comments, with words in place of those in braces."""
    lines = text_of(f"tools/install/{path}").splitlines(keepends=True)
    return "".join(it for it in lines if not it.startswith("#")).format(**words).encode()


def packed_small(content: bytes) -> bytes:
    """Bytes as gzip has them, without a name and a date."""
    return gzip.compress(content, 9, mtime=0)


def without_folder(text: str) -> str:
    """A script's text, in which the tools are called as users call them."""
    for name, script in TOOLS.items():
        text = re.sub(rf"\b{script}(?![\w-])", name, text)
    return text


def as_users_call_it(script: str, is_debian: bool) -> bytes:
    """A tool's script, as it is installed. With -B it writes no compiled modules beside its own,
    which Debian would never remove."""
    first, _, rest = text_of(script).replace(NEIGHBOUR, "").partition("\n")
    if "python3" not in first:
        raise ValueError(f"{script} is no script of Python")
    interpreter = "/usr/bin/python3 -B" if is_debian else "/usr/bin/env python3"
    return f"#!{interpreter}\n{without_folder(rest)}".encode()


def manual_of_tool(name: str) -> bytes:
    """The manual page of a tool, made from what it says about itself."""
    said = without_folder(said_by(sys.executable, TOOLS[name], "--help").decode())
    about, _, rest = said.partition("\n\n")
    if about.startswith("usage:"):
        about, _, rest = rest.partition("\n\n")
    rest, mark, options = rest.partition("\n\npositional arguments:")
    about = " ".join(about.split()).rstrip(".")
    page = [f"# {name}(1)", f"`{name}`: {about[:1].lower()}{about[1:]}", "## Description",
            rest.strip("\n")]
    if mark:
        page += ["## Options", textwrap.indent(f"positional arguments:{options}".rstrip(), "    ")]
    return manual.of_page("\n\n".join(page))


def manuals() -> dict[str, bytes]:
    rules = {name: text_of(f"docs/{name}") for name in ("TURN.md", "PLAY.md", "VERBS.md")}
    return {"cave.1": manual.of_page(text_of("docs/PROGRAM.md")),
            "cave-formats.5": manual.of_page(text_of("docs/FORMATS.md")),
            "cave-messages.7": manual.of_page(text_of("docs/MESSAGES.md")),
            "cave-rules.7": manual.of_pages(RULES, rules),
            **{f"{name}.1": manual_of_tool(name) for name in TOOLS}}


def debian_changelog() -> bytes:
    parts = []
    for release in versions.releases():
        day = datetime.fromisoformat(release.day)
        points = (textwrap.fill(f"{kind}: {said.replace('`', '')}", 76, initial_indent="  * ",
                                subsequent_indent="    ") for kind, said in release.changes)
        parts += [f"{NAME} ({release.version}) unstable; urgency=medium", "\n".join(points),
                  f" -- {MAINTAINER}  {day:%a, %d %b %Y} 00:00:00 +0000"]
    return "\n\n".join([*parts, ""]).encode()


def texts(build: Build, is_debian: bool) -> dict[str, bytes]:
    """What is made for a package, by paths below a prefix: manuals, completions, and what tells of
    the program. Debian has manuals and changes in its own way, and zsh looks elsewhere there."""
    found = {f"share/man/man{name[-1]}/{name}": text for name, text in manuals().items()}
    if is_debian:
        found[f"{DOCS}/changelog"] = debian_changelog()
        found = {f"{path}.gz": packed_small(text) for path, text in found.items()}
    else:
        found[f"{DOCS}/{versions.PAGE}"] = bytes_of(versions.PAGE)
    shells = {"cave.bash": "share/bash-completion/completions/cave",
              "_cave": f"share/zsh/{'vendor-completions' if is_debian else 'site-functions'}/_cave",
              "cave.fish": "share/fish/vendor_completions.d/cave.fish"}
    found |= {to: bytes_of(f"tools/install/complete/{it}") for it, to in shells.items()}
    return found | {f"{DOCS}/BUILD": build.text().encode(),
                    f"{DOCS}/copyright": filled("copyright", year=build.day.year)}


def tree(build: Build, is_debian: bool = False) -> dict[str, File]:
    """All that users get, by paths below a prefix, in the order of these paths. A tool below bin/
    is a link to its script, which lies beside its modules."""
    found = {"bin/cave": File(build.packed, PROGRAM)}
    for name, script in TOOLS.items():
        found[f"bin/{name}"] = File(f"../{SHARE}/{name}".encode(), LINK)
        found[f"{SHARE}/{name}"] = File(as_users_call_it(script, is_debian), PROGRAM)
    for (below, to), patterns in COPIED.items():
        found |= {f"{to}/{os.path.relpath(path, below)}": File(bytes_of(path))
                  for path in files(*(f"{below}/{it}" for it in patterns))}
    found |= {path: File(text) for path, text in texts(build, is_debian).items()}
    return dict(sorted(found.items()))


def sums_of(tree: dict[str, File], kind: str = "sha256") -> bytes:
    """The checksum of each file of a tree, as `sha256sum --check` reads them."""
    return "".join(f"{hashlib.new(kind, it.content).hexdigest()}  {path}\n"
                   for path, it in tree.items() if it.mode != LINK).encode()


def put(tree: dict[str, File], folder: str) -> None:
    """Puts a tree into a folder, with permissions of its own: all may enter a new folder."""
    mask = os.umask(0o022)
    try:
        for path, it in tree.items():
            to = f"{folder}/{path}"
            os.makedirs(os.path.dirname(to), exist_ok=True)
            with suppress(FileNotFoundError):
                os.remove(to)
            if it.mode == LINK:
                os.symlink(it.content, to)
            else:
                os.chmod(write(to, it.content), it.mode)
    finally:
        os.umask(mask)
