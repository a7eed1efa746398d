"""Names scripts that don't answer `--help` as they should.

Each script of tools/, logs/, logs/tools/ and model/ is run with `--help`. It has to print the first
lines of its comment, say nothing on standard error, and end with status 0 within seconds. Each
target of the Makefile has to have a sentence in `make help`, which is the first.
"""

import os
import re
import subprocess
from collections.abc import Iterator
from concurrent.futures import ThreadPoolExecutor

from common.files import TOP, files, match_in, text_of

FOLDERS = ("tools/*/*", "logs/*", "logs/tools/*", "model/*")
COMMENT = re.compile(r'^#!.*\n(?:"""(?s:(.+?))(?:\n\n|""")|((?:#.*\n)*))')  # its first lines
SECONDS = 20


def faults_of(script: str) -> list[str]:
    """What is wrong with the answer of a script."""
    comment = match_in(COMMENT, text_of(script))
    about = re.sub("(?m)^# ?", "", comment[1] or comment[2]).split()
    try:
        ran = subprocess.run([f"{TOP}/{script}", "--help"], capture_output=True, text=True,
                             timeout=SECONDS, stdin=subprocess.DEVNULL,
                             env=os.environ | {"PYTHONDONTWRITEBYTECODE": "1"})
    except (subprocess.TimeoutExpired, OSError) as wrong:
        return [f"{script} --help: {wrong}"]
    is_told = about and " ".join(about) in " ".join(ran.stdout.split())
    return [f"{script} --help {it}" for it, is_wrong in (
        (f"ends with status {ran.returncode}", ran.returncode),
        (f"says on standard error: {ran.stderr}", ran.stderr),
        ("doesn't print the first lines of its comment", not is_told)) if is_wrong]


def faults() -> Iterator[str]:
    asked = [it for it in files(*FOLDERS)
             if os.path.isfile(f"{TOP}/{it}") and text_of(it).startswith("#!")]
    with ThreadPoolExecutor() as pool:
        yield from sum(pool.map(faults_of, asked), [])
    yield from ["no script"] * (not asked)
    text = text_of("Makefile")
    told = re.findall(r"(?m)^([a-z]+):.*## \S", text)
    yield from (f"Makefile: `make help` says nothing of {it}"
                for it in match_in(r"(?m)^\.PHONY: (.*)$", text)[1].split() if it not in told)
    if match_in(r"(?m)^([a-z]+):", text)[1] != "help":
        yield "Makefile: the first target isn't help"
