"""Names words that are never right in what people read.

Most words that CONTRIBUTING.md lists are wrong only in one sense, and only a reader can tell. A few
are always wrong: this names each place with one of them, but for that list, in the pages, the
scripts, what help says, and the files of the crates.
"""

import os
import re
from collections.abc import Iterator

from common.files import TOP, files, text_of

LIST, OWN = "CONTRIBUTING.md", "tools/check/style.py"
NEVER = ("so many", "exactly where", "only where", "for want of", "comes of", "come of", "is told",
         "are told", "otherwise than", "or else", "memory aside", "reckon", "shall",
         "tells its bytes")
BETWEEN = r"[ #/\\]*[ \n][ #/\\]*"  # words, of which one may begin the next line of a comment
WORDS = re.compile(rf"\b(?:{'|'.join(it.replace(' ', BETWEEN) for it in NEVER)})\b", re.I)
READ = ("*.md", "docs/*.md", "crates.txt", "logs/help/*.out", "Makefile", "tools/**", "logs/run",
        "logs/tools/**", "model/*", "crates/**/*.rt", "crates/**/*.antt")


def faults() -> Iterator[str]:
    for path in (it for it in files(*READ) if os.path.isfile(f"{TOP}/{it}") and it != OWN):
        text = re.sub(r"(?m)^\|.*", "", text_of(path)) if path == LIST else text_of(path)
        for found in WORDS.finditer(text):
            line = text.count("\n", 0, found.start()) + 1
            words = re.findall("[a-z]+", found[0].lower())
            yield f"{path}:{line}: \"{' '.join(words)}\" is never right: see {LIST}"
