"""Which Python has selenium, as a module: Debian's, if the one that runs a script hasn't."""

import importlib.util
import os
import sys

from common import command_line

DEBIAN = "/usr/bin/python3"  # which has the modules of Debian's packages


def missing(*programs: str) -> str | None:
    """What to do about the first of some programs that isn't there, a browser that can be driven
    among them, or None. The script begins again in Debian's Python if that may have selenium."""
    if lost := command_line.missing("chromium", "chromedriver", *programs):
        return lost
    if importlib.util.find_spec("selenium") is not None:
        return None
    if os.path.realpath(sys.executable) != os.path.realpath(DEBIAN) and os.path.exists(DEBIAN):
        os.execv(DEBIAN, [DEBIAN, *sys.argv])
    return ("there is no module `selenium`:"
            " install it, for example with `apt-get install python3-selenium`")
