"""The suite of this repository: which logs it has, and how each is run."""

import os
import sys

from common.files import TOP

sys.path.append(f"{os.path.dirname(os.path.abspath(__file__))}/../install")

from cave_suite.suites import Suite  # of the folder that is on the path now

SUITE = Suite(f"{TOP}/logs")
