"""What makers of pages and charts, and the server of a log, have to refuse: an output that would
replace a file that they read, or what standard output goes into."""

import os
import subprocess
import tempfile
import unittest
from pathlib import Path

from small import TOP  # first: it finds the scripts

from common.files import cases_in, write
from common.tests import Test, class_of

FILES = {it: f"{it}\n" for it in ("CAVE", "LOG", "LOG2", "BIND", "STEPS", "say", "told", "below/x")}


def slip(command: str, said: str) -> Test:
    """Runs a command, which has to say something, and to replace no byte."""
    def test(self: unittest.TestCase) -> None:
        tool, *words = command.split()
        with tempfile.TemporaryDirectory() as folder:
            for name, text in FILES.items():
                os.chmod(write(f"{folder}/{name}", text), 0o755)
            os.symlink("LOG", f"{folder}/soft")
            os.link(f"{folder}/LOG", f"{folder}/hard")
            with open(f"{folder}/told", "a") as told, open(f"{folder}/STEPS") as steps:
                ran = subprocess.run([f"{TOP}/tools/page/{tool}", *words], cwd=folder, stdin=steps,
                                     stdout=told, stderr=subprocess.PIPE, text=True)
            left = {str(it.relative_to(folder)): it.read_text()
                    for it in Path(folder).rglob("*") if it.is_file()}
        self.assertIn(said, ran.stderr)
        self.assertEqual(ran.returncode, 2)
        self.assertEqual(left, FILES | dict.fromkeys(("soft", "hard"), FILES["LOG"]))

    return test


Slips = class_of("slips", ((command, slip(command, said)) for command, said in cases_in(
    "tools/check/tests/slips.md", "Slips")))
