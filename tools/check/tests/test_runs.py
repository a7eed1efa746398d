"""What checks that run the program have to refuse, such as one that crashes or says nothing; and
what `tools/measure/progress` has to say. Programs that a case needs are in its `bin`."""

import os
import subprocess
import sys
import tempfile
import unittest
from unittest.mock import patch

from small import TOP, Files, files_of, of_page, run, tests_of  # first: it finds the scripts

from common.files import OTHER_TOP, cases_in

MODEL = f'#!/bin/sh\n{TOP}/model/cave "$@"%s\n'  # which plays for the program, changed a little
CAVE: Files = {"caves/a.txt": "1\nno number\n", "logs/first.log": "no\n"}
REPOSITORIES: dict[str, Files] = {
    "": {}, "CAVE": CAVE, "SILENT": CAVE | {"bin/cave": "#!/bin/sh\n"},
    "CRATES": {"crates.txt": "oil:\nlamps: oil\n"}, "REFUSE": files_of("refuse"),
    # Pairs of logs, for a program whose scripts are empty.
    "LOGS": {"bin/git": "#!/bin/sh\necho 1 1\n"} | {
        f"logs/{it}.{kind}": text for it in range(21)
        for kind, text in (("log", f"# run: play\n{it}\n"), ("out", ""))},
    "SLIPS": {"logs/tools/slips": "check a.txt -o a.txt\n"} | {
        it: "" for it in ("caves/planted.txt", "caves/planted.bind", "caves/planted.known",
                          "logs/script/old.txt", "logs/script/new.txt", "logs/first.script")},
    "PLAYED": CAVE | files_of("model"), "SERVED": files_of("runs"),
    "UNSERVED": files_of("runs") | {"tools/page/live": ""},
    **{name: {"bin/cave": MODEL % more} for name, more in {
        "MODEL": "", "LOUD": " | tr a-z A-Z", "FAILING": "\nexit 9",
        "UNSTEADY": "; [ -e it ] && echo again\n> it"}.items()}}
for at, (command, name, status, said) in enumerate(cases_in("tools/check/tests/runs.md", "Runs")):
    vars()[f"Run{at}"] = tests_of(command, [(name, REPOSITORIES[name], said)], int(status))

Maps = of_page("logs/tools/check-maps bin/cave", "maps", "Maps")
Coverage = of_page("logs/tools/check-coverage bin/cave", "coverage", "Coverage")
Refuses = of_page("tools/soak/refuse oil full", "refuse", "Refuses")
Lines = of_page("tools/check/wrong-lines", "lines", "Lines", {"HANDLES": ""})
Logs = of_page("model/suite first", "model", "Logs")

# A path with python3 alone.
BARE = files_of("maps") | {"bin/python3": f'#!/bin/sh\nexec {sys.executable} "$@"\n'}
del BARE["bin/dot"]


class Around(unittest.TestCase):
    """What the environment of a check changes, and what it doesn't."""

    def test_what_a_test_skips_is_not_skipped_by_the_gate(self) -> None:
        with tempfile.TemporaryDirectory() as folder:
            gates, own = f"{folder}/gate", f"{folder}/out/own"
            for more in dict[str, str](), {"SKIPPED": own}:
                with patch.dict(os.environ, SKIPPED=gates):
                    status, said = run(BARE, "logs/tools/check-maps bin/cave", PATH="bin", **more)
                self.assertEqual(status, 0)
                self.assertIn("1 maps skipped: there is no `dot`", said)
            self.assertEqual(os.listdir(folder), ["out"])
            with open(own, encoding="utf-8") as file:
                self.assertEqual(file.read(), said)

    def test_no_name_of_others_leads_to_another_tree(self) -> None:
        said = ["python3", "-c", "from common.files import TOP; print(TOP)"]
        asked = ["make", "-s", "--eval", f"it: ; @echo $${OTHER_TOP}", "it"]
        alone = {it: value for it, value in os.environ.items() if not it.startswith("MAKE")}
        for command, folder, name, shown in ((said, "tools", "REPOSITORY", TOP),
                                             (said, "tools", OTHER_TOP, "/elsewhere"),
                                             (asked, ".", OTHER_TOP, "")):
            ran = subprocess.run(command, cwd=f"{TOP}/{folder}", capture_output=True, text=True,
                                 env=alone | {name: "/elsewhere"})
            self.assertEqual((ran.stdout, ran.stderr), (f"{shown}\n", ""))

    def test_folders_that_are_installed_can_be_entered_under_any_umask(self) -> None:
        with tempfile.TemporaryDirectory() as folder:
            puts = f"from packed import File, put; put({{'share/it': File(b'')}}, '{folder}')"
            subprocess.run(["sh", "-c", 'umask 077; exec python3 -B -c "$0"', puts], check=True,
                           cwd=f"{TOP}/tools/install",
                           env=os.environ | {"PYTHONPATH": f"{TOP}/tools"})
            self.assertEqual(os.stat(f"{folder}/share").st_mode & 0o777, 0o755)
