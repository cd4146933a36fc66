"""The script `cps`: where the documents are, and its status where it has no answer."""

import os
import shutil
import subprocess
import unittest
from pathlib import Path

from tools.desk import program
from tools.desk.tests.samples import InFolder


class Script(InFolder):
    """The script over a program, or over a toolchain, that stands for the real one."""

    def setUp(self) -> None:
        super().setUp()
        for name in ("cps", "run_program", "README.md", "crates.txt"):
            shutil.copy(program.TOP / name, name)
        for part in ("src", "specs", "out"):
            Path("crates/cps_main", part).mkdir(parents=True)

    def stand_in(self, name: str, body: str) -> None:
        """Writes a program that stands for a real one."""
        self.write(name, f"#!/bin/sh\n{body}\n")
        os.chmod(name, 0o755)

    def run_script(self, *words: str) -> subprocess.CompletedProcess[str]:
        paths = {**os.environ, "PATH": f"{os.getcwd()}:{os.environ['PATH']}"}
        return subprocess.run(["./cps", *words], capture_output=True, text=True, env=paths, check=False)

    def test_wrong_words(self) -> None:
        self.stand_in("crates/cps_main/out/cps_main", "echo 'cps: usage' >&2; exit 2")
        ran = self.run_script("plna")
        self.assertEqual(ran.returncode, 2)
        for part in ("cps: usage", "plan AERODROME FLIGHTS", "docs/DESK.md", "docs/FORMATS.md"):
            self.assert_said(ran.stderr, part)

    def test_a_status_of_the_program(self) -> None:
        self.stand_in("crates/cps_main/out/cps_main", "exit 9")
        self.assertEqual(self.run_script("plan", "a", "f").returncode, 9)

    def test_sources_that_give_no_answer(self) -> None:
        self.stand_in("rt", "echo 'error: nothing is built'; exit 1")
        ran = self.run_script("plan", "a", "f")
        self.assertEqual(ran.returncode, 70)
        self.assert_said(ran.stderr, "the sources gave no answer; ./build")


if __name__ == "__main__":
    unittest.main()
