"""The study of examples/study: bad input is named, nothing is written over, and banks are compared with themselves."""

import os
import subprocess
import unittest
from pathlib import Path

from tools.desk import program
from tools.desk.tests.samples import EXAMPLES, InFolder, needs_program

HEADER = "callsign,category,eta,weight,windows,after\n"
FIRST = HEADER + "A1,A,100,1,100-900,\nB1,F,110,2,90-700,\n"
ORDERED = HEADER + "A1,A,100,1,100-400;500-600,\nB1,B,90,2,90-700,A1\n"
IMPOSSIBLE = HEADER + "A1,A,100,1,100-120,\nB1,F,90,2,90-110,\n"


def study(*words: str, name: str = "run") -> subprocess.CompletedProcess[str]:
    """Runs the study in the folder in which the test works."""
    asked = [str(EXAMPLES / "study" / name), *words]
    return subprocess.run(asked, capture_output=True, text=True, check=False, env={**os.environ, "CPS": program.find()})


@needs_program
class Study(InFolder):
    """The study as its user runs it."""

    def assert_refused(self, words: list[str], *said: str, status: int = 1) -> None:
        ran = study(*words)
        with self.subTest(words=words):
            self.assertEqual((ran.returncode, ran.stdout), (status, ""))
            self.assertNotIn("Traceback", ran.stderr)
            self.assert_said(ran.stderr, *said)

    def test_bad_input(self) -> None:
        good = self.write("good.csv", FIRST)
        spoilt = [
            (FIRST.replace("100,1", "10:30,1"), ", row 2, eta:", '"10:30"', "write 37800"),
            (FIRST.replace("A1", "a1"), ", row 2, callsign:", "write A1"),
            (FIRST.replace("B1,F", "B1, F"), ", row 3, category:", "write F"),
            (FIRST + ",,,,,\n", ", row 4", "delete the row"),
            ((EXAMPLES / "bank/aerodrome.toml").read_text(), ", row 1", "looks like an aerodrome file"),
            (HEADER + "".join(f"F{it:03},A,{it},1,0-9,\n" for it in range(61)), ": 61 flights; at most 60 may wait"),
        ]
        names = [self.write(f"bad{number}.csv", text) for number, (text, *_) in enumerate(spoilt)]
        ran = study("none.csv", good, *names)
        self.assertEqual((ran.returncode, ran.stdout), (1, ""))
        self.assertNotIn("Traceback", ran.stderr)
        self.assertNotIn("good.csv", ran.stderr)
        self.assert_said(ran.stderr, "study: none.csv: No such file or directory")
        for name, (_, place, *said) in zip(names, spoilt, strict=True):
            self.assert_said(ran.stderr, f"study: {name}{place}", *said)
        self.assertFalse(Path("study.csv").exists())

    def test_words(self) -> None:
        self.assert_refused(["--banks", "0"], "--banks: 0: a whole number from 1 on is wanted", status=2)
        self.assert_refused(["--flights", "100"], "--flights: 100: 1 to 60 flights are wanted", status=2)
        self.assert_refused(["--results", "no/x.csv"], "no/x.csv: there is no folder no")
        self.assert_refused(["--results", "x.md"], "x.md", "the CSV file wants another one")
        self.assert_refused(["--aerodrome", "none.toml"], "none.toml: No such file or directory")

    def test_nothing_is_written_over(self) -> None:
        self.write("x.md", "mine")
        bank = self.write("bank.csv", IMPOSSIBLE)
        self.assert_refused(["--results", "x", bank], "x.md: is there already", "--force")
        self.assertEqual(Path("x.md").read_text(), "mine")
        ran = study("--results", "x", "--force", bank)
        self.assertEqual(ran.returncode, 0, ran.stderr)
        self.assertNotIn("Traceback", ran.stderr)
        self.assertEqual(Path("x.md").read_text(), ran.stdout)
        self.assertIn("Means over 0 of 1 banks", ran.stdout)
        self.assertIn("| makespan | 0 | 1 | - |", ran.stdout)

    def test_banks_are_compared_with_themselves(self) -> None:
        self.write("one bank.csv", "\ufeff" + FIRST.replace("\n", "\r\n"))
        ran = study("one bank.csv", self.write("order,ed.csv", ORDERED), self.write("impossible.csv", IMPOSSIBLE))
        self.assertEqual(ran.returncode, 0, ran.stderr)
        self.assertIn("Means over 1 of 3 banks", ran.stdout)
        self.assertIn("2 without a plan in first-come order are left out", ran.stdout)
        # In turn A1 lands at 100 and B1 at 280; with k = 1 B1 lands at 90 and A1 at 150.
        self.assertIn("| makespan | 0 | 2 | 280.0 (280 to 280) | 170.0 (170 to 170) | 340.0 (340 to 340) |", ran.stdout)
        self.assertIn("| makespan | 1 | 1 | 150.0 (150 to 150) | 50.0 (50 to 50) | 50.0 (50 to 50) |", ran.stdout)
        self.assertIn(
            "| makespan | 1 | -130.0 (-130 to -130) | -120.0 (-120 to -120) | -290.0 (-290 to -290) |", ran.stdout
        )
        rows = Path("study.csv").read_text().splitlines()
        self.assertIn("one bank.csv,makespan,0,280,170,340,170,0,0", rows)
        self.assertIn('"order,ed.csv",makespan,1,210,120,240,120,2,2', rows)
        self.assertIn("impossible.csv,delay,2," + ",".join(["infeasible"] * 6), rows)
        self.assertEqual(len(rows), 1 + 3 * 7)

    def test_a_table_of_ones_own(self) -> None:
        text = (EXAMPLES / "bank/aerodrome.toml").read_text().replace("140, 180]", "140, 170]")
        ran = study("--aerodrome", self.write("own.toml", text), "9", self.write("bank.csv", FIRST), name="bank")
        self.assertEqual(ran.stdout.splitlines()[0], "bank.csv,makespan,0,270,160,320,160,0,0")
        frozen = text.replace("version = 1", "version = 2\nclock = 5")
        self.assert_refused(
            ["--aerodrome", self.write("own.toml", frozen), "--force"], "own.toml", "belong to one bank"
        )

    def test_one_bank_is_a_line_of_its_own(self) -> None:
        ran = study("3", "7", "bank.csv", name="bank")
        self.assertEqual(ran.returncode, 1)
        self.assertEqual(
            [line.split(",")[:3] for line in ran.stdout.splitlines()][:2],
            [["7", "makespan", "0"], ["7", "makespan", "1"]],
        )
        self.assertEqual(ran.stderr, "bank: bank.csv: No such file or directory\n")


if __name__ == "__main__":
    unittest.main()
