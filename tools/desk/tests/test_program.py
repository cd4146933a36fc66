"""The program: where it is, when it is not asked, and the one line that says so."""

import os
import unittest
import unittest.mock
from pathlib import Path

from tools.desk import program
from tools.desk.tests.samples import InFolder, desk

OLD, NEW = 1_000_000, 2_000_000


class Found(InFolder):
    """Trees with a program, and without."""

    def setUp(self) -> None:
        super().setUp()
        self.built = Path("crates/cps_main/out/cps_main").absolute()
        for path in ("crates/cps_main/out", "crates/cps_main/src", "crates/clock/specs"):
            Path(path).mkdir(parents=True)
        self.write("crates.txt", "")
        self.write("crates/clock/specs/Clock.antt", "")
        for name, value in [("TOP", Path.cwd()), ("BUILT", self.built), ("find", program.find.__wrapped__)]:
            patch = unittest.mock.patch.object(program, name, value)
            patch.start()
            self.addCleanup(patch.stop)
        patch = unittest.mock.patch.dict(os.environ)
        patch.start()
        self.addCleanup(patch.stop)
        os.environ.pop("CPS", None)

    def build(self, second: int) -> None:
        """Writes a program that was built at a second, beside sources of the second OLD."""
        for path in [Path("crates.txt"), *Path("crates").rglob("*")]:
            os.utime(path, (OLD, OLD))
        self.built.write_text("#!/bin/sh\necho ok\n")
        self.built.chmod(0o755)
        os.utime(self.built, (second, second))

    def assert_missing(self, said: str) -> None:
        with self.assertRaisesRegex(program.NoProgram, said):
            program.find()

    def test_it_is_built(self) -> None:
        self.build(NEW)
        self.assertEqual(program.run(["plan"]), program.Answer(0, "ok\n", ""))

    def test_it_is_not_built(self) -> None:
        self.assert_missing(r"is not built; run \./build first")

    def test_a_source_is_newer(self) -> None:
        self.build(NEW)
        for source in ("crates.txt", "crates/clock/specs/Clock.antt", "crates/cps_main/src"):
            os.utime(source, (NEW + 1, NEW + 1))
            self.assert_missing(r"is older than its sources; run \./build first")
            os.utime(source, (OLD, OLD))

    def test_the_one_that_is_named(self) -> None:
        os.environ["CPS"] = str(self.built)
        self.assert_missing("which CPS names, cannot be run")
        self.build(OLD - 1)
        self.assertEqual(program.find(), str(self.built))

    def test_the_line(self) -> None:
        self.write("plan.txt", "infeasible\n")
        answer = desk(["picture", "plan.txt", "plan.txt", "plan.txt"])
        self.assertEqual((answer.status, answer.out), (9, ""))
        self.assertEqual(answer.err, "desk: the program is not built; run ./build first\n")


if __name__ == "__main__":
    unittest.main()
