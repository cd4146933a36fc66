"""Files that are checked: good ones, and tests that spoil one of them."""

import functools
import unittest.mock

from tools.desk import check, program
from tools.desk.tests.samples import EXAMPLES, InFolder, desk

AERODROME = (EXAMPLES / "ten-flights/aerodrome.toml").read_text()
FLIGHTS = (EXAMPLES / "ten-flights/flights.csv").read_text()
HEADER = "callsign,category,eta,weight,windows,after\n"
LOG = "kind,callsign,category,eta,weight,windows,after\n"
PLAN = (EXAMPLES / "ten-flights/plan.txt").read_text()
ANSWERS = functools.cache(program.run_texts)


class Checks(InFolder):
    """Files that the desk and the program refuse alike."""

    def setUp(self) -> None:
        super().setUp()
        # The good files beside the one that is tried are the same each time.
        once = unittest.mock.patch.object(check.program, "run_texts", ANSWERS)
        once.start()
        self.addCleanup(once.stop)
        self.names = {
            "aerodrome": self.write("aerodrome.toml", AERODROME),
            "flights": self.write("flights.csv", FLIGHTS),
            "events": "log.csv",
            "plan": "plan.txt",
        }

    def check(self, kind: str, content: str | bytes) -> program.Answer:
        """Checks a file of a kind beside good ones."""
        self.write(self.names[kind], content)
        third = [self.names[kind]] if kind in ("events", "plan") else []
        return desk(["check", "aerodrome.toml", "flights.csv", *third])

    def assert_refused(self, kind: str, content: str | bytes, cause: str, *said: str) -> None:
        """That the program names a cause, and that the desk says more in one line."""
        answer = self.check(kind, content)
        with self.subTest(content=content[:60], said=said):
            self.assertEqual(answer.status, 3)
            self.assert_said(answer.out, self.names[kind], f"cps says: {cause}")
            self.assert_said(answer.out, *said)
            self.assertNotIn("its own mistake", answer.out)
            self.assertNotIn("cps is right", answer.out)
