"""The strict files: what is written is read back as it was, and the program takes it."""

import unittest

from tools.desk import files, program
from tools.desk.model import Landing, Objective, Plan
from tools.desk.tests.samples import EXAMPLES, needs_program


class Files(unittest.TestCase):
    """The files of the examples."""

    def test_the_files_come_back(self) -> None:
        for folder in ("day", "passed-again", "opening-clock", "closure", "precedence"):
            place = EXAMPLES / folder
            aerodrome = files.read_aerodrome(str(place / "aerodrome.toml"))
            flights = files.read_flights(str(place / "flights.csv"))
            with self.subTest(folder):
                self.assertEqual(files.flights_text(flights), (place / "flights.csv").read_text())
                self.assertEqual(aerodrome.version, int(files.aerodrome_text(aerodrome).split()[2]))

    def test_a_log_comes_back(self) -> None:
        log = EXAMPLES / "day/events.csv"
        self.assertEqual(files.events_text(files.read_events(str(log))), log.read_text())

    def test_a_replay_is_taken_apart(self) -> None:
        text = (EXAMPLES / "day/output").read_text()
        steps = files.steps_of(text)
        self.assertEqual([step.number for step in steps], list(range(len(steps))))
        refused = {step.number: step.refusal for step in steps if step.refusal}
        self.assertEqual(refused[3], "unknown-flight A1")
        self.assertEqual(refused[9], "frozen 1050")
        self.assertEqual(
            steps[8].plan, Plan(Objective.MAKESPAN, 1200, (Landing("F2", 1050, True), Landing("F1", 1200)))
        )

    @needs_program
    def test_the_program_takes_what_is_written(self) -> None:
        place = EXAMPLES / "opening-clock"
        aerodrome = files.read_aerodrome(str(place / "aerodrome.toml"))
        flights = files.read_flights(str(place / "flights.csv"))
        answer = program.run_texts("plan", files.aerodrome_text(aerodrome), files.flights_text(flights))
        self.assertEqual(answer.out, (place / "output").read_text())
        plan = files.plan_of(answer.out)
        assert isinstance(plan, Plan)
        self.assertEqual(files.plan_text(plan), answer.out)


if __name__ == "__main__":
    unittest.main()
