"""Replays: what each moment is, in files that the program judges, against hand-made answers and for random logs."""

import csv
import itertools
import random
import sys
import tempfile
import unittest
from pathlib import Path

from tools.desk import files, judging, program
from tools.desk.beside import each
from tools.desk.changes import Situation, situation_after
from tools.desk.event_words import refusal_words
from tools.desk.model import (
    Add,
    Aerodrome,
    Cancel,
    Clock,
    Close,
    Flight,
    Frozen,
    Landing,
    Objective,
    Passed,
    Plan,
    Reopen,
    Span,
)
from tools.desk.moments import Move, moments_of, moves_between
from tools.desk.replay import replayed
from tools.desk.tests.samples import EXAMPLES, desk, needs_program

sys.path.append(str(program.TOP / "checks"))
import draw  # noqa: E402

LOGS = 200
MOST_EVENTS = 4
PLANNED = 4  # of so many logs one is planned again: the others are judged alone, since each run costs time
TABLE = {letter: (60,) * 6 for letter in "ABCDEF"}
DAY = [str(EXAMPLES / "day" / name) for name in ("aerodrome.toml", "flights.csv", "events.csv")]
DAY_LINES = [
    "event 0: opening with 2 flights: makespan 1070 (00:17:50)",
    "event 1, record 2, row 2: estimate of F1 00:20:00, before 00:16:50; windows 00:20:00 to 00:33:20: accepted; "
    "makespan 1200 (00:20:00); moved A1 -70 s 1 place ahead, F1 +190 s 1 place back",
    "event 2, record 3, row 3: cancel A1: accepted; makespan 1200 (00:20:00)",
    "event 3, record 4, row 4: cancel A1: refused: no active flight has this callsign",
    "event 4, record 5, row 5: close 00:18:20 to 00:21:40: accepted; makespan 1300 (00:21:40); moved F1 +100 s",
]


def flight(callsign: str, eta: int) -> Flight:
    """A flight with a window of half an hour."""
    return Flight(callsign, "A", eta, 1, (Span(eta, eta + 1_800),))


def situation(*callsigns: str, **changed) -> Situation:
    """Flights that are due a minute after each other, with the carry."""
    usual = {"version": 3, "k": 2, "freeze": 100, "objective": Objective.MAKESPAN, "table": TABLE}
    aerodrome = Aerodrome(**{**usual, **changed})
    return Situation(aerodrome, tuple(flight(it, 1_000 + 60 * number) for number, it in enumerate(callsigns)))


def plan(**seconds: int) -> Plan:
    """A plan with these landings, all waiting."""
    return Plan(Objective.MAKESPAN, max(seconds.values()), tuple(Landing(*it) for it in seconds.items()))


class Changes(unittest.TestCase):
    """What an event changes."""

    def test_those_that_freeze_behind_a_flight_passed_it(self) -> None:
        shown = plan(CC=1_000, BB=1_060, DD=1_120, AA=1_180)
        after = situation_after(situation("AA", "BB", "CC", "DD"), Clock(901), shown).aerodrome
        self.assertEqual(after.frozen, (Frozen("CC", 1_000),))
        self.assertEqual(after.passed, (Passed("AA", 1), Passed("BB", 1)))

    def test_a_landing_at_the_horizon_does_not_freeze(self) -> None:
        shown = plan(CC=1_000, BB=1_060)
        self.assertEqual(situation_after(situation("BB", "CC"), Clock(900), shown).aerodrome.frozen, ())

    def test_a_count_stays_at_k(self) -> None:
        start = situation("AA", "BB", "CC", "DD", passed=(Passed("AA", 1), Passed("DD", 2)))
        after = situation_after(start, Clock(1_000), plan(BB=1_000, CC=1_060, AA=1_120, DD=1_180)).aerodrome
        self.assertEqual(after.passed, (Passed("AA", 2), Passed("DD", 2)))

    def test_without_the_carry_nothing_is_counted(self) -> None:
        after = situation_after(situation("AA", "BB", version=2), Clock(1_000), plan(BB=1_000, AA=1_160)).aerodrome
        self.assertEqual((after.frozen, after.passed), ((Frozen("BB", 1_000),), ()))

    def test_without_a_plan_none_freezes(self) -> None:
        after = situation_after(situation("AA"), Clock(5_000), None).aerodrome
        self.assertEqual((after.frozen, after.horizon), ((), 5_100))

    def test_the_first_equal_closure_is_taken_out(self) -> None:
        spans = (Span(1, 2), Span(3, 4), Span(1, 2), Span(5, 6))
        after = situation_after(situation("AA", closures=spans), Reopen(Span(1, 2)), None).aerodrome
        self.assertEqual(after.closures, (Span(3, 4), Span(1, 2), Span(5, 6)))
        self.assertEqual(situation_after(situation("AA"), Close(Span(7, 8)), None).aerodrome.closures, (Span(7, 8),))

    def test_who_comes_again_begins_with_no_count(self) -> None:
        start = situation("AA", "BB", passed=(Passed("AA", 1),))
        gone = situation_after(start, Cancel("AA"), None)
        again = situation_after(gone, Add(flight("AA", 1_000)), None)
        self.assertEqual([it.callsign for it in again.flights], ["BB", "AA"])
        self.assertEqual(again.aerodrome.passed, ())

    def test_places_count_among_the_flights_of_both_plans(self) -> None:
        before, after = plan(AA=100, BB=160, CC=220), plan(NEW=40, BB=100, AA=160, CC=220)
        self.assertEqual(moves_between(before, after), (Move("BB", -60, -1), Move("AA", 60, 1)))

    def test_a_refusal_is_said_with_clock_times(self) -> None:
        self.assertEqual(refusal_words("frozen 37800", Cancel("AA")), "AA is frozen at 10:30:00")
        said = refusal_words("covers-frozen 22 37800", Close(Span(1, 2)))
        self.assertEqual(said, "22 is frozen at 10:30:00, within it")


@needs_program
class Replays(unittest.TestCase):
    """The command."""

    def setUp(self) -> None:
        holder = tempfile.TemporaryDirectory()
        self.addCleanup(holder.cleanup)
        self.folder = Path(holder.name)

    def test_the_day_of_the_examples(self) -> None:
        answer = desk(["replay", *DAY, str(self.folder), "--csv", "--html"])
        self.assertEqual((answer.status, answer.err), (0, ""))
        self.assertEqual(answer.out.splitlines()[:5], DAY_LINES)
        self.assertIn("froze F2 00:17:30", answer.out.splitlines()[8])
        self.assertIn("8 moments of 8 judged right", answer.out.splitlines()[-1])
        names = sorted(it.name for it in self.folder.iterdir())
        folders = ["0000", "0001", "0002", "0004", "0005", "0006", "0007", "0008"]
        self.assertEqual(names, [*folders, "replay.csv", "replay.html"])
        rows = list(csv.DictReader(self.folder.joinpath("replay.csv").read_text("ascii").splitlines()))
        self.assertEqual([row["callsign"] for row in rows if row["event"] == "8"], ["F1", "F2"])
        self.assertEqual([row["froze"] for row in rows if row["event"] == "8"], ["0", "1"])
        self.assertEqual([row["moved_seconds"] for row in rows if row["event"] == "1"], ["-70", "190"])

    def test_some_moments_alone(self) -> None:
        answer = desk(["replay", *DAY, str(self.folder), "--moments", "0,8-9"])
        self.assertEqual(answer.status, 0)
        self.assertEqual(sorted(it.name for it in self.folder.iterdir()), ["0000", "0008", "0009"])
        self.assertEqual((self.folder / "0008/plan.txt").read_bytes(), (self.folder / "0009/plan.txt").read_bytes())

    def test_nothing_is_written_over(self) -> None:
        self.folder.joinpath("mine").write_text("mine")
        answer = desk(["replay", *DAY, str(self.folder)])
        self.assertEqual((answer.status, answer.out), (3, ""))
        self.assertIn("is not empty", answer.err)

    def test_an_earlier_replay_is_replaced(self) -> None:
        self.folder.joinpath("mine").write_text("mine")
        self.assertEqual(desk(["replay", *DAY, str(self.folder), "--csv", "--force"]).status, 0)
        self.folder.joinpath("0008/mine.svg").write_text("mine")
        self.assertEqual(desk(["replay", *DAY, str(self.folder), "--moments", "0", "--force"]).status, 0)
        self.assertEqual(sorted(it.name for it in self.folder.iterdir()), ["0000", "0008", "mine"])
        self.assertEqual([it.name for it in self.folder.joinpath("0008").iterdir()], ["mine.svg"])

    def test_what_the_program_refuses_has_its_row(self) -> None:
        log = self.folder / "log.csv"
        log.write_text(Path(DAY[2]).read_text() + "\n\nclock,F1,,900,,,\n")
        answer = desk(["replay", *DAY[:2], str(log), str(self.folder / "out")])
        self.assertEqual(answer.status, 3)
        self.assertIn(f"{log}, row 15: callsign not-empty", answer.err)

    def test_the_counts_of_a_moment(self) -> None:
        place = EXAMPLES / "passed-once"
        moments = replayed(*(str(place / name) for name in ("aerodrome.toml", "flights.csv", "events.csv")))
        self.assertEqual([it.aerodrome.passed for it in moments], [(), (Passed("A1", 1),), (Passed("A1", 1),)])

    def test_random_logs_have_moments_that_audit_finds_clean(self) -> None:
        """`audit` judges each moment, and `plan` must give the value of the last of some logs."""
        wrong = [it for it in each(self._found, range(LOGS), "logs") if it]
        self.assertEqual(wrong, [])

    def _found(self, number: int) -> list[str]:
        """What is found in the moments of a random log."""
        draws = random.Random(number)
        for attempt in itertools.count():
            start = draw.draw_situation(draws)
            closures = list(start.closures)
            log = [draw.draw_event(draws, it, closures) for it in range(draws.randint(1, MOST_EVENTS))]
            place = self.folder / f"{number}-{attempt}"
            place.mkdir()
            texts = draw.aerodrome_text(start), draw.flights_text(start), draw.events_text(log)
            paths = [place / name for name in ("aerodrome", "flights", "events")]
            for path, text in zip(paths, texts):
                path.write_text(text)
            if start.opening_fault() is None:
                return self._judged(place, list(map(str, paths)))
        return []

    def _judged(self, place: Path, paths: list[str]) -> list[str]:
        found = []
        for moment in replayed(*paths):
            if moment.accepted:
                judging.write(place, moment)
                found += judging.audited(place, moment)
        if moment.accepted and int(place.name.partition("-")[0]) % PLANNED == 0:
            found += judging.planned(place, moment)
        return found


if __name__ == "__main__":
    unittest.main()
