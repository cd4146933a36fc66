"""Tables, comparisons, and why a bank is infeasible, against answers made by hand."""

import csv
import io
import tempfile
import unittest
import unittest.mock
from dataclasses import replace
from pathlib import Path

from tools.desk import files
from tools.desk.changes import Situation
from tools.desk.landed import Landed, Sum, landed, sums
from tools.desk.model import Aerodrome, Flight, Frozen, Landing, Objective, Plan, Span
from tools.desk.relaxations import conflict, relaxations
from tools.desk.tests.samples import EXAMPLES, desk, needs_program

TABLE = {letter: (60, 70, 80, 90, 100, 110) for letter in "ABCDEF"}
BROKEN = [str(EXAMPLES / "broken-plan" / name) for name in ("aerodrome.toml", "flights.csv", "plan.txt")]
INFEASIBLE = [str(EXAMPLES / "infeasible" / name) for name in ("aerodrome.toml", "flights.csv")]
DAY = [str(EXAMPLES / "day" / name) for name in ("aerodrome.toml", "flights.csv", "events.csv")]
BROKEN_TABLE = """\
makespan 36350 (10:05:50)
place  flight  cat       due     lands  delay  moved  behind  owed
1      UAE7    A    10:00:00  10:00:00   0:00      0
2      DLH400  B    10:01:30  10:01:50   0:20     -1     110   110
3      NJE5    F    10:02:10  10:03:20   1:10     -1      90   160
4      EZY81   D    10:00:40  10:04:20   3:40     +2      60    60  frozen
5      BEL3    E    10:02:40  10:05:20   2:40      0      60    60

airline  flights  delay   mean  weighted
BEL            1    160  160.0       320
DLH            1     20   20.0        60
EZY            1    220  220.0       440
NJE            1     70   70.0        70
UAE            1      0    0.0         0
all            5    470   94.0       890

audit: mark EZY81
audit: separation DLH400 NJE5
audit: shift EZY81 4 2
audit: value 36320
"""
WHY = """\
infeasible: 2 waiting flights, k = 1
from the front of the first-come order 2 flights cannot be landed, 1 can:
  A1 F1
each of these alone makes all feasible  the objective then
A1 may land 00:16:40 to 02:16:39        makespan 1070 (00:17:50)
F1 may land 00:16:50 to 02:16:49        makespan 1180 (00:19:40)
without A1                              makespan 1010 (00:16:50)
without F1                              makespan 1000 (00:16:40)
tried and infeasible still: k = 2
"""


def flight(callsign: str, eta: int, category: str = "A", length: int = 1_800, **changed) -> Flight:
    """A flight with one window from its estimate on."""
    return Flight(callsign, category, eta, **{"weight": 1, "windows": (Span(eta, eta + length),), **changed})


def aerodrome(**changed) -> Aerodrome:
    """An aerodrome with a table whose columns differ."""
    usual = {"version": 2, "k": 0, "freeze": 100, "objective": Objective.MAKESPAN, "table": TABLE}
    return Aerodrome(**{**usual, **changed})


class Rows(unittest.TestCase):
    """What a table says of flights."""

    def test_frozen_flights_do_not_move_and_others_follow(self) -> None:
        flights = [flight("AA1", 1_000), flight("BB1", 1_010, "B"), flight("AA2", 1_020), flight("CC1", 1_030)]
        landings = (Landing("AA2", 1_050, True), Landing("BB1", 1_120), Landing("AA1", 1_300))
        shown = Plan(Objective.MAKESPAN, 1_300, landings)
        rows = landed(aerodrome(clock=1_000, frozen=(Frozen("AA2", 1_050),)), flights, shown)
        self.assertEqual(
            [(it.callsign, it.moved, it.behind, it.owed, it.delay) for it in rows],
            [
                ("AA2", None, None, None, 30),
                ("BB1", -1, 70, 70, 110),
                ("AA1", 1, 180, 60, 300),
                ("CC1", None, None, None, None),
            ],
        )

    def test_a_flight_that_is_not_there(self) -> None:
        rows = landed(aerodrome(), [], Plan(Objective.MAKESPAN, 5, (Landing("ZZ9", 5),)))
        self.assertEqual(rows, [Landed("ZZ9", None, 5)])

    def test_sums_by_airline(self) -> None:
        delays = [(flight("EZY1", 0, weight=3), 10), (flight("EZY2", 0), 5), (flight("BAW1", 0), 0)]
        self.assertEqual(sums(delays), [Sum("BAW", 1, 0, 0), Sum("EZY", 2, 15, 35), Sum("all", 3, 15, 35)])

    def test_what_is_relaxed(self) -> None:
        flights = (flight("AA1", 1_000), flight("AA2", 1_060, after=("AA1", "ZZ9")))
        now = Situation(aerodrome(closures=(Span(1, 2),), k=1), flights)
        said = [it.said for it in relaxations(now, {"AA2"}, 2)]
        windows, after = "AA2 may land 00:17:40 to 02:17:39", "AA2 need not land after AA1"
        self.assertEqual(said, ["k = 2", "without the closure 00:00:01 to 00:00:02", windows, after, "without AA2"])


@needs_program
class Commands(unittest.TestCase):
    """The commands."""

    def setUp(self) -> None:
        holder = tempfile.TemporaryDirectory()
        self.addCleanup(holder.cleanup)
        self.folder = Path(holder.name)

    def written(self, of: Aerodrome, flights: list[Flight], name: str = "") -> list[str]:
        """The names of two files."""
        texts = {f"{name}a.toml": files.aerodrome_text(of), f"{name}f.csv": files.flights_text(flights)}
        for path, text in texts.items():
            self.folder.joinpath(path).write_text(text)
        return [str(self.folder / path) for path in texts]

    def test_a_wrong_plan(self) -> None:
        answer = desk(["table", *BROKEN])
        self.assertEqual((answer.status, answer.err), (1, ""))
        self.assertEqual(answer.out, BROKEN_TABLE)

    def test_a_plan_of_the_input(self) -> None:
        with unittest.mock.patch("sys.stdin", io.TextIOWrapper(io.BytesIO(b"makespan x\nland A\n"))):
            answer = desk(["table", *BROKEN[:2], "-"])
        self.assertEqual((answer.status, answer.out), (3, ""))
        places = [it.partition(":")[0] for it in answer.err.splitlines()]
        self.assertEqual(places, ["the input, row 1", "the input, row 2"])
        self.assertEqual(desk(["compare", *BROKEN[:2], "-", "--plan", "-"]).status, 3)

    def test_a_table_as_csv_by_first(self) -> None:
        answer = desk(["table", "--csv", *BROKEN[:2]])
        self.assertEqual((answer.status, answer.err), (0, "audit: ok\n"))
        rows = list(csv.DictReader(answer.out.splitlines()))
        self.assertEqual([row["callsign"] for row in rows], ["UAE7", "DLH400", "EZY81", "BEL3", "NJE5"])
        self.assertEqual((rows[1]["lands"], rows[1]["delay"], rows[1]["weighted"]), ("36110", "20", "60"))

    def test_a_late_estimate_lowers_the_objective_and_not_the_delay(self) -> None:
        by_delay = aerodrome(objective=Objective.DELAY)
        flights = [flight("AA1", 1_000), flight("BB1", 1_010)]
        late = [flights[0], replace(flights[1], eta=1_040)]
        first, then = self.written(by_delay, flights), self.written(by_delay, late, "late-")
        answer = desk(["compare", *first, "--flights", then[1]])
        self.assertEqual(answer.status, 0)
        self.assertIn("BB1     A    00:16:50  00:17:40   0:50    00:17:40   0:50           0", answer.out)
        self.assertIn("first: delay 50; audit: ok\nthen: delay 20; audit: ok", answer.out)
        self.assertIn("BB1 has the estimate 00:17:20 and is due 00:16:50", answer.out)

    def test_two_plans(self) -> None:
        answer = desk(["compare", "--csv", *BROKEN, "--due", BROKEN[1]])
        self.assertEqual(answer.status, 1)
        rows = {row["callsign"]: row["difference"] for row in csv.DictReader(answer.out.splitlines())}
        self.assertEqual(rows["EZY81"], "-40")

    def test_why_windows(self) -> None:
        answer = desk(["why", *INFEASIBLE, "--most-k", "2"])
        self.assertEqual((answer.status, answer.out), (1, WHY))

    def test_why_a_closure_and_a_precedence(self) -> None:
        closed = aerodrome(closures=(Span(900, 4_000),))
        answer = desk(["why", *self.written(closed, [flight("AA1", 1_000), flight("AA2", 5_000)]), "--most-k", "0"])
        self.assertIn("without the closure 00:15:00 to 01:06:40", answer.out)
        flights = [flight("AA1", 1_000, after=("AA3",)), flight("AA2", 1_000), flight("AA3", 1_060)]
        answer = desk(["why", *self.written(aerodrome(), flights), "--most-k", "1"])
        self.assertIn("AA1 need not land after AA3", answer.out)
        self.assertIn("k = 1", answer.out.splitlines()[-1])

    def test_why_no_single_relaxation_helps(self) -> None:
        flights = [flight(name, 1_000, length=10) for name in ("AA1", "AA2", "AA3", "AA4")]
        answer = desk(["why", *self.written(aerodrome(), flights), "--most-k", "0"])
        self.assertIn("  AA1 AA2\n", answer.out)
        self.assertIn("no single relaxation makes all flights feasible", answer.out)

    def test_the_core_of_a_conflict(self) -> None:
        free = [flight(f"AA{number}", 1_000 + 300 * number) for number in range(6)]
        tight = [flight("ZZ1", 3_000, length=10), flight("ZZ2", 3_001, length=10)]
        found = conflict(Situation(aerodrome(k=1), (*free, *tight, flight("ZZ3", 5_000))))
        self.assertEqual(found.front, [*(it.callsign for it in free), "ZZ1", "ZZ2"])
        self.assertEqual(found.core, ["ZZ1", "ZZ2"])

    def test_why_at_an_event(self) -> None:
        answer = desk(["why", *DAY, "9"])
        self.assertEqual(answer.status, 1)
        self.assertIn("refused: F2 is frozen at 00:17:30", answer.out)
        answer = desk(["why", *DAY, "8"])
        self.assertEqual((answer.status, answer.out.splitlines()[-1]), (0, "feasible: makespan 1200 (00:20:00)"))
        self.assertEqual(desk(["why", *DAY, "12"]).status, 3)


if __name__ == "__main__":
    unittest.main()
