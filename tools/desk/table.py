"""`desk table`: a plan as a table, with clock times, delays, places moved, and sums by airline."""

import argparse
import sys

from tools.desk import clock
from tools.desk.columns import aligned, write_csv
from tools.desk.faults import FINDINGS, GOOD
from tools.desk.landed import Landed, Sum, landed, sums
from tools.desk.planned import PLAN_HELP, Planned, planned
from tools.desk.replay_words import value_words

DESCRIPTION = """Prints a row for each flight in landing order: when it is due and lands, its delay in minutes and
seconds, how many places it moved from first-come order (+ further back, - ahead), how far behind the landing ahead it
lands and has to. Then sums by the first three letters of the callsign, in seconds, and what audit finds."""
HEAD = ["place", "flight", "cat", "due", "lands", "delay", "moved", "behind", "owed", ""]
SUMS = ["airline", "flights", "delay", "mean", "weighted"]
CSV_HEAD = [
    "place", "callsign", "category", "weight", "due", "due_clock", "state", "lands", "lands_clock", "delay", "weighted",
    "moved", "behind", "owed",
]  # fmt: skip


def add_parser(subparsers: argparse._SubParsersAction) -> None:
    """The words of the command."""
    said = "a plan with clock times, delays, places moved and sums"
    words = subparsers.add_parser("table", help=said, description=DESCRIPTION)
    words.add_argument("aerodrome", metavar="AERODROME")
    words.add_argument("flights", metavar="FLIGHTS")
    words.add_argument("plan", metavar="PLAN", nargs="?", help=PLAN_HELP)
    words.add_argument("--csv", action="store_true", help="the rows as CSV; the findings go to the standard error")
    words.set_defaults(run=run)


def run(arguments: argparse.Namespace) -> int:
    """Runs the command."""
    it = planned(arguments.aerodrome, arguments.flights, arguments.plan)
    rows = landed(it.aerodrome, it.flights, it.plan)
    if arguments.csv:
        write_csv(sys.stdout, CSV_HEAD, (_csv_row(place, row) for place, row in enumerate(rows, 1)))
    else:
        print(value_words(it.plan))
        if it.plan is None:
            print("desk why says what makes it feasible")
        print("\n".join(aligned(HEAD, (_row(place, row) for place, row in enumerate(rows, 1)), left=3)))
        print()
        parts = sums((row.flight, row.delay) for row in rows if row.flight and row.delay is not None)
        print("\n".join(aligned(SUMS, map(_sum_row, parts))))
        print()
    print("\n".join(_findings(it)), file=sys.stderr if arguments.csv else sys.stdout)
    return FINDINGS if it.findings or it.plan is None else GOOD


def _row(place: int, row: Landed) -> list[object]:
    category, due = (row.flight.category, clock.shown(row.flight.eta)) if row.flight else ("?", None)
    if row.second is None:
        return ["", row.callsign, category, due, "not landed", *[None] * 4, ""]
    delay = None if row.delay is None else clock.duration(row.delay)
    mark = "frozen" if row.frozen else ""
    lands, moved = clock.shown(row.second), signed(row.moved)
    return [place, row.callsign, category, due, lands, delay, moved, row.behind, row.owed, mark]


def signed(number: int | None) -> str | None:
    """A number with its sign, 0 without one."""
    return number if number is None else f"{number:+}" if number else "0"


def _sum_row(it: Sum) -> list[object]:
    mean = f"{it.delay / it.flights:.1f}" if it.flights else ""
    return [it.name, it.flights, it.delay, mean, it.weighted]


def _csv_row(place: int, row: Landed) -> list[object]:
    flight = row.flight
    of_flight = [flight.category, flight.weight, flight.eta, clock.shown(flight.eta)] if flight else [None] * 4
    if row.second is None:
        return [None, row.callsign, *of_flight, "not landed", *[None] * 7]
    weighted = flight.weight * flight.delay(row.second) if flight else None
    state = "frozen" if row.frozen else "waiting"
    lands = [row.second, clock.shown(row.second), row.delay, weighted]
    return [place, row.callsign, *of_flight, state, *lands, row.moved, row.behind, row.owed]


def _findings(it: Planned) -> list[str]:
    """What `audit` says."""
    if it.plan is None:
        return ["audit: infeasible claimed"]
    return [f"audit: {finding}" for finding in it.findings] or ["audit: ok"]
