"""`desk compare`: two plans, or two sets of files, side by side, with delays from one set of due times."""

import argparse
import sys
from collections.abc import Iterator, Sequence

from tools.desk import clock, files
from tools.desk.columns import aligned, write_csv
from tools.desk.faults import FINDINGS, GOOD, Refused
from tools.desk.landed import Sum, sums
from tools.desk.model import Flight, in_turn
from tools.desk.planned import INPUT, PLAN_HELP, Planned, planned
from tools.desk.replay_words import value_words
from tools.desk.table import signed

DESCRIPTION = """Sets two plans side by side: that of AERODROME, FLIGHTS and PLAN, and that of the files which the
options name in their place. A delay is counted from the due times of one flight file: FLIGHTS, or that of --due. The
objective counts from each side's own estimates, so that a late estimate lowers it; where they differ from the due
times, a line says so."""
HEAD = ["flight", "cat", "due", "lands", "delay", "then lands", "delay", "difference"]
SUMS = ["airline", "flights", "delay", "then", "difference", "weighted", "then", "difference"]
CSV_HEAD = [
    "callsign", "category", "weight", "due", "first_lands", "first_delay", "second_lands", "second_delay", "difference",
]  # fmt: skip


def add_parser(subparsers: argparse._SubParsersAction) -> None:
    """The words of the command."""
    said = "two plans side by side, by one set of due times"
    words = subparsers.add_parser("compare", help=said, description=DESCRIPTION)
    words.add_argument("aerodrome", metavar="AERODROME")
    words.add_argument("flights", metavar="FLIGHTS")
    words.add_argument("plan", metavar="PLAN", nargs="?", help=PLAN_HELP)
    words.add_argument("--aerodrome", dest="aerodrome_then", metavar="FILE", help="the aerodrome of the second side")
    words.add_argument("--flights", dest="flights_then", metavar="FILE", help="the flights of the second side")
    words.add_argument("--plan", dest="plan_then", metavar="FILE", help="the plan of the second side")
    words.add_argument("--due", metavar="FILE", help="a flight file whose estimates are the due times; none: FLIGHTS")
    words.add_argument("--csv", action="store_true", help="the rows as CSV, in seconds")
    words.set_defaults(run=run)


def run(arguments: argparse.Namespace) -> int:
    """Runs the command."""
    if arguments.plan == arguments.plan_then == INPUT:
        raise Refused(["one plan alone can come from the input"])
    first = planned(arguments.aerodrome, arguments.flights, arguments.plan)
    flights_then = arguments.flights_then or arguments.flights
    then = planned(arguments.aerodrome_then or arguments.aerodrome, flights_then, arguments.plan_then)
    due = due_flights(first, then, arguments.due)
    rows = list(_rows(due, first, then))
    sink = sys.stderr if arguments.csv else sys.stdout
    if arguments.csv:
        write_csv(sys.stdout, CSV_HEAD, (_csv_row(*row) for row in rows))
    else:
        print("\n".join(aligned(HEAD, (_row(*row) for row in rows), left=2)))
        print()
        print("\n".join(aligned(SUMS, _sum_rows(rows))))
        print()
    names = {"first": (first, arguments.flights), "then": (then, flights_then)}
    for name, (side, path) in names.items():
        print(f"{name}: {value_words(side.plan)}; audit: {', '.join(side.findings) or 'ok'}", file=sink)
        for said in _late(due, side, path):
            print(said, file=sink)
    return FINDINGS if any(side.findings or side.plan is None for side in (first, then)) else GOOD


def due_flights(first: Planned, then: Planned, path: str | None) -> dict[str, Flight]:
    """Each flight with its due time: that of the file that is named, or of the first side, or else of the second."""
    named = files.read_flights(path) if path else []
    known = {it.callsign: it for it in [*then.flights, *first.flights, *named]}
    return {it.callsign: it for it in in_turn(list(known.values()))}


def _rows(due: dict[str, Flight], first: Planned, then: Planned) -> Iterator[tuple[Flight, int | None, int | None]]:
    """Each flight that either side has, by its due time, and where each side lands it."""
    sides = [{it.callsign: it.second for it in side.plan.landings} if side.plan else {} for side in (first, then)]
    there = {it.callsign for side in (first, then) for it in side.flights}
    for callsign, flight in due.items():
        if callsign in there:
            yield flight, sides[0].get(callsign), sides[1].get(callsign)


def _difference(flight: Flight, second: int | None, then: int | None) -> int | None:
    return None if second is None or then is None else flight.delay(then) - flight.delay(second)


def _row(flight: Flight, second: int | None, then: int | None) -> list[object]:
    cells = [it for landing in (second, then) for it in _landing(flight, landing)]
    difference = signed(_difference(flight, second, then))
    return [flight.callsign, flight.category, clock.shown(flight.eta), *cells, difference]


def _landing(flight: Flight, second: int | None) -> list[str | None]:
    return [None, None] if second is None else [clock.shown(second), clock.duration(flight.delay(second))]


def _csv_row(flight: Flight, second: int | None, then: int | None) -> list[object]:
    cells = [it for landing in (second, then) for it in (landing, None if landing is None else flight.delay(landing))]
    return [flight.callsign, flight.category, flight.weight, flight.eta, *cells, _difference(flight, second, then)]


def _sum_rows(rows: Sequence[tuple[Flight, int | None, int | None]]) -> Iterator[list[object]]:
    """The sums of the flights that both sides land."""
    both = [row for row in rows if None not in row]
    parts: list[list[Sum]] = [sums((row[0], row[0].delay(row[side])) for row in both) for side in (1, 2)]
    for one, two in zip(*parts):
        delays = [one.delay, two.delay, signed(two.delay - one.delay)]
        yield [one.name, one.flights, *delays, one.weighted, two.weighted, signed(two.weighted - one.weighted)]


def _late(due: dict[str, Flight], side: Planned, path: str) -> Iterator[str]:
    """Where the objective of a side counts from another second than this comparison."""
    for flight in side.flights:
        second = due[flight.callsign].eta
        if flight.eta != second:
            where = f"{path}: {flight.callsign} has the estimate {clock.shown(flight.eta)}"
            said = "the objective counts from the estimate, and the delays above from the due time"
            yield f"{where} and is due {clock.shown(second)}: {said}"
