"""What is lawful and likely wrong in flights and events. Each threshold is a constant, and a warning prints its own."""

import difflib
from collections.abc import Iterable, Iterator, Sequence

from tools.desk import clock
from tools.desk.faults import Doubt, Place
from tools.desk.model import MOST_WAITING, Add, Cancel, Estimate, Event, Flight

MOST_GAP = 60  # minutes between an estimate and the nearest other of the bank
FEW_FLIGHTS = 3  # so many or fewer that stand apart are likely mistyped; more are a bank of their own
LATEST_WINDOW = 60  # minutes from an estimate to the beginning of its flight's first window
EARLIEST_WINDOW = 5  # minutes from the beginning of a flight's first window to its estimate
MOST_BETWEEN_WINDOWS = 60  # minutes from one window of a flight to its next
WITHOUT_COLON = 2_400  # where all estimates are seconds below it, they are likely clock times as 1030
MOST_BETWEEN_ESTIMATES = 120  # minutes by which an event moves an estimate


def of_flights(file: str, flights: Sequence[Flight], named: Iterable[str] = ()) -> list[Doubt]:
    """All doubts about the flights of a file. Callsigns of rows with a fault may be named beside them."""
    there = [it.callsign for it in flights] + list(named)
    doubts = [*_of_after(file, flights, there), *_of_loops(file, flights), *_of_estimates(file, flights)]
    for it in flights:
        doubts += _of_windows(file, it)
    if len(flights) > MOST_WAITING:
        doubts.append(
            Doubt(Place(file), f"{len(flights)} flights; at most {MOST_WAITING} may wait, the others must be frozen")
        )
    return sorted(doubts, key=lambda doubt: doubt.where.row or 0)


def of_times(file: str, flights: Sequence[Flight]) -> list[Doubt]:
    """A doubt about a sheet whose estimates were all read as seconds and are likely clock times without a colon."""
    if len(flights) < 2 or any(it.eta >= WITHOUT_COLON or it.eta % 100 >= 60 for it in flights):
        return []
    said = f"all are seconds below {WITHOUT_COLON}, before {clock.shown(WITHOUT_COLON)}"
    return [Doubt(Place(file, None, "eta"), f"{said}; a clock time has a colon, as 10:30")]


def _minutes(seconds: int) -> str:
    return f"{clock.duration(seconds)} minutes"


def likely(name: str, names: Iterable[str]) -> str:
    """A question after the name that is most like this one, or nothing."""
    close = difflib.get_close_matches(name, list(names), 1, 0.6)
    return f"; is {close[0]} meant?" if close else ""


def _of_after(file: str, flights: Sequence[Flight], there: Sequence[str]) -> Iterator[Doubt]:
    for it in flights:
        for name in it.after:
            if name not in there:
                others = [other for other in there if other != it.callsign]
                said = f"{name} is no flight of the file, so that {it.callsign} waits for nobody{likely(name, others)}"
                yield Doubt(Place(file, it.row, "after"), said)


def _of_loops(file: str, flights: Sequence[Flight]) -> Iterator[Doubt]:
    """Flights that wait for themselves by way of others: there is no plan."""
    before = {it.callsign: it.after for it in flights}
    for it in flights:
        reached, ahead = set(), list(it.after)
        while ahead:
            name = ahead.pop()
            if name not in reached:
                reached.add(name)
                ahead += before.get(name, ())
        if it.callsign in reached:
            yield Doubt(
                Place(file, it.row, "after"),
                f"{it.callsign} has to land before itself, by way of {', '.join(it.after)}",
            )


def _of_estimates(file: str, flights: Sequence[Flight]) -> Iterator[Doubt]:
    """Few flights whose estimates stand far from all others."""
    groups: list[list[Flight]] = []
    for it in sorted(flights, key=lambda flight: flight.eta):
        if not groups or it.eta - groups[-1][-1].eta > MOST_GAP * clock.MINUTE:
            groups.append([])
        groups[-1].append(it)
    largest = max(groups, key=len, default=[])
    for group in groups:
        if group is largest or len(group) > FEW_FLIGHTS:
            continue
        for it in group:
            nearest = min(abs(it.eta - other.eta) for other in flights if other not in group)
            said = f"{clock.shown(it.eta)} ({it.eta}) is {_minutes(nearest)} from the others (warned above {MOST_GAP})"
            yield Doubt(Place(file, it.row, "eta"), said)


def _of_windows(file: str, flight: Flight | Estimate) -> Iterator[Doubt]:
    """Windows far from the estimate or from each other, and an estimate outside them."""
    where, first, last = Place(file, flight.row, "windows"), flight.windows[0].first, flight.windows[-1].last
    if first - flight.eta > LATEST_WINDOW * clock.MINUTE:
        late = _minutes(first - flight.eta)
        yield Doubt(where, f"the first begins {late} after the estimate (warned above {LATEST_WINDOW})")
    if flight.eta - first > EARLIEST_WINDOW * clock.MINUTE:
        early = _minutes(flight.eta - first)
        yield Doubt(where, f"the first begins {early} before the estimate (warned above {EARLIEST_WINDOW})")
    if flight.eta > last:
        yield Doubt(where, f"the last ends {_minutes(flight.eta - last)} before the estimate")
    for this, following in zip(flight.windows, flight.windows[1:], strict=False):
        if following.first - this.last > MOST_BETWEEN_WINDOWS * clock.MINUTE:
            apart = _minutes(following.first - this.last)
            yield Doubt(where, f"two of them are {apart} apart (warned above {MOST_BETWEEN_WINDOWS})")


def of_events(file: str, events: Sequence[Event], flights: Sequence[Flight] | None) -> list[Doubt]:
    """All doubts about the events of a log. Whether its flights are there is known by the flights at the start."""
    doubts: list[Doubt] = []
    active = {it.callsign: it.eta for it in flights or ()}
    for event in events:
        if isinstance(event, Add):
            doubts += _of_windows(file, event.flight)
            if flights is not None and event.callsign in active:
                doubts.append(Doubt(Place(file, event.row, "callsign"), f"{event.callsign} is there already"))
            active[event.callsign] = event.flight.eta
        elif isinstance(event, (Estimate, Cancel)):
            doubts += _of_event(file, event, active, flights is not None)
            if isinstance(event, Cancel):
                active.pop(event.callsign, None)
            elif event.callsign in active:
                active[event.callsign] = event.eta
    return doubts


def _of_event(file: str, event: Estimate | Cancel, active: dict[str, int], is_known: bool) -> Iterator[Doubt]:
    where = Place(file, event.row, "callsign")
    if event.callsign not in active and is_known:
        yield Doubt(where, f"{event.callsign} is not there at this event{likely(event.callsign, active)}")
    if isinstance(event, Estimate):
        yield from _of_windows(file, event)
        moved = abs(event.eta - active.get(event.callsign, event.eta))
        if moved > MOST_BETWEEN_ESTIMATES * clock.MINUTE:
            said = f"the estimate moves by {_minutes(moved)} (warned above {MOST_BETWEEN_ESTIMATES})"
            yield Doubt(Place(file, event.row, "eta"), said)
