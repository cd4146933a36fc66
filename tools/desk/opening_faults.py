"""What an aerodrome file says of flights and the flight file does not bear out: an opening that is refused."""

from collections.abc import Iterator, Sequence
from itertools import combinations

from tools.desk.doubts import likely
from tools.desk.faults import Fault, Place
from tools.desk.model import MOST_WAITING, Aerodrome, Flight, Frozen, Passed

Placed = list[tuple[int, Frozen, Flight]]


def of_opening(names: tuple[str, str], aerodrome: Aerodrome, flights: Sequence[Flight]) -> list[Fault]:
    """All faults of two files together, by the names of both. Entries count from 1."""
    by_callsign = {it.callsign: it for it in flights}
    faults: list[Fault] = []
    placed: Placed = []
    for number, entry in enumerate(aerodrome.frozen, 1):
        flight = by_callsign.get(entry.callsign)
        if flight is None:
            cure = f"add the flight or take the entry away{likely(entry.callsign, by_callsign)}"
            faults.append(
                Fault(_entry(names[0], "frozen", number, entry), entry.callsign, f"a flight of {names[1]}", cure)
            )
        else:
            placed.append((number, entry, flight))
    faults += _of_passed(names, aerodrome, by_callsign)
    waiting = len(flights) - len(placed)
    if waiting > MOST_WAITING:
        faults.append(
            Fault(Place(names[1]), f"{waiting} waiting flights", f"at most {MOST_WAITING} that are not frozen")
        )
    faults += _of_closed(names[0], aerodrome, placed)
    faults += _of_pairs(names[0], aerodrome, placed)
    faults += _of_precedence(names[0], by_callsign, placed)
    return faults


def _entry(file: str, key: str, number: int, entry: Frozen | Passed) -> Place:
    return Place(file, entry.row, f"{key} {number}")


def _of_passed(names: tuple[str, str], aerodrome: Aerodrome, flights: dict[str, Flight]) -> Iterator[Fault]:
    frozen = {it.callsign for it in aerodrome.frozen}
    for number, entry in enumerate(aerodrome.passed, 1):
        if entry.callsign not in flights:
            cure = f"take the entry away{likely(entry.callsign, flights)}"
        elif entry.callsign in frozen:
            cure = "it is frozen, and has no count then"
        else:
            continue
        yield Fault(_entry(names[0], "passed", number, entry), entry.callsign, f"a waiting flight of {names[1]}", cure)


def _of_closed(file: str, aerodrome: Aerodrome, placed: Placed) -> Iterator[Fault]:
    for number, entry, flight in placed:
        where, found = _entry(file, "frozen", number, entry), f"{entry.callsign} {entry.second}"
        for closure in aerodrome.closures:
            if closure.first <= entry.second < closure.last:
                wanted = f"a second outside the closure from {closure.first} to {closure.last}"
                yield Fault(where, found, wanted)
        if not any(span.first <= entry.second <= span.last for span in flight.windows):
            spans = " or ".join(f"{span.first}-{span.last}" for span in flight.windows)
            yield Fault(where, found, f"a second in a window of the flight, {spans}")


def _of_pairs(file: str, aerodrome: Aerodrome, placed: Placed) -> Iterator[Fault]:
    for (number, one, its), (other_number, other, others) in combinations(placed, 2):
        (leader, ahead), (follower, behind) = sorted([(one, its), (other, others)], key=lambda pair: pair[0].second)
        owed = aerodrome.separation(ahead.category, behind.category)
        apart = follower.second - leader.second
        if apart < owed:
            found = f"{leader.callsign} {leader.second} and {follower.callsign} {follower.second}"
            wanted = f"{owed} seconds from {leader.callsign} to {follower.callsign}"
            yield Fault(
                _entry(file, "frozen", other_number, other), found, wanted, f"frozen {number} is {apart} seconds away"
            )


def _of_precedence(file: str, flights: dict[str, Flight], placed: Placed) -> Iterator[Fault]:
    """Frozen flights that land after one that waits or is frozen behind them."""
    seconds = {entry.callsign: entry.second for _, entry, _ in placed}
    for number, entry, flight in placed:
        for name in flight.after:
            if name in seconds and seconds[name] >= entry.second:
                found = f"{entry.callsign} {entry.second}"
                yield Fault(
                    _entry(file, "frozen", number, entry), found, f"a second behind {name}, which lands before it"
                )
            elif name in flights and name not in seconds:
                cure = "freeze it too, or take the name out of `after`"
                yield Fault(_entry(file, "frozen", number, entry), entry.callsign, f"{name} frozen before it", cure)
