"""A plan flight by flight: when each is due and lands, how far it moved, and how far behind the one ahead it lands."""

from collections.abc import Iterable, Sequence
from dataclasses import dataclass

from tools.desk.model import Aerodrome, Flight, Plan, in_turn

AIRLINE = 3  # so many letters of a callsign name the airline


@dataclass(frozen=True)
class Landed:
    """A flight of a table. What a wrong plan lands may be no flight of the file, and a flight may not be landed."""

    callsign: str
    flight: Flight | None
    second: int | None = None
    frozen: bool = False
    moved: int | None = None  # places from first-come order, above 0 for further back; waiting flights alone move
    behind: int | None = None  # seconds behind the landing ahead
    owed: int | None = None  # the seconds that the table wants there

    @property
    def delay(self) -> int | None:
        """The seconds after the estimate."""
        return self.flight.delay(self.second) if self.flight and self.second is not None else None


def landed(aerodrome: Aerodrome, flights: Sequence[Flight], plan: Plan | None) -> list[Landed]:
    """The flights that a plan lands, by their seconds, and then those that it does not land, in first-come order."""
    known = {it.callsign: it for it in flights}
    frozen = {it.callsign for it in aerodrome.frozen}
    waiting = in_turn([it for it in flights if it.callsign not in frozen])
    ranks = {it.callsign: rank for rank, it in enumerate(waiting, 1)}
    landings = sorted(plan.landings if plan else (), key=lambda it: it.second)
    rows, place, ahead = [], 0, None
    for it in landings:
        flight, moved = known.get(it.callsign), None
        if it.callsign in ranks:
            place += 1
            moved = place - ranks[it.callsign]
        behind = it.second - ahead.second if ahead else None
        leader = known.get(ahead.callsign) if ahead else None
        owed = aerodrome.separation(leader.category, flight.category) if leader and flight else None
        rows.append(Landed(it.callsign, flight, it.second, it.frozen, moved, behind, owed))
        ahead = it
    there = {it.callsign for it in landings}
    return rows + [Landed(it.callsign, it) for it in in_turn([it for it in flights if it.callsign not in there])]


@dataclass(frozen=True)
class Sum:
    """The delays of some flights together."""

    name: str
    flights: int
    delay: int
    weighted: int


def sums(delays: Iterable[tuple[Flight, int]]) -> list[Sum]:
    """The delays by the airline, which the first letters of the callsigns name, and then of all."""
    delays = list(delays)
    names = sorted({it.callsign[:AIRLINE] for it, _ in delays})
    parts = [_sum(name, [it for it in delays if it[0].callsign[:AIRLINE] == name]) for name in names]
    return [*parts, _sum("all", delays)]


def _sum(name: str, delays: Sequence[tuple[Flight, int]]) -> Sum:
    weighted = sum(flight.weight * delay for flight, delay in delays)
    return Sum(name, len(delays), sum(delay for _, delay in delays), weighted)
