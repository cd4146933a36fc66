"""What a picture shows: its rows, the seconds from side to side, and the ticks. Nothing here knows how it is drawn."""

from collections.abc import Iterator, Sequence
from dataclasses import dataclass

from tools.desk.model import Aerodrome, Flight, Landing, Plan, Span, in_turn

# A tick stands at the multiples of the first of these steps of which MOST_STEPS hold what is seen.
STEPS = (10, 20, 30, 60, 120, 300, 600, 900, 1_800, 3_600, 7_200, 14_400, 21_600)
MOST_STEPS = 11
LEAST_SECONDS = 60  # from side to side
LEAST_REACH = 150  # so far beside the landings an estimate is seen in any case

# How many callsigns the findings of `audit` name; those that are not here name none.
CALLSIGNS_NAMED = {
    "missing": 1,
    "unknown": 1,
    "twice": 1,
    "mark": 1,
    "closed": 1,
    "separation": 2,
    "precedence": 2,
    "moved": 1,
    "early": 1,
    "shift": 1,
}


@dataclass(frozen=True)
class Row:
    """A flight of the picture. What a wrong plan lands may be no flight of the file."""

    callsign: str
    flight: Flight | None
    landing: Landing | None
    rank: int | None = None
    place: int | None = None
    owed: int | None = None  # the first second at which the table lets the next row's flight land
    flagged: bool = False  # whether a finding is about it


@dataclass(frozen=True)
class Frame:
    """The seconds that are seen, both ends included."""

    first: int
    last: int

    @property
    def seconds(self) -> int:
        return self.last - self.first

    def holds(self, second: int) -> bool:
        return self.first <= second <= self.last

    def ticks(self) -> range:
        """The seconds that get a tick."""
        step = next((it for it in STEPS if it * MOST_STEPS >= self.seconds), STEPS[-1])
        return range(-(-self.first // step) * step, self.last + 1, step)


@dataclass(frozen=True)
class Scene:
    """All that a picture shows."""

    plan: Plan | None
    horizon: int
    closures: tuple[Span, ...]
    rows: tuple[Row, ...]
    findings: tuple[str, ...]
    frame: Frame


def scene_of(aerodrome: Aerodrome, flights: Sequence[Flight], plan: Plan | None, findings: Sequence[str]) -> Scene:
    """The scene of a plan, right or wrong, in the opening situation of the files. The findings are lines of `audit`.

    Where there is no plan, the frozen flights are seen at their seconds.
    """
    landings = plan.landings if plan else tuple(Landing(it.callsign, it.second, True) for it in aerodrome.frozen)
    rows = _rows(aerodrome, flights, landings, named(findings, landings))
    return Scene(plan, aerodrome.horizon, aerodrome.closures, rows, tuple(findings), frame_of(rows, aerodrome.horizon))


def named(findings: Sequence[str], landings: Sequence[Landing]) -> set[str]:
    """The callsigns that the findings are about. Lines that are out of order are named by their number."""
    found: set[str] = set()
    for finding in findings:
        kind, *words = finding.split()
        if kind == "order":
            found.add(landings[int(words[0]) - 1].callsign)
        found.update(words[: CALLSIGNS_NAMED.get(kind, 0)])
    return found


def _rows(
    aerodrome: Aerodrome, flights: Sequence[Flight], landings: Sequence[Landing], flagged: set[str]
) -> tuple[Row, ...]:
    """A row for each landing, in landing order, and then for each flight without one, in first-come order."""
    known = {flight.callsign: flight for flight in flights}
    frozen = {it.callsign for it in aerodrome.frozen}
    ranks = {it.callsign: rank for rank, it in enumerate(in_turn([f for f in flights if f.callsign not in frozen]), 1)}
    ordered = sorted(landings, key=lambda it: (it.second, it.callsign))
    waiting = [it.second for it in ordered if it.callsign in ranks]
    rows = []
    for landing, follower in zip(ordered, [*ordered[1:], None]):
        callsign = landing.callsign
        place = 1 + sum(second < landing.second for second in waiting) if callsign in ranks else None
        owed = _owed(aerodrome, known, landing, follower)
        rows.append(Row(callsign, known.get(callsign), landing, ranks.get(callsign), place, owed, callsign in flagged))
    landed = {it.callsign for it in landings}
    for flight in in_turn([it for it in flights if it.callsign not in landed]):
        callsign = flight.callsign
        rows.append(Row(callsign, flight, None, ranks.get(callsign), flagged=callsign in flagged))
    return tuple(rows)


def _owed(aerodrome: Aerodrome, known: dict[str, Flight], landing: Landing, follower: Landing | None) -> int | None:
    """The first second at which the table lets the follower land."""
    if follower is None or landing.callsign not in known or follower.callsign not in known:
        return None
    leader = known[landing.callsign].category
    return landing.second + aerodrome.separation(leader, known[follower.callsign].category)


def frame_of(rows: Sequence[Row], horizon: int) -> Frame:
    """The frame of the landings, and of the estimates of flights without one.

    What else there is widens it where it is near, so that the landings take half of the width at least.
    """
    held = [it for row in rows if (it := _anchor(row)) is not None] or [horizon]
    first, last = min(held), max(held)
    reach = max((last - first) // 2, LEAST_REACH)
    near = [it for it in _beside(rows, horizon) if first - reach <= it <= last + reach]
    first, last = min([first, *near]), max([last, *near])
    return Frame(first, max(last, first + LEAST_SECONDS))


def _anchor(row: Row) -> int | None:
    """The second that the frame holds for a row in any case."""
    if row.landing:
        return row.landing.second
    return row.flight.eta if row.flight else None


def _beside(rows: Sequence[Row], horizon: int) -> Iterator[int]:
    """The seconds that the frame holds where they are near: estimates, the horizon, windows of unlanded flights."""
    if horizon:
        yield horizon
    for row in rows:
        if row.flight:
            yield row.flight.eta
            if row.landing is None:
                yield from (it for span in row.flight.windows for it in (span.first, span.last))
