"""A replay as data: for each event what happened, the situation and the plan then, and who moved since the plan before.

`moments_of` walks along the log beside what `cps replay` printed. The program alone decides what is accepted and
planned; here its rules of what an event changes are followed, so that the files of a moment can be written. `audit` and
`plan` judge them.
"""

from collections.abc import Iterable, Iterator, Sequence
from dataclasses import dataclass

from tools.desk.changes import Situation, situation_after
from tools.desk.event_words import event_words, opening_words
from tools.desk.model import Aerodrome, Event, Flight, Landing, Plan, Span, Step


@dataclass(frozen=True)
class Move:
    """A flight that lands at another second, or in another place, than in the plan before.

    The seconds are above 0 where it lands later. The places are above 0 where it lands further back, counted among the
    flights that both plans land: who comes in or goes away shifts nobody's place.
    """

    callsign: str
    seconds: int
    places: int


@dataclass(frozen=True)
class Moment:
    """The moment after an event, 0 for the opening. After a refused event all is as before it, and nobody moved."""

    number: int
    event: Event | None  # None for the opening
    happened: str  # the event in words, as "cancel BAW12" or "clock 10:30:00, horizon 10:45:00"
    refusal: str | None  # None where it was accepted, or else the program's words, as "frozen 37800"
    aerodrome: Aerodrome  # with the closures, the clock, the frozen landings and the counts of this moment
    flights: tuple[Flight, ...]  # the active flights, frozen ones too, in order of arrival
    plan: Plan | None  # None where no plan is feasible
    since: int | None  # the moment whose plan the moves are counted from: the last before that has a plan
    moves: tuple[Move, ...]  # in landing order
    froze: tuple[Landing, ...]  # what this event froze, in landing order

    @property
    def accepted(self) -> bool:
        return self.refusal is None

    @property
    def record(self) -> int | None:
        """The number of the event's record, of which the header is the first. The opening has none."""
        return self.number + 1 if self.event else None

    @property
    def row(self) -> int | None:
        """The line of the log, as an editor counts it."""
        return self.event.row if self.event else None

    @property
    def clock(self) -> int | None:
        """The last clock second."""
        return self.aerodrome.clock

    @property
    def horizon(self) -> int:
        return self.aerodrome.horizon

    @property
    def closures(self) -> tuple[Span, ...]:
        return self.aerodrome.closures

    @property
    def seconds(self) -> dict[str, int]:
        """The second of each flight that the plan lands."""
        return {it.callsign: it.second for it in self.plan.landings} if self.plan else {}


def moments_of(
    aerodrome: Aerodrome, flights: Sequence[Flight], events: Sequence[Event], steps: Iterable[Step]
) -> Iterator[Moment]:
    """The moments of a replay, the opening first. The steps are what the program printed, one more than events."""
    steps = iter(steps)
    now = Situation(aerodrome, tuple(flights))
    plan = next(steps).plan
    shown = (0, plan) if plan else None  # the last plan there was, and its moment
    yield Moment(0, None, opening_words(now), None, *_files(now), plan, None, (), ())
    for number, (event, step) in enumerate(zip(events, steps, strict=True), 1):
        said = event_words(event, now)
        since = shown[0] if shown else None
        if step.refusal is not None:
            yield Moment(number, event, said, step.refusal, *_files(now), plan, since, (), ())
        else:
            before, now, plan = now, situation_after(now, event, plan), step.plan
            moves = moves_between(shown[1], plan) if shown and plan else ()
            yield Moment(number, event, said, None, *_files(now), plan, since, moves, _froze(before, now))
        if plan:
            shown = number, plan


def _files(now: Situation) -> tuple[Aerodrome, tuple[Flight, ...]]:
    return now.aerodrome, now.flights


def _froze(before: Situation, now: Situation) -> tuple[Landing, ...]:
    """What is frozen now and was not before. Frozen landings are only ever put behind the others."""
    new = now.aerodrome.frozen[len(before.aerodrome.frozen) :]
    return tuple(Landing(it.callsign, it.second, True) for it in new)


def moves_between(before: Plan, after: Plan) -> tuple[Move, ...]:
    """Who moved from one plan to another, in the landing order of the latter."""
    start = _same(before.landings, after.landings)
    old = {it.callsign: it.second for it in before.landings[start:]}
    new = {it.callsign: it.second for it in after.landings[start:]}
    places = {callsign: place for place, callsign in enumerate(it for it in old if it in new)}
    both = [callsign for callsign in new if callsign in old]
    moves = (Move(it, new[it] - old[it], place - places[it]) for place, it in enumerate(both))
    return tuple(it for it in moves if it.seconds or it.places)


def _same(before: Sequence[Landing], after: Sequence[Landing]) -> int:
    """With how many equal landings both begin. These have not moved, and shift nobody's place."""
    pairs = enumerate(zip(before, after))
    differs = (at for at, (one, two) in pairs if (one.second, one.callsign) != (two.second, two.callsign))
    return next(differs, min(len(before), len(after)))
