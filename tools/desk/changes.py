"""What an accepted event changes: the aerodrome and the flights after it."""

from collections.abc import Mapping
from dataclasses import dataclass, replace

from tools.desk.model import (
    Add,
    Aerodrome,
    Cancel,
    Clock,
    Close,
    Estimate,
    Event,
    Flight,
    Frozen,
    Passed,
    Plan,
    Reopen,
    in_turn,
)


@dataclass(frozen=True)
class Situation:
    """The aerodrome and its active flights in order of arrival."""

    aerodrome: Aerodrome
    flights: tuple[Flight, ...]

    def flight(self, callsign: str) -> Flight | None:
        """The active flight of a callsign."""
        return next((it for it in self.flights if it.callsign == callsign), None)

    def waiting(self) -> list[Flight]:
        """The flights that are not frozen, in first-come order."""
        frozen = {it.callsign for it in self.aerodrome.frozen}
        return in_turn([it for it in self.flights if it.callsign not in frozen])


def situation_after(now: Situation, event: Event, plan: Plan | None) -> Situation:
    """The situation after an event that was accepted. The plan is the one shown before it."""
    aerodrome, flights = now.aerodrome, now.flights
    match event:
        case Estimate(callsign, eta, windows):
            revised = (replace(it, eta=eta, windows=windows) if it.callsign == callsign else it for it in flights)
            return Situation(aerodrome, tuple(revised))
        case Cancel(callsign):
            passed = tuple(it for it in aerodrome.passed if it.callsign != callsign)
            return Situation(replace(aerodrome, passed=passed), tuple(it for it in flights if it.callsign != callsign))
        case Add(flight):
            return Situation(aerodrome, (*flights, flight))
        case Close(span):
            return Situation(replace(aerodrome, closures=(*aerodrome.closures, span)), flights)
        case Reopen(span):
            first = aerodrome.closures.index(span)
            closures = aerodrome.closures[:first] + aerodrome.closures[first + 1 :]
            return Situation(replace(aerodrome, closures=closures), flights)
        case Clock(second):
            return Situation(_clocked(now, second, plan), flights)


def _clocked(now: Situation, second: int, plan: Plan | None) -> Aerodrome:
    """The aerodrome after a clock event, which freezes what the plan shown lands before the new horizon."""
    aerodrome = now.aerodrome
    known = {it.callsign for it in aerodrome.frozen}
    landings = plan.landings if plan else ()
    soon = (it for it in landings if it.second < second + aerodrome.freeze)
    new = {it.callsign: it.second for it in soon if it.callsign not in known}
    frozen = aerodrome.frozen + tuple(Frozen(*it) for it in new.items())
    return replace(aerodrome, clock=second, frozen=frozen, passed=_counts(now, new))


def _counts(now: Situation, new: Mapping[str, int]) -> tuple[Passed, ...]:
    """The counts when these freeze.

    With the carry each flight that still waits was passed by those of them that stood behind it in first-come order,
    before the event. No count is above k, and a count of 0 is not written.
    """
    aerodrome = now.aerodrome
    if not aerodrome.carries:
        return aerodrome.passed
    before = {it.callsign: it.count for it in aerodrome.passed}
    counts, behind = [], 0
    for flight in reversed(now.waiting()):
        if flight.callsign in new:
            behind += 1
            continue
        count = min(aerodrome.k, before.get(flight.callsign, 0) + behind)
        if count:
            counts.append(Passed(flight.callsign, count))
    return tuple(reversed(counts))
