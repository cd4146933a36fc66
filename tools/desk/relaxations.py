"""What may be relaxed of an infeasible bank, one thing at a time, and which of these make it feasible."""

from collections.abc import Callable, Collection, Iterator, Sequence
from dataclasses import dataclass, replace

from tools.desk import clock, files, program
from tools.desk.changes import Situation
from tools.desk.event_words import span_words
from tools.desk.model import MOST_WINDOW_SECONDS, Flight, Objective, Plan, Span


@dataclass(frozen=True, eq=False)
class Relaxation:
    """A situation with one thing relaxed, and that thing in words."""

    kind: str
    said: str
    situation: Situation


def relaxations(now: Situation, core: Collection[str], most_shift: int) -> list[Relaxation]:
    """Those of k, of the closures, and of the waiting flights of a conflict's core. k takes longest and comes first."""
    flights = [it for it in now.waiting() if it.callsign in core]
    of_flights = (part(now, flights) for part in (_of_windows, _of_after, _left_out))
    return [it for part in (_of_shift(now, most_shift), _of_closures(now), *of_flights) for it in part]


def _of_shift(now: Situation, most: int) -> Iterator[Relaxation]:
    for k in range(min(most, now.aerodrome.most_shift()), now.aerodrome.k, -1):
        yield Relaxation("k", f"k = {k}", replace(now, aerodrome=replace(now.aerodrome, k=k)))


def _of_closures(now: Situation) -> Iterator[Relaxation]:
    closures = now.aerodrome.closures
    for number, span in enumerate(closures):
        others = closures[:number] + closures[number + 1 :]
        said = f"without the closure {span_words(span)}"
        yield Relaxation("closures", said, replace(now, aerodrome=replace(now.aerodrome, closures=others)))


def _of_windows(now: Situation, flights: Sequence[Flight]) -> Iterator[Relaxation]:
    for flight in flights:
        first = min(flight.eta, flight.windows[0].first)
        window = Span(first, min(first + MOST_WINDOW_SECONDS - 1, clock.LAST_SECOND))
        said = f"{flight.callsign} may land {span_words(window)}"
        yield Relaxation("windows", said, _with(now, replace(flight, windows=(window,))))


def _of_after(now: Situation, flights: Sequence[Flight]) -> Iterator[Relaxation]:
    active = {it.callsign for it in now.flights}
    for flight in flights:
        for before in flight.after:
            if before in active:
                after = tuple(it for it in flight.after if it != before)
                said = f"{flight.callsign} need not land after {before}"
                yield Relaxation("precedences", said, _with(now, replace(flight, after=after)))


def _left_out(now: Situation, flights: Sequence[Flight]) -> Iterator[Relaxation]:
    for flight in flights:
        others = {it.callsign for it in now.flights} - {flight.callsign}
        yield Relaxation("flights left out", f"without {flight.callsign}", only(now, others))


def _with(now: Situation, changed: Flight) -> Situation:
    flights = (changed if it.callsign == changed.callsign else it for it in now.flights)
    return replace(now, flights=tuple(flights))


def only(now: Situation, callsigns: Collection[str]) -> Situation:
    """The situation without all other waiting flights, and without their counts."""
    frozen = {it.callsign for it in now.aerodrome.frozen}
    flights = tuple(it for it in now.flights if it.callsign in callsigns or it.callsign in frozen)
    passed = tuple(it for it in now.aerodrome.passed if it.callsign in callsigns)
    return Situation(replace(now.aerodrome, passed=passed), flights)


@dataclass(frozen=True)
class Conflict:
    """The smallest infeasible group from the front of the first-come order, and the last of it that are so alone."""

    front: list[str]
    core: list[str]


def conflict(now: Situation) -> Conflict:
    """Finds both by halves, in an infeasible situation.

    Of a schedule of some flights in first-come order the last may be taken out, and the first too where none has a
    count: no rule is broken by that. So what concerns only flights beside the core leaves the whole infeasible.
    """
    names = [it.callsign for it in now.waiting()]
    front = names[: _least(len(names), lambda size: not is_feasible(only(now, names[:size])))]
    if now.aerodrome.passed:
        return Conflict(front, front)
    size = _least(len(front), lambda size: not is_feasible(only(now, front[-size:])))
    return Conflict(front, front[-size:])


def _least(most: int, holds: Callable[[int], bool]) -> int:
    """The least number from 1 on for which it holds, as it does for the most and for all above the least."""
    low, high = 0, most
    while high - low > 1:
        middle = (low + high) // 2
        low, high = (low, middle) if holds(middle) else (middle, high)
    return high


def is_feasible(now: Situation) -> bool:
    """Whether a schedule is feasible. It does not depend on the objective, and the makespan is planned soonest."""
    return plan_of(replace(now, aerodrome=replace(now.aerodrome, objective=Objective.MAKESPAN))) is not None


def plan_of(now: Situation) -> Plan | None:
    """The plan of a situation."""
    answer = program.run_texts("plan", files.aerodrome_text(now.aerodrome), files.flights_text(now.flights))
    if answer.refused:
        raise program.NoProgram(f"the program gives no answer: {answer.err.strip()}")
    return files.plan_of(answer.out)


def relaxed_plan(relaxation: Relaxation, core: Collection[str]) -> Plan | None:
    """The plan with one thing relaxed, if there is one. Where the core is infeasible still, and that is soon asked, so
    are all."""
    now = relaxation.situation
    return plan_of(now) if is_feasible(only(now, core)) else None
