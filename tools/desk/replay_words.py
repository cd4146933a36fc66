"""A moment of a replay as a line for people, and as rows for a data frame."""

from collections.abc import Iterable, Iterator

from tools.desk import clock
from tools.desk.event_words import counted, refusal_words
from tools.desk.files import event_fields
from tools.desk.model import Frozen, Landing, Objective, Plan, in_turn
from tools.desk.moments import Moment, Move

COLUMNS = [
    "event",
    "record",
    "row",
    "kind",
    "outcome",
    "clock",
    "horizon",
    "value",
    "callsign",
    "category",
    "weight",
    "eta",
    "state",
    "lands",
    "lands_clock",
    "delay",
    "rank",
    "place",
    "passed",
    "moved_seconds",
    "moved_places",
    "froze",
]
KIND = 0  # of the fields of an event


def line(moment: Moment) -> str:
    """What happened, in one line."""
    parts = [f"event {moment.number}"]
    if moment.event:
        parts += [f"record {moment.record}", f"row {moment.row}"]
    if moment.clock is not None:
        parts.append(f"at {clock.shown(moment.clock)}")
    start = f"{', '.join(parts)}: {moment.happened}"
    if moment.event and moment.refusal is not None:
        return f"{start}: refused: {refusal_words(moment.refusal, moment.event)}"
    answer = [("accepted; " if moment.event else "") + value_words(moment.plan)]
    if moment.froze:
        answer.append("froze " + ", ".join(map(_froze_words, moment.froze)))
    if moment.moves:
        # Where a moment had no plan, the moves are counted from the plan before it.
        since = "" if moment.since == moment.number - 1 else f" since event {moment.since}"
        answer.append(f"moved{since} " + ", ".join(map(_move_words, moment.moves)))
    return f"{start}: {'; '.join(answer)}"


def value_words(plan: Plan | None) -> str:
    """A plan's value, and on the clock where it is a second."""
    if plan is None:
        return "infeasible"
    on_clock = f" ({clock.shown(plan.value)})" if plan.objective is Objective.MAKESPAN else ""
    return f"{plan.objective} {plan.value}{on_clock}"


def _froze_words(landing: Landing) -> str:
    return f"{landing.callsign} {clock.shown(landing.second)}"


def _move_words(move: Move) -> str:
    parts = [f"{move.seconds:+} s"] if move.seconds else []
    if move.places:
        parts.append(f"{counted(abs(move.places), 'place')} {'back' if move.places > 0 else 'ahead'}")
    return f"{move.callsign} {' '.join(parts)}"


def csv_rows(moments: Iterable[Moment]) -> Iterator[list]:
    """A row for each event and each flight that is active after it. Times are seconds; what is not there is empty."""
    yield COLUMNS
    for moment in moments:
        yield from _rows(moment)


def _rows(moment: Moment) -> Iterator[list]:
    kind = event_fields(moment.event)[KIND] if moment.event else "opening"
    outcome = "accepted" if moment.refusal is None else f"refused {moment.refusal}"
    value = moment.plan.value if moment.plan else "infeasible"
    head = [moment.number, moment.record, moment.row, kind, outcome, moment.clock, moment.horizon, value]
    frozen = {it.callsign: it for it in moment.aerodrome.frozen}
    waiting = [it for it in moment.flights if it.callsign not in frozen]
    ranks = {it.callsign: rank for rank, it in enumerate(in_turn(waiting), 1)}
    seconds = _landings(moment, frozen)
    places = {callsign: place for place, callsign in enumerate((it for it in seconds if it in ranks), 1)}
    passed = {it.callsign: it.count for it in moment.aerodrome.passed}
    moves = {it.callsign: it for it in moment.moves}
    froze = {it.callsign for it in moment.froze}
    for flight in moment.flights:
        callsign, second = flight.callsign, seconds.get(flight.callsign)
        landed = [None] * 3 if second is None else [second, clock.shown(second), flight.delay(second)]
        move = moves.get(callsign)
        moved = (move.seconds, move.places) if move else (0, 0)
        yield [
            *head,
            *(callsign, flight.category, flight.weight, flight.eta, "frozen" if callsign in frozen else "waiting"),
            *landed,
            *(ranks.get(callsign), places.get(callsign), passed.get(callsign, 0)),
            *(*moved, int(callsign in froze)),
        ]


def _landings(moment: Moment, frozen: dict[str, Frozen]) -> dict[str, int]:
    """The second of each flight that lands. Where no plan is feasible, the frozen ones alone have theirs."""
    return moment.seconds if moment.plan else {it.callsign: it.second for it in frozen.values()}
