"""The strict files of the program: read into the model, and written from it."""

import functools
from collections.abc import Sequence
from pathlib import Path

from tools.desk import plan_reader
from tools.desk.aerodrome_reader import aerodrome_of
from tools.desk.faults import Refused
from tools.desk.model import (
    EVENT_COLUMNS,
    FLIGHT_COLUMNS,
    Add,
    Aerodrome,
    Cancel,
    Clock,
    Close,
    Estimate,
    Event,
    Flight,
    Landing,
    Objective,
    Plan,
    Reopen,
    Span,
    Step,
)
from tools.desk.records import events_of, flights_of
from tools.desk.strict_tables import strict_rows


CACHED = 8_192  # so many flights and landings are kept, as the moments of a replay have most of theirs in common


def read_aerodrome(path: str) -> Aerodrome:
    """The aerodrome of a file. Refuses the file with all of its faults."""
    aerodrome, faults = aerodrome_of(path, Path(path).read_bytes())
    if aerodrome is None:
        raise Refused(faults)
    return aerodrome


def read_flights(path: str) -> list[Flight]:
    """The flights of a flight file, in its order. Refuses the file with all of its faults."""
    rows, faults = strict_rows(path, Path(path).read_bytes(), FLIGHT_COLUMNS)
    flights = flights_of(rows)
    if faults:
        raise Refused(faults)
    return flights


def read_events(path: str) -> list[Event]:
    """The events of a log. Event I is record I + 1, and its line is its `row`. Refuses it with all of its faults."""
    rows, faults = strict_rows(path, Path(path).read_bytes(), EVENT_COLUMNS)
    events = events_of(rows)
    if faults:
        raise Refused(faults)
    return events


def read_plan(path: str, name: str) -> Plan | None:
    """The plan of a plan file, None for `infeasible`. Refuses the file, by a name, with all of its faults."""
    plan, faults = plan_reader.plan_of(name, Path(path).read_bytes())
    if faults:
        raise Refused(faults)
    return plan


def plan_of(text: str) -> Plan | None:
    """The plan of a printed block, None for `infeasible`."""
    head, *lines = text.splitlines()
    if head == "infeasible":
        return None
    objective, value = head.split()
    return Plan(Objective(objective), int(value), tuple(map(_landing, lines)))


@functools.lru_cache(CACHED)
def _landing(line: str) -> Landing:
    _, callsign, second, mark = line.split()
    return Landing(callsign, int(second), mark == "frozen")


def steps_of(text: str) -> list[Step]:
    """The events of a printed replay, from event 0, the opening, on."""
    blocks = ("\n" + text).split("\nevent ")[1:]
    return [_step(*block.split("\n", 1)) for block in blocks]


def _step(head: str, block: str = "") -> Step:
    number, word, *cause = head.split(" ", 2)
    if word == "refused":
        return Step(int(number), cause[0].strip(), None)
    return Step(int(number), None, plan_of(block))


def plan_text(plan: Plan | None) -> str:
    """A plan block."""
    if plan is None:
        return "infeasible\n"
    lines = (f"land {it.callsign} {it.second} {'frozen' if it.frozen else 'waiting'}\n" for it in plan.landings)
    return f"{plan.objective} {plan.value}\n{''.join(lines)}"


def aerodrome_text(aerodrome: Aerodrome) -> str:
    """An aerodrome file, of the least version from the aerodrome's on that has its keys."""
    version = aerodrome.version
    if aerodrome.clock is not None or aerodrome.frozen:
        version = max(version, 2)
    if aerodrome.passed:
        version = 3
    lines = [f"version = {version}", f"k = {aerodrome.k}", f"freeze = {aerodrome.freeze}"]
    lines.append(f'objective = "{aerodrome.objective}"')
    if aerodrome.clock is not None:
        lines.append(f"clock = {aerodrome.clock}")
    lines += ["", "[table]", *(f"{letter} = {list(row)}" for letter, row in aerodrome.table.items())]
    for span in aerodrome.closures:
        lines += ["", "[[closures]]", f"from = {span.first}", f"to = {span.last}"]
    for it in aerodrome.frozen:
        lines += ["", "[[frozen]]", f'callsign = "{it.callsign}"', f"second = {it.second}"]
    for it in aerodrome.passed:
        lines += ["", "[[passed]]", f'callsign = "{it.callsign}"', f"count = {it.count}"]
    return "\n".join(lines) + "\n"


def flights_text(flights: Sequence[Flight]) -> str:
    """A flight file."""
    return "".join([_line(FLIGHT_COLUMNS), *map(_flight_line, flights)])


def events_text(events: Sequence[Event]) -> str:
    """An event log."""
    return "".join([_line(EVENT_COLUMNS), *(_line(event_fields(it)) for it in events)])


def spans_text(spans: Sequence[Span]) -> str:
    """Windows, or one span, as the files have them."""
    return ";".join(f"{span.first}-{span.last}" for span in spans)


def flight_fields(flight: Flight) -> list[str]:
    """A flight's record."""
    return [
        flight.callsign,
        flight.category,
        str(flight.eta),
        str(flight.weight),
        spans_text(flight.windows),
        ";".join(flight.after),
    ]


def event_fields(event: Event) -> list[str]:
    """An event's record."""
    match event:
        case Estimate(callsign, eta, windows):
            return ["estimate", callsign, "", str(eta), "", spans_text(windows), ""]
        case Cancel(callsign):
            return ["cancel", callsign, "", "", "", "", ""]
        case Add(flight):
            return ["add", *flight_fields(flight)]
        case Close(span):
            return ["close", "", "", "", "", spans_text([span]), ""]
        case Reopen(span):
            return ["reopen", "", "", "", "", spans_text([span]), ""]
        case Clock(second):
            return ["clock", "", "", str(second), "", "", ""]


@functools.lru_cache(CACHED)
def _flight_line(flight: Flight) -> str:
    return _line(flight_fields(flight))


def _line(fields: Sequence[str]) -> str:
    """A record. No field of these files holds a comma, a quote or a line end."""
    return ",".join(fields) + "\n"
