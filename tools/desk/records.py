"""The records of a table, strict or a sheet's, as flights and events, with all of their faults."""

from collections.abc import Iterable
from dataclasses import dataclass

from tools.desk import clock, fields
from tools.desk.faults import Fault, Place
from tools.desk.fields import Field
from tools.desk.model import (
    EVENT_COLUMNS,
    FLIGHT_COLUMNS,
    MOST_ACTIVE,
    MOST_EVENTS,
    Add,
    Cancel,
    Clock,
    Close,
    Estimate,
    Event,
    Flight,
    Reopen,
    Span,
)

# The columns that each kind of event uses; the others are empty.
USES = {
    "estimate": ["callsign", "eta", "windows"],
    "cancel": ["callsign"],
    "add": FLIGHT_COLUMNS,
    "close": ["windows"],
    "reopen": ["windows"],
    "clock": ["eta"],
}


@dataclass
class Row:
    """A record: its file and line, its text by column, and where its faults go.

    A column without a text is not read. Where people wrote the row it is lenient, and an empty window is that of so
    many seconds from the estimate on.
    """

    file: str
    line: int
    texts: dict[str, str]
    faults: list[Fault]
    window: int | None = None

    @property
    def lenient(self) -> bool:
        """Whether people wrote it."""
        return self.window is not None

    def field(self, column: str) -> Field:
        """The field of a column."""
        return Field(Place(self.file, self.line, column), self.texts.get(column, ""), self.faults, self.lenient)

    def is_empty(self, column: str) -> bool:
        """Whether nothing stands in a column."""
        text = self.texts.get(column, "")
        return not (text.strip() if self.lenient else text)


@dataclass
class _Parts:
    """What the fields of a record say, None where one has a fault or is not there."""

    callsign: str | None = None
    category: str | None = None
    eta: int | None = None
    weight: int | None = None
    windows: tuple[Span, ...] | None = None
    after: tuple[str, ...] | None = None


_READERS = {
    "callsign": fields.callsign,
    "category": fields.category,
    "eta": fields.second,
    "weight": fields.weight,
    "windows": fields.windows,
    "after": fields.after,
}


def _parts(row: Row, columns: Iterable[str]) -> _Parts:
    parts = _Parts()
    for column in columns:
        if column == "windows" and row.window is not None and row.is_empty(column):
            if parts.eta is not None:
                parts.windows = (Span(parts.eta, min(parts.eta + row.window, clock.LAST_SECOND)),)
        elif column in row.texts:
            setattr(parts, column, _READERS[column](row.field(column)))
    if parts.after and parts.callsign in parts.after:
        row.field("after").refuse("other flights", "a flight cannot land before itself", parts.callsign)
        parts.after = None
    return parts


def _flight(row: Row) -> tuple[str | None, Flight | None]:
    """The callsign, and the flight where no field has a fault."""
    it = _parts(row, FLIGHT_COLUMNS)
    if None in (it.callsign, it.category, it.eta, it.weight, it.windows, it.after):
        return it.callsign, None
    return it.callsign, Flight(it.callsign, it.category, it.eta, it.weight, it.windows, it.after, row.line)


def flights_of(rows: Iterable[Row]) -> list[Flight]:
    """The flights without a fault. All faults are noted in the rows."""
    flights, lines = [], {}
    for count, row in enumerate(rows, 1):
        callsign, flight = _flight(row)
        if callsign in lines:
            row.field("callsign").refuse("a callsign that no other row has", f"row {lines[callsign]} has it too")
        elif callsign is not None:
            lines[callsign] = row.line
        if count == MOST_ACTIVE + 1:
            row.faults.append(Fault(Place(row.file, row.line), None, f"at most {MOST_ACTIVE} flights"))
        if flight is not None:
            flights.append(flight)
    return flights


def events_of(rows: Iterable[Row]) -> list[Event]:
    """The events without a fault. All faults are noted in the rows."""
    events = []
    for count, row in enumerate(rows, 1):
        event = _event(row)
        if event is not None:
            events.append(event)
        if count == MOST_EVENTS + 1:
            row.faults.append(Fault(Place(row.file, row.line), None, f"at most {MOST_EVENTS} events"))
    return events


def _event(row: Row) -> Event | None:
    if "kind" not in row.texts:
        return None
    field = row.field("kind")
    kind = field.plain.lower() if row.lenient else field.plain
    if kind not in USES:
        field.refuse(f"one of the kinds {', '.join(USES)}", _kind_cure(field.text))
        return None
    known = len(row.faults)
    _refuse_others(row, kind)
    event = _event_of(row, kind)
    return event if len(row.faults) == known else None


def _kind_cure(text: str) -> str:
    tidy = text.strip().lower()
    likely = [kind for kind in USES if tidy and (tidy == kind or tidy.startswith(kind[:3]))]
    return f"write {likely[0]}" if likely else ""


def _refuse_others(row: Row, kind: str) -> None:
    """Refuses what stands in a column that the kind does not use."""
    for column in EVENT_COLUMNS[1:]:
        if column not in USES[kind] and not row.is_empty(column):
            used = " and ".join(USES[kind])
            row.field(column).refuse("nothing here", f"the kind {kind} has {used} alone{_likely(row, kind, column)}")


def _likely(row: Row, kind: str, column: str) -> str:
    """The column in which a text is likely meant to stand: the kind's one that is empty."""
    empty = [it for it in USES[kind] if it in row.texts and row.is_empty(it)]
    return f"; is it meant for {empty[0]}?" if len(empty) == 1 and empty[0] != column else ""


def _event_of(row: Row, kind: str) -> Event | None:
    """The event, which counts only where no field has a fault."""
    if kind == "add":
        flight = _flight(row)[1]
        return flight and Add(flight, row.line)
    if kind in ("close", "reopen"):
        if "windows" not in row.texts:
            return None
        span = fields.span_of(row.field("windows"))
        return span and (Close if kind == "close" else Reopen)(span, row.line)
    it = _parts(row, USES[kind])
    if kind == "clock":
        return None if it.eta is None else Clock(it.eta, row.line)
    if it.callsign is None:
        return None
    if kind == "cancel":
        return Cancel(it.callsign, row.line)
    if it.eta is None or it.windows is None:
        return None
    return Estimate(it.callsign, it.eta, it.windows, row.line)
