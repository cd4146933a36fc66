"""The rows of a sheet as people and spreadsheets write it, and what was assumed in reading it."""

from collections.abc import Sequence
from dataclasses import dataclass, field

from tools.desk import tables
from tools.desk.faults import Fault, Place, Refused
from tools.desk.model import EVENT_COLUMNS, FLIGHT_COLUMNS
from tools.desk.records import Row

# Other words by which a column may be headed.
NAMES = {
    "kind": ["event", "type"],
    "callsign": ["call sign", "flight", "ident"],
    "category": ["cat", "wake", "wake category", "recat", "wtc"],
    "eta": ["estimate", "estimated", "due", "time"],
    "weight": ["priority"],
    "windows": ["window"],
    "after": ["behind", "lands after"],
}
NEEDED = {"flights": ["callsign", "category", "eta"], "events": ["kind"]}


@dataclass
class Sheet:
    """The rows of a sheet, their faults, and what was assumed."""

    file: str
    rows: list[Row] = field(default_factory=list)
    faults: list[Fault] = field(default_factory=list)
    notes: list[str] = field(default_factory=list)


def read_sheet(file: str, data: bytes, what: str, window: int) -> Sheet:
    """A sheet of `flights` or of `events`. An empty window becomes one of so many seconds from the estimate."""
    columns = FLIGHT_COLUMNS if what == "flights" else EVENT_COLUMNS
    meanings = {name: column for column in columns for name in [column, *NAMES[column]]}
    sheet = Sheet(file)
    text, encoding = tables.decoded(data)
    if encoding != tables.UTF_8:
        sheet.notes.append(f"read as {encoding}")
    separator = tables.separator_of(text, list(meanings))
    if separator != ",":
        sheet.notes.append(f"the fields are separated by {tables.SEPARATORS[separator]}")
    found = list(tables.records(text, separator))
    header = _header_place(found, meanings)
    if header is None:
        wanted = f"a header with the columns {', '.join(columns)}, in any order"
        first = separator.join(found[0][1]) if found else None
        raise Refused([Fault(Place(file, found[0][0] if found else 1), first, wanted)])
    sheet.notes += [f"left out: row {line}, above the header" for line, it in found[:header] if any(map(str.strip, it))]
    line, names = found[header]
    placed = _placed(sheet, line, names, meanings)
    _refuse_missing(sheet, line, NEEDED[what], placed)
    absent = {it: "" for it in columns if it not in NEEDED[what] and it not in placed}
    for line, record in found[header + 1 :]:
        if any(map(str.strip, record)):
            _refuse_unnamed(sheet, line, names, record)
            texts = {column: record[at] if at < len(record) else "" for column, at in placed.items()}
            sheet.rows.append(Row(file, line, absent | texts, sheet.faults, window))
    return sheet


def _header_place(found: Sequence[tuple[int, list[str]]], meanings: dict[str, str]) -> int | None:
    """Which record is the header: the first with two columns or more that have a meaning."""
    for place, (_, record) in enumerate(found[: tables.HEADER_LINES]):
        if len(tables.header_words(record) & meanings.keys()) >= 2:
            return place
    return None


def _placed(sheet: Sheet, line: int, names: list[str], meanings: dict[str, str]) -> dict[str, int]:
    """Where each column stands. Names the columns that are left out, and those read by another word."""
    placed: dict[str, int] = {}
    for at, name in enumerate(names):
        column = meanings.get(tables.tidy(name))
        if column is None:
            if name.strip():
                sheet.notes.append(f'left out: the column "{name.strip()}"')
        elif column in placed:
            sheet.faults.append(Fault(Place(sheet.file, line), name.strip(), f"one column for {column}"))
        else:
            placed[column] = at
            if tables.tidy(name) != column:
                sheet.notes.append(f'the column "{name.strip()}" is read as {column}')
    return placed


def _refuse_missing(sheet: Sheet, line: int, needed: Sequence[str], placed: dict[str, int]) -> None:
    for column in needed:
        if column not in placed:
            named = ", ".join([column, *NAMES[column]])
            sheet.faults.append(Fault(Place(sheet.file, line), None, f"a column {column}", f"it may be headed {named}"))


def _refuse_unnamed(sheet: Sheet, line: int, names: list[str], record: list[str]) -> None:
    """What stands behind the last column, or in one without a name, is not left out in silence."""
    for at, text in enumerate(record):
        if text.strip() and (at >= len(names) or not names[at].strip()):
            where = Place(sheet.file, line, f"field {at + 1}")
            sheet.faults.append(
                Fault(where, text, "nothing, as the header names no such column", "lists have ';' between")
            )
