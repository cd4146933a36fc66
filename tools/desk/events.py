"""`desk events`: the event log of a sheet as a spreadsheet saves it."""

import argparse
from collections.abc import Sequence
from pathlib import Path

from tools.desk import doubts, files, sheets
from tools.desk.model import Flight
from tools.desk.records import flights_of, events_of
from tools.desk.sheet_tables import read_sheet


def add_parser(subparsers: argparse._SubParsersAction) -> None:
    """The words of the command."""
    words = subparsers.add_parser(
        "events",
        help="make an event log from a sheet",
        description="Makes an event log from a sheet with the column kind (estimate, cancel, add, close, reopen, "
        "clock) and those of a sheet of flights. A closure stands in windows, the clock's time in eta.",
    )
    words.add_argument("sheet", metavar="SHEET.csv", help="the sheet: commas, semicolons or tabs; UTF-8 or UTF-16")
    words.add_argument(
        "flights", metavar="FLIGHTS", nargs="?", help="the flights at the start, to warn of one that is not there"
    )
    sheets.add_words(words)
    words.set_defaults(run=run)


def run(arguments: argparse.Namespace) -> int:
    """Prints the event log, or all faults of the sheet."""
    sheet = sheets.read(arguments, "events")
    events = events_of(sheet.rows)
    windowed = [row for row in sheet.rows if row.texts["kind"].strip().lower() in ("estimate", "add")]
    sheets.say_defaults(sheet, windowed, arguments.window)
    found = doubts.of_events(sheet.file, events, _flights(arguments))
    return sheets.finish(sheet, found, files.events_text(events), arguments)


def _flights(arguments: argparse.Namespace) -> Sequence[Flight] | None:
    """The flights at the start, from a flight file or a sheet."""
    if arguments.flights is None:
        return None
    data = Path(arguments.flights).read_bytes()
    sheet = read_sheet(arguments.flights, data, "flights", sheets.seconds_of(arguments.window))
    return flights_of(sheet.rows)
