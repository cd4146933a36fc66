"""`desk sheet`: the flight file of a sheet as a spreadsheet saves it."""

import argparse

from tools.desk import doubts, files, sheets
from tools.desk.records import flights_of


def add_parser(subparsers: argparse._SubParsersAction) -> None:
    """The words of the command."""
    words = subparsers.add_parser(
        "sheet",
        help="make a flight file from a sheet",
        description="Makes a flight file from a sheet with the columns callsign, category and eta, and weight, windows "
        "and after where they are there. Times are clock times or seconds after midnight. Further columns are left "
        "out, and named.",
    )
    words.add_argument("sheet", metavar="SHEET.csv", help="the sheet: commas, semicolons or tabs; UTF-8 or UTF-16")
    sheets.add_words(words)
    words.set_defaults(run=run)


def run(arguments: argparse.Namespace) -> int:
    """Prints the flight file, or all faults of the sheet."""
    sheet = sheets.read(arguments, "flights")
    flights = flights_of(sheet.rows)
    sheets.say_defaults(sheet, sheet.rows, arguments.window)
    named = [row.texts.get("callsign", "").strip().upper() for row in sheet.rows]
    found = [*doubts.of_times(sheet.file, flights), *doubts.of_flights(sheet.file, flights, named)]
    return sheets.finish(sheet, found, files.flights_text(flights), arguments)
