"""What `desk sheet` and `desk events` share: their words, what they assume, and how they end."""

import argparse
import sys
from collections.abc import Iterable, Sequence
from pathlib import Path

from tools.desk import clock
from tools.desk.faults import GOOD, Doubt, Fault, Place, Refused
from tools.desk.model import MOST_WINDOW_SECONDS
from tools.desk.records import Row
from tools.desk.sheet_tables import Sheet, read_sheet

WINDOW = 30  # minutes from the estimate on, for a flight without windows
LONGEST_WINDOW = MOST_WINDOW_SECONDS // clock.MINUTE - 1


def _window(word: str) -> int:
    if not (word.isascii() and word.isdigit() and int(word) <= LONGEST_WINDOW):
        raise argparse.ArgumentTypeError(f"{word}: 0 to {LONGEST_WINDOW} minutes are wanted")
    return int(word)


def add_words(words: argparse.ArgumentParser) -> None:
    """The words that both commands take."""
    text = f"an empty window is the estimate to so many minutes after it ({WINDOW})"
    words.add_argument("--window", type=_window, default=WINDOW, metavar="MINUTES", help=text)
    words.add_argument(
        "--output", metavar="FILE", help="write this file in place of the standard output, if there is no fault"
    )
    words.add_argument("--force", action="store_true", help="write over a file that is there")


def seconds_of(window: int) -> int:
    """The seconds of a window of so many minutes."""
    return window * clock.MINUTE


def read(arguments: argparse.Namespace, what: str) -> Sheet:
    """The sheet that the words name."""
    if arguments.output and Path(arguments.output).exists() and not arguments.force:
        raise Refused([f"{arguments.output}: is there already; --force writes over it"])
    return read_sheet(arguments.sheet, Path(arguments.sheet).read_bytes(), what, seconds_of(arguments.window))


def say_defaults(sheet: Sheet, rows: Iterable[Row], window: int) -> None:
    """Notes how many rows get a window or a weight of the desk's."""
    rows = list(rows)
    bare = sum(row.is_empty("windows") for row in rows)
    if bare:
        sheet.notes.append(f"{_rows(bare)} without windows: the estimate to {window} minutes after it (--window)")
    light = sum(row.is_empty("weight") for row in rows if row.texts.get("kind", "add").strip().lower() == "add")
    if light:
        sheet.notes.append(f"{_rows(light)} without a weight: 1")


def _rows(count: int) -> str:
    return "1 row" if count == 1 else f"{count} rows"


def finish(sheet: Sheet, doubts: Sequence[Doubt], text: str, arguments: argparse.Namespace) -> int:
    """Says what was assumed and what is doubtful. Writes the text, or refuses the sheet with all of its faults."""
    for note in sheet.notes:
        print(f"{sheet.file}: {note}", file=sys.stderr)
    for doubt in doubts:
        print(doubt, file=sys.stderr)
    if sheet.faults:
        raise Refused(in_rows(sheet.faults))
    if not sheet.rows:
        raise Refused([Fault(Place(sheet.file), None, "a row below the header")])
    if arguments.output:
        Path(arguments.output).write_text(text, encoding="ascii", newline="")
        print(f"{arguments.output}: {_rows(len(sheet.rows))} written", file=sys.stderr)
    else:
        print(text, end="")
    return GOOD


def in_rows(faults: Iterable[Fault]) -> list[Fault]:
    """Faults in the order of their rows."""
    return sorted(faults, key=lambda fault: fault.where.row or 0)
