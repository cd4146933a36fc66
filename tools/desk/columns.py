"""Tables of text in columns, and as CSV."""

import csv
from collections.abc import Iterable, Sequence
from typing import TextIO

GAP = "  "


def aligned(head: Sequence[str], rows: Iterable[Sequence[object]], left: int = 1) -> list[str]:
    """Lines with columns below each other. The first so many columns stand at the left, the others at the right."""
    cells = [list(head), *([_text(it) for it in row] for row in rows)]
    widths = [max(map(len, column)) for column in zip(*cells)]
    return [GAP.join(_padded(cell, widths[i], i < left) for i, cell in enumerate(row)).rstrip() for row in cells]


def _text(value: object) -> str:
    return "" if value is None else str(value)


def _padded(cell: str, width: int, at_left: bool) -> str:
    return cell.ljust(width) if at_left else cell.rjust(width)


def write_csv(sink: TextIO, head: Sequence[str], rows: Iterable[Sequence[object]]) -> None:
    """Writes a table as CSV."""
    csv.writer(sink, lineterminator="\n").writerows([head, *rows])
