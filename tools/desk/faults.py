"""What is wrong in a file, and what is lawful and likely wrong, and how both are printed."""

from collections.abc import Sequence
from dataclasses import dataclass

# The statuses of the desk. Status 2 is argparse's, for wrong words.
GOOD = 0
FINDINGS = 1
FAULTS = 3
NO_PROGRAM = 9

SHOWN = 60


@dataclass(frozen=True)
class Place:
    """Where something stands: a file, the line in it as an editor or a spreadsheet counts, a column or key."""

    file: str
    row: int | None = None
    column: str | None = None

    def __str__(self) -> str:
        parts = [self.file]
        if self.row is not None:
            parts.append(f"row {self.row}")
        if self.column is not None:
            parts.append(self.column)
        return ", ".join(parts)


@dataclass(frozen=True)
class Fault:
    """A fault: what stands there (None where nothing does), what is wanted, and in words how to mend it."""

    where: Place
    found: str | None
    wanted: str
    cure: str = ""

    def __str__(self) -> str:
        found = "" if self.found is None else f" {quoted(self.found)};"
        cure = f"; {self.cure}" if self.cure else ""
        return f"{self.where}:{found} wanted: {self.wanted}{cure}"


@dataclass(frozen=True)
class Doubt:
    """Something lawful that is likely wrong."""

    where: Place
    said: str

    def __str__(self) -> str:
        return f"{self.where}: warning: {self.said}"


class Refused(Exception):
    """Files that cannot be used, with all of their faults, or with the one line that the program says."""

    status = FAULTS

    def __init__(self, faults: Sequence[Fault | str]) -> None:
        super().__init__("\n".join(map(str, faults)))
        self.faults = list(faults)


def quoted(text: str) -> str:
    """A text as it is shown in a message: in quotes, in one line, and not too long."""
    shown = text if len(text) <= SHOWN else f"{text[:SHOWN]}.."
    return '"' + "".join(it if it.isprintable() else f"\\x{ord(it):02x}" for it in shown) + '"'
