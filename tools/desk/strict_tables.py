"""The rows of a flight file or an event log read as strictly as the program does, with each fault of the header."""

import re

from tools.desk import tables
from tools.desk.faults import Fault, Place
from tools.desk.fields import CALLSIGN
from tools.desk.records import Row

Records = list[tuple[int, list[str]]]


class _Header:
    """Finds the header, and names what is wrong with it. Reading goes on by the columns that it likely means."""

    def __init__(self, file: str, columns: list[str], faults: list[Fault]) -> None:
        self.file, self.columns, self.faults = file, columns, faults
        self.command = "`desk events`" if columns[0] == "kind" else "`desk sheet`"

    def refuse(self, line: int, found: str | None, cure: str) -> None:
        """Notes a fault of the header."""
        self.faults.append(Fault(Place(self.file, line), found, f"the header {','.join(self.columns)}", cure))

    def records_of(self, data: bytes) -> Records:
        """The records, of which the first is the header or stands in its place."""
        text, encoding = tables.decoded(data)
        if encoding == tables.UTF_16:
            self.refuse(1, None, f"the file is UTF-16; save it as UTF-8, or let {self.command} read it")
        found = list(tables.records(text))
        while found and found[0][1][0].startswith("#"):
            self.refuse(found[0][0], ",".join(found[0][1]), "take this line away; there are no comments")
            found.pop(0)
        separator = tables.separator_of(text, self.columns)
        if found and len(found[0][1]) == 1 and separator != ",":
            self.refuse(
                found[0][0],
                found[0][1][0],
                f"{tables.SEPARATORS[separator]} separate the fields; {self.command} reads them",
            )
            found = [it for it in tables.records(text, separator) if it[0] >= found[0][0]]
        if not found:
            self.refuse(1, None, "the file is empty")
        return found

    def names_of(self, found: Records) -> list[str]:
        """The columns of the records. Takes the header away."""
        line, header = found[0]
        tidied = [tables.tidy(it) for it in header]
        if not set(tidied) & set(self.columns):
            self.refuse(
                line, ",".join(header), "the header is missing" if self._is_data(header) else _not_this_file(header)
            )
            if not self._is_data(header):
                found.clear()
            return self.columns
        found.pop(0)
        if header != self.columns:
            self.refuse(line, ",".join(header), self._cure(header, tidied))
        return tidied

    def _is_data(self, record: list[str]) -> bool:
        return len(record) == len(self.columns) or (
            len(record) > 1 and any(CALLSIGN.fullmatch(it) for it in record[:2])
        )

    def _cure(self, header: list[str], tidied: list[str]) -> str:
        missing = [it for it in self.columns if it not in tidied]
        unknown = [it for it, name in zip(header, tidied, strict=True) if name not in self.columns]
        if missing or unknown:
            return "; ".join(
                [f'the column "{it}" is missing' for it in missing]
                + [f'the column "{it}" is not wanted' for it in unknown]
            )
        if len(tidied) > len(self.columns):
            return "a column stands there twice"
        said = ["lower case"] if [it.strip() for it in header] != tidied else []
        said += ["no blanks"] if any(it != it.strip() for it in header) else []
        said += ["this order"] if tidied != self.columns else []
        return f"wanted are {' and '.join(said)}; {self.command} reads it as it is"


def _not_this_file(header: list[str]) -> str:
    if re.match(r"\s*(\[|\w+\s*=)", header[0]):
        return "this looks like an aerodrome file; are two files in each other's place?"
    if re.match(r"(makespan|delay|land|event) |infeasible$", header[0]):
        return "this looks like a printed plan; are two files in each other's place?"
    return "this is no such file"


def strict_rows(file: str, data: bytes, columns: list[str]) -> tuple[list[Row], list[Fault]]:
    """The rows of a file, and the faults of its header and of the number of fields. The rows add theirs."""
    faults: list[Fault] = []
    header = _Header(file, columns, faults)
    found = header.records_of(data)
    names = header.names_of(found) if found else columns
    rows = []
    for line, record in found:
        if len(record) == len(names) and not any(record):
            faults.append(Fault(Place(file, line), ",".join(record), "no empty row", "delete the row"))
            continue
        if len(record) != len(names):
            faults.append(_count_fault(Place(file, line), record, len(names)))
            # Fields behind a comma too many have moved.
            record = record[: 2 if len(record) > len(names) else None]
        rows.append(Row(file, line, dict(zip(names, record, strict=False)), faults))
    return rows, faults


def _count_fault(where: Place, record: list[str], wanted: int) -> Fault:
    cure = f"{len(record)} stand there"
    if len(record) == wanted - 1:
        cure += "; an empty last field has its comma too"
    elif len(record) > wanted:
        cure += "; lists have ';' between, and remarks no column"
    return Fault(where, ",".join(record), f"{wanted} fields, with {wanted - 1} commas", cure)
