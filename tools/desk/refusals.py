"""The line by which the program refuses files, with the names of the files and the rows that an editor counts."""

import re
from collections.abc import Mapping
from pathlib import Path

from tools.desk import tables
from tools.desk.faults import Place, Refused
from tools.desk.program import Answer

ADVICE = "desk check says what is wanted"
UNREAD = "cannot be read"
TOO_LONG = "too long"


def refused(answer: Answer, named: Mapping[str, str]) -> Refused:
    """What the program said, as faults that end a command."""
    where, cause = said(answer, named)
    advice = "" if cause.startswith((UNREAD, TOO_LONG)) else f"; {ADVICE}"
    return Refused([f"{where}: {cause}{advice}"])


def said(answer: Answer, named: Mapping[str, str]) -> tuple[str, str]:
    """Of which files the program said what.

    The files are in the order of its words, each under the kind that its lines name: aerodrome, flights, events, plan.
    """
    line = answer.err.strip().removeprefix("cps: ")
    if found := re.fullmatch(r"file (\d+): (.*)", line):
        path = list(named.values())[int(found[1]) - 1]
        return path, _unread(path) if found[2] == "failed" else found[2]
    kind, _, cause = line.partition(": ")
    if kind in named:
        return _placed(named[kind], cause)
    files = ", ".join(named[it] for it in ("aerodrome", "flights") if it in named)
    return files, cause if kind == "opening" else line or f"the program ended with status {answer.status}"


def _unread(path: str) -> str:
    """That a file cannot be read, and why, as the system says."""
    try:
        Path(path).read_bytes()
    except OSError as trouble:
        return f"{UNREAD}: {trouble.strerror}"
    return UNREAD


def _placed(path: str, cause: str) -> tuple[str, str]:
    """The place, with its row where the cause names a record or a line, and the rest of the cause."""
    if found := re.fullmatch(r"record (\d+): (.*)", cause):
        rows = [row for row, _ in tables.records(tables.decoded(Path(path).read_bytes())[0])]
        number = int(found[1])
        return str(Place(path, rows[number - 1] if number <= len(rows) else None)), found[2]
    if found := re.fullmatch(r"line (\d+)", cause):
        return str(Place(path, int(found[1]))), "not what a plan has there"
    return path, cause
