"""The aerodrome of a file, or all faults of the file: what the keys mean, and their ranges."""

import difflib
from typing import Any

from tools.desk import clock, toml_text
from tools.desk.aerodrome_lists import read_closures, read_frozen, read_passed
from tools.desk.faults import Fault
from tools.desk.model import LETTERS, MOST_FREEZE, MOST_SEPARATION, MOST_SHIFT, Aerodrome, Objective
from tools.desk.toml_text import Document, is_integer

VERSIONS = [1, 2, 3]
FIRST_KEYS = ["version", "k", "freeze", "objective", "table", "closures"]
LATER_KEYS = {"clock": 2, "frozen": 2, "passed": 3}
NEEDED = {
    "version": "1, 2 or 3",
    "k": f"the most places of shift, 0 to {MOST_SHIFT}",
    "freeze": f"seconds, 0 to {MOST_FREEZE}",
    "objective": '"makespan" or "delay"',
    "table": "[table] with a row for each leader, A to F",
}


def aerodrome_of(file: str, data: bytes) -> tuple[Aerodrome | None, list[Fault]]:
    """The aerodrome where there is no fault, and else all faults."""
    document = toml_text.read(file, data)
    if not document.is_whole:
        return None, document.faults
    version = _version(document)
    meant = _refuse_unknown(document, version)
    for key, wanted in NEEDED.items():
        if key not in document.keys and key not in document.lost:
            document.refuse((key,), None, f"{key} = .., {wanted}" if key != "table" else wanted)
    k = _integer(document, "k", 0, MOST_SHIFT)
    freeze = _integer(document, "freeze", 0, MOST_FREEZE)
    objective = _objective(document)
    table = _table(document)
    at = _integer(document, "clock", 0, clock.LAST_SECOND) if meant >= LATER_KEYS["clock"] else None
    closures = read_closures(document)
    horizon = None if at is None or freeze is None else at + freeze
    frozen = read_frozen(document, horizon) if meant >= LATER_KEYS["frozen"] else ()
    passed = read_passed(document, k) if meant >= LATER_KEYS["passed"] else ()
    _refuse_shift(document, version, k, objective)
    if document.faults or k is None or freeze is None or objective is None:
        return None, document.faults
    return Aerodrome(version, k, freeze, objective, table, closures, at, frozen, passed), []


def _version(document: Document) -> int:
    """The version whose keys the file may have, also where it is written as 3.0 or "3". It is 1 where there is none."""
    value = document.keys.get("version")
    if is_integer(value) and value in VERSIONS:
        return value
    if value is not None:
        document.refuse(("version",), value, NEEDED["version"], toml_text.integer_cure(value))
    return next((it for it in VERSIONS if str(value) in (str(it), f"{it}.0")), 1)


def _integer(document: Document, key: str, low: int, high: int) -> int | None:
    if key not in document.keys:
        return None
    return document.integer(document.keys[key], (key,), low, high)


def _refuse_unknown(document: Document, version: int) -> int:
    """Refuses the keys that the version does not have, and reads them as those that they likely mean.

    The version that the keys mean.
    """
    known = FIRST_KEYS + [key for key, since in LATER_KEYS.items() if version >= since]
    meant = version
    for key in [*document.keys, *(document.lost & LATER_KEYS.keys())]:
        if key in known:
            continue
        likely = "" if key in LATER_KEYS else _likely(key, document.keys[key])
        if key in LATER_KEYS:
            meant = max(meant, LATER_KEYS[key])
            cure = f"write version = {LATER_KEYS[key]}" + (" or 3" if LATER_KEYS[key] == 2 else "")
        else:
            cure = f"write {likely}" if likely else "a remark stands behind a #"
        document.refuse((key,), key, f"a key of version {version}: {', '.join(known)}", cure)
        if likely and likely not in document.keys:
            document.rename(key, likely)
            meant = max(meant, LATER_KEYS.get(likely, 1))
    return meant


def _likely(key: str, value: Any) -> str:
    """The key that another one likely stands for."""
    if isinstance(value, dict) and set(value) & set(LETTERS):
        return "table"
    close = difflib.get_close_matches(key.lower(), [*FIRST_KEYS, *LATER_KEYS], 1, 0.7)
    return close[0] if close else ""


def _objective(document: Document) -> Objective | None:
    value = document.keys.get("objective")
    if isinstance(value, str) and value in list(Objective):
        return Objective(value)
    if value is not None:
        tidy = value.strip().lower() if isinstance(value, str) else ""
        document.refuse(
            ("objective",), value, NEEDED["objective"], f'write "{tidy}"' if tidy in list(Objective) else ""
        )
    return None


def _table(document: Document) -> dict[str, tuple[int, ...]]:
    """The table of separations."""
    value = document.keys.get("table", {})
    if not isinstance(value, dict):
        document.refuse(("table",), value, NEEDED["table"])
        return {}
    for key in value:
        if key not in list(LETTERS):
            is_higher = key in FIRST_KEYS or key in LATER_KEYS
            cure = "put it above the line [table]" if is_higher else ""
            document.refuse(("table", key), key, "the letters A to F alone in [table]", cure)
    known = len(document.faults)
    rows = {letter: _row(document, letter, value) for letter in LETTERS} if "table" in document.keys else {}
    if rows and len(document.faults) == known and not document.lost & set(LETTERS):
        _refuse_triangles(document, rows)
    return rows


def _row(document: Document, leader: str, table: dict[str, Any]) -> tuple[int, ...]:
    """A leader's row. What is wrong with it is noted."""
    path, wanted = ("table", leader), f"{len(LETTERS)} numbers in brackets, the seconds to the followers A to F"
    if leader not in table:
        if leader not in document.lost:
            document.refuse(("table",), None, f"a row {leader} = [..], with {wanted}")
        return ()
    row = table[leader]
    if not isinstance(row, list) or len(row) != len(LETTERS):
        document.refuse(path, row, wanted, f"{len(row)} stand there" if isinstance(row, list) else "")
        return ()
    for follower, seconds in zip(LETTERS, row, strict=True):
        if not is_integer(seconds) or not 1 <= seconds <= MOST_SEPARATION:
            document.refuse(path, seconds, f"whole seconds from {leader} to {follower}, 1 to {MOST_SEPARATION}")
    return tuple(row)


def _refuse_triangles(document: Document, rows: dict[str, tuple[int, ...]]) -> None:
    """Refuses each entry that asks for more than the way by a third category, of which the shortest is named."""
    for leader in LETTERS:
        for at, follower in enumerate(LETTERS):
            ways = {third: rows[leader][LETTERS.index(third)] + rows[third][at] for third in LETTERS}
            third = min(LETTERS, key=lambda letter: ways[letter])
            if rows[leader][at] > ways[third]:
                most = f"from {leader} to {follower} at most {ways[third]}"
                wanted = f"{most}, as {leader} to {third} to {follower} takes so many"
                document.refuse(("table", leader), rows[leader][at], wanted)


def _refuse_shift(document: Document, version: int, k: int | None, objective: Objective | None) -> None:
    """The delay is planned with smaller shifts than the makespan."""
    if k is None or objective is not Objective.DELAY:
        return
    most = 1 if version == 1 else 2
    if k > most:
        cure = f"write version = 2 for k = 2, or k = {most}" if version == 1 else f"write k = {most}"
        document.refuse(("k",), k, f"at most {most} with the objective delay in version {version}", cure)
