"""The lists of an aerodrome file: closures, frozen landings, and counts of those that passed a flight."""

from collections.abc import Iterator
from typing import Any

from tools.desk import clock, fields
from tools.desk.model import MOST_ACTIVE, MOST_CLOSURES, MOST_WAITING, Frozen, Passed, Span
from tools.desk.toml_text import Document, Path

MOST = {"closures": MOST_CLOSURES, "frozen": MOST_ACTIVE, "passed": MOST_WAITING}


def _entries(document: Document, key: str, names: list[str]) -> Iterator[tuple[Path, dict[str, Any]]]:
    """The entries of a list that are tables, each with its path. What is wrong with the list and its keys is noted."""
    value = document.keys.get(key, [])
    wanted = f"[[{key}]] above each entry, with {' and '.join(names)}"
    if not isinstance(value, list) or not all(isinstance(it, dict) for it in value):
        document.refuse((key,), value, wanted, "two brackets on each side" if isinstance(value, dict) else "")
        return
    if len(value) > MOST[key]:
        document.refuse((key, MOST[key]), None, f"at most {MOST[key]} entries", f"{len(value)} stand there")
    for at, entry in enumerate(value):
        path = (key, at)
        for name in entry:
            if name not in names:
                document.refuse((*path, name), name, f"{' and '.join(names)} alone")
        for name in names:
            if name not in entry and name not in document.lost:
                document.refuse((*path, name), None, f"{name} = ..")
        yield path, entry


def read_closures(document: Document) -> tuple[Span, ...]:
    """The closures."""
    found = []
    for path, entry in _entries(document, "closures", ["from", "to"]):
        first = _integer(document, path, entry, "from", 0, clock.LAST_SECOND)
        last = _integer(document, path, entry, "to", 0, clock.LAST_SECOND + 1)
        if first is None or last is None:
            continue
        if first >= last:
            document.refuse(path, f"{first} to {last}", "a closure whose `to` is above its `from`")
        found.append(Span(first, last))
    return tuple(found)


def read_frozen(document: Document, horizon: int | None) -> tuple[Frozen, ...]:
    """The frozen landings, each below the horizon, the clock plus the freeze."""
    found, known = [], {}
    if document.keys.get("frozen") and "clock" not in document.keys and "clock" not in document.lost:
        document.refuse(("frozen",), None, "clock = .. as well", "frozen landings lie before the clock plus the freeze")
    for path, entry in _entries(document, "frozen", ["callsign", "second"]):
        callsign = _callsign(document, path, entry, known)
        second = _integer(document, path, entry, "second", 0, clock.LAST_SECOND)
        if second is not None and horizon is not None and second >= horizon:
            document.refuse((*path, "second"), second, f"a second below {horizon}, the clock plus the freeze")
        if callsign is not None and second is not None:
            found.append(Frozen(callsign, second, document.place(path).row))
    return tuple(found)


def read_passed(document: Document, k: int | None) -> tuple[Passed, ...]:
    """The counts of those that passed a flight, each at most k."""
    found, known = [], {}
    for path, entry in _entries(document, "passed", ["callsign", "count"]):
        callsign = _callsign(document, path, entry, known)
        count = _integer(document, path, entry, "count", 1, MOST_WAITING if k is None else k)
        if callsign is not None and count is not None:
            found.append(Passed(callsign, count, document.place(path).row))
    return tuple(found)


def _integer(document: Document, path: Path, entry: dict[str, Any], name: str, low: int, high: int) -> int | None:
    return document.integer(entry[name], (*path, name), low, high) if name in entry else None


def _callsign(document: Document, path: Path, entry: dict[str, Any], known: dict[str, int]) -> str | None:
    """An entry's callsign, which no earlier one may have."""
    value = entry.get("callsign")
    if value is None:
        return None
    if not isinstance(value, str) or not fields.CALLSIGN.fullmatch(value):
        cure = fields.callsign_cure(value) if isinstance(value, str) else "a text in quotes"
        document.refuse((*path, "callsign"), value, f"{fields.WANTED_CALLSIGN}, in quotes", cure)
        return None
    if value in known:
        document.refuse((*path, "callsign"), value, "each callsign once", f"entry {known[value]} has it too")
    known.setdefault(value, int(path[1]) + 1)
    return value
