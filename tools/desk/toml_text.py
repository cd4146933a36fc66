"""An aerodrome file as TOML: its keys with their lines, and each line that is none."""

import re
import tomllib
from dataclasses import dataclass, field
from datetime import time
from typing import Any

from tools.desk import clock, tables
from tools.desk.faults import Fault, Place
from tools.desk.model import Objective

Path = tuple[str | int, ...]
MOST_SYNTAX_FAULTS = 20
SYNTAX = "TOML"
SINGULAR = {"closures": "closure", "frozen": "frozen", "passed": "passed"}
WHERE = re.compile(r"(.*?) \(at (?:line (\d+), column (\d+)|end of document)\)", re.DOTALL)
KEY = re.compile(r"""\s*["']?([\w-]+)["']?\s*=""")
HEADER = re.compile(r"""\s*(\[\[?)\s*["']?([\w-]+)["']?\s*\]""")


@dataclass
class Document:
    """A file's keys, the line of each, the keys of the lines that are no TOML, and the faults so far."""

    file: str
    keys: dict[str, Any] = field(default_factory=dict)
    lines: dict[Path, int] = field(default_factory=dict)
    lost: set[str] = field(default_factory=set)
    faults: list[Fault] = field(default_factory=list)
    is_whole: bool = True

    def place(self, path: Path) -> Place:
        """The place of a key, or of the nearest one around it that has a line."""
        named = [
            f"{SINGULAR.get(str(part), part)} {path[at + 1] + 1}" if isinstance(path[at + 1], int) else str(part)
            for at, part in enumerate(path[:-1])
            if not isinstance(part, int)
        ]
        if path and not isinstance(path[-1], int):
            named.append(str(path[-1]))
        around = path
        while around and around not in self.lines:
            around = around[:-1]
        return Place(self.file, self.lines.get(around), " ".join(named) or None)

    def rename(self, old: str, new: str) -> None:
        """Reads a key as another one."""
        self.keys[new] = self.keys.pop(old)
        moved = {path: line for path, line in self.lines.items() if path[0] == old}
        self.lines |= {(new, *path[1:]): line for path, line in moved.items()}

    def refuse(self, path: Path, found: object, wanted: str, cure: str = "") -> None:
        """Notes a fault at a key. What stands there is None where it is missing."""
        self.faults.append(Fault(self.place(path), None if found is None else shown(found), wanted, cure))

    def integer(self, value: Any, path: Path, low: int, high: int) -> int | None:
        """A whole number of a range."""
        if is_integer(value):
            if low <= value <= high:
                return value
            self.refuse(path, value, f"a whole number from {low} to {high}")
            return None
        self.refuse(path, value, f"a whole number from {low} to {high}", integer_cure(value))
        return None


def is_integer(value: Any) -> bool:
    """Whether a value is a whole number, which true and false are not."""
    return isinstance(value, int) and not isinstance(value, bool)


def integer_cure(value: Any) -> str:
    """How a number is written where something like it stands."""
    if isinstance(value, float) and value.is_integer():
        return f"write {int(value)}"
    if isinstance(value, time):
        return (
            f"write {value.hour * clock.HOUR + value.minute * clock.MINUTE + value.second}, the seconds after midnight"
        )
    if isinstance(value, str):
        second = clock.read(value)
        return "" if second is None else f"write {second}, without quotes"
    return ""


def shown(value: object) -> str:
    """A value in a message."""
    if isinstance(value, bool):
        return str(value).lower()
    if isinstance(value, dict):
        return "a table"
    return str(value)


def read(file: str, data: bytes) -> Document:
    """The document of a file. Lines that are no TOML are named, and left out where the rest can then be read."""
    document = Document(file)
    text, encoding = tables.decoded(data)
    if encoding != tables.UTF_8:
        document.faults.append(Fault(Place(file), None, "UTF-8", f"the file looks like {encoding}; save it as UTF-8"))
    lines = text.replace("\r\n", "\n").split("\n")
    for _ in range(MOST_SYNTAX_FAULTS):
        try:
            document.keys = tomllib.loads("\n".join(lines))
            document.lines = key_lines(lines)
            _refuse_wide(document)
            return document
        except tomllib.TOMLDecodeError as trouble:
            if not _leave_out(document, lines, str(trouble)):
                break
        except (RecursionError, ValueError) as trouble:
            document.faults.append(Fault(Place(file), None, f"{SYNTAX} ({trouble})"))
            break
    document.is_whole = False
    return document


def key_lines(lines: list[str]) -> dict[Path, int]:
    """The line of each key and of each table's head."""
    found: dict[Path, int] = {}
    around: Path = ()
    for number, line in enumerate(lines, 1):
        if head := HEADER.match(line):
            around = (head[2],)
            if head[1] == "[[":
                around = (head[2], sum(path[:1] == (head[2],) and len(path) == 2 for path in found))
                found.setdefault((head[2],), number)
            found.setdefault(around, number)
        elif key := KEY.match(line):
            found.setdefault((*around, key[1]), number)
    return found


def _refuse_wide(document: Document) -> None:
    """Whole numbers outside 64 bits are no TOML to the program."""

    def walk(value: Any, path: Path) -> None:
        if isinstance(value, dict):
            for key, inner in value.items():
                walk(inner, (*path, key))
        elif isinstance(value, list):
            for at, inner in enumerate(value):
                walk(inner, (*path, at))
        elif is_integer(value) and not -(2**63) <= value < 2**63:
            document.refuse(path, value, "a whole number of 64 bits")

    walk(document.keys, ())


def _leave_out(document: Document, lines: list[str], said: str) -> bool:
    """Notes the line that is no TOML and empties it. Whether reading can go on."""
    found = WHERE.fullmatch(said)
    at = (int(found[2]) if found and found[2] else len(lines)) - 1
    # An array that is not closed is noticed on a later line.
    while at > 0 and (not lines[at].strip() or _is_open(lines[at - 1])):
        at -= 1
    line = lines[at]
    key = KEY.match(line)
    words = found[1] if found else said
    where = Place(document.file, at + 1, key[1] if key else None)
    document.faults.append(Fault(where, line.strip(), f"{SYNTAX} ({words[:1].lower()}{words[1:]})", _cure(line)))
    if key is None:
        return False
    document.lost.add(key[1])
    lines[at] = ""
    return True


def _is_open(line: str) -> bool:
    return KEY.match(line) is not None and line.count("[") > line.count("]")


def _cure(line: str) -> str:
    """What is likely wrong with a line that is no TOML."""
    if line.lower().lstrip().startswith(("callsign", "kind,")) or line.count(",") >= 5 and "=" not in line:
        return "this looks like a flight file or a log; are two files in each other's place?"
    if re.match(r"(makespan|delay) \d|infeasible$|land ", line):
        return "this looks like a printed plan; are two files in each other's place?"
    if line.strip() == "..":
        return "a row for each category stands there, as in examples/bank/aerodrome.toml"
    if re.search("[\u201c\u201d\u201e\u2018\u2019]", line):
        return 'straight quotes are wanted: "'
    if _is_open(line):
        return "a bracket ] is missing"
    value = line.partition("=")[2].strip()
    if value.lower() in list(Objective):
        return f'a word stands in quotes: "{value.lower()}"'
    second = clock.read(value)
    return f"write {second}" if second is not None else ""
