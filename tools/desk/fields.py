"""The fields of a record: what stands there, read strictly as the program reads it, or leniently as people write it."""

import re
from dataclasses import dataclass

from tools.desk import clock
from tools.desk.faults import Fault, Place
from tools.desk.model import (
    LETTERS,
    MOST_AFTER,
    MOST_WEIGHT,
    MOST_WINDOW_SECONDS,
    MOST_WINDOWS,
    Span,
)

CALLSIGN = re.compile(r"[A-Z0-9]{2,8}")
DASHES = str.maketrans({it: "-" for it in "\u2010\u2011\u2012\u2013\u2014\u2212"})
OTHER_CATEGORIES = "JHML"  # ICAO's, of which no letter of the table follows
THOUSANDS = re.compile(r"(?<=\d)[ ,'](?=\d{3}(?!\d))")
MOST_DIGITS = 18  # more are above each range, and Python refuses thousands

WANTED_CALLSIGN = "a callsign of 2 to 8 capital letters or digits"
WANTED_CATEGORY = "one of the wake categories A, B, C, D, E, F"
WANTED_SECONDS = f"whole seconds after midnight, from 0 to {clock.LAST_SECOND}"
WANTED_WINDOWS = f"one to {MOST_WINDOWS} windows, each first-last, with ';' between"
WANTED_AFTER = f"nothing, or at most {MOST_AFTER} callsigns with ';' between"


@dataclass
class Field:
    """A field of a record: its place and text, whether people wrote it, and where its faults go."""

    where: Place
    text: str
    faults: list[Fault]
    lenient: bool = False

    @property
    def plain(self) -> str:
        """The text, without the blanks around it where people wrote it."""
        return self.text.strip() if self.lenient else self.text

    def refuse(self, wanted: str, cure: str = "", found: str | None = None) -> None:
        """Notes a fault of the whole text, or of a part of it."""
        self.faults.append(Fault(self.where, self.text if found is None else found, wanted, cure))


def callsign(field: Field) -> str | None:
    """A callsign."""
    found = _callsign(field.plain, field.lenient)
    if found is None:
        field.refuse(WANTED_CALLSIGN, callsign_cure(field.text))
    return found


def _callsign(text: str, lenient: bool) -> str | None:
    name = text.upper() if lenient and text.isascii() else text
    return name if CALLSIGN.fullmatch(name) else None


def callsign_cure(text: str) -> str:
    """How a callsign is written, where capitals and a stray sign are all that is wrong."""
    name = re.sub(r"[^A-Z0-9]", "", text.upper())
    return f"write {name}" if text.isascii() and CALLSIGN.fullmatch(name) else ""


def category(field: Field) -> str | None:
    """A wake category's letter."""
    letter = field.plain.upper() if field.lenient else field.plain
    if letter in LETTERS and len(letter) == 1:
        return letter
    tidy = field.text.strip().upper()
    cure = ""
    if len(tidy) == 1 and tidy in LETTERS:
        cure = f"write {tidy}"
    elif len(tidy) == 1 and tidy in OTHER_CATEGORIES:
        cure = "J, H, M and L are ICAO's; take the aircraft's RECAT-EU category, from A super heavy to F light"
    field.refuse(WANTED_CATEGORY, cure)
    return None


def whole_number(text: str, lenient: bool) -> int | None:
    """A number without sign and leading 0; where people wrote it, a spreadsheet's .0 and leading 0 are taken."""
    if lenient:
        text = re.sub(r"\.0+$", "", text.strip())
        text = text.lstrip("0") or text[:1]
    if not (text.isascii() and text.isdigit()) or (len(text) > 1 and text[0] == "0"):
        return None
    return int(text[:MOST_DIGITS])


def number(field: Field, low: int, high: int) -> int | None:
    """A number of a range."""
    found = whole_number(field.text, field.lenient)
    if found is not None and low <= found <= high:
        return found
    field.refuse(f"a whole number from {low} to {high}", _number_cure(field.text, high) if found is None else "")
    return None


def weight(field: Field) -> int | None:
    """A weight; where people wrote none it is 1."""
    if field.lenient and not field.plain:
        return 1
    return number(field, 1, MOST_WEIGHT)


def _number_cure(text: str, high: int) -> str:
    """How a number up to a greatest one is written that has a sign between its thousands, or is a clock time."""
    found = whole_number(THOUSANDS.sub("", text.strip()), lenient=True)
    if found is not None:
        return f"write {found}" if found <= high else ""
    at = clock.read(text)
    return "" if at is None or at > high else f"write {at}; `desk sheet` turns clock times into seconds"


def read_second(text: str, lenient: bool) -> int | None:
    """A second: a number, or where people wrote it a clock time as well."""
    found = whole_number(text, lenient)
    return clock.read(text) if found is None and lenient else found


def second(field: Field) -> int | None:
    """A second of the two days."""
    found = read_second(field.text, field.lenient)
    if found is not None and found <= clock.LAST_SECOND:
        return found
    if field.lenient:
        field.refuse(clock.WANTED, "" if found is None else f"the last is {clock.shown(clock.LAST_SECOND)}")
    else:
        field.refuse(WANTED_SECONDS, _number_cure(field.text, clock.LAST_SECOND) if found is None else "")
    return None


def windows(field: Field) -> tuple[Span, ...] | None:
    """The windows of a flight."""
    if not field.plain:
        field.refuse(WANTED_WINDOWS, "a flight with none of its own may have the estimate to half an hour after it")
        return None
    parts = re.split(r"[;,]", field.plain) if field.lenient else field.text.split(";")
    if len(parts) > MOST_WINDOWS:
        field.refuse(f"at most {MOST_WINDOWS} windows", f"{len(parts)} stand there")
    spans = [_ends(field, part, clock.LAST_SECOND) for part in parts]
    found = tuple(span for span in spans if span is not None)
    if len(found) < len(spans) or not _are_windows(field, parts, found):
        return None
    return found


def _are_windows(field: Field, parts: list[str], spans: tuple[Span, ...]) -> bool:
    known = len(field.faults)
    for place, (part, span) in enumerate(zip(parts, spans, strict=True)):
        if span.last < span.first:
            field.refuse("the first second, then the last", _backward_cure(span), part)
        elif place and span.first <= spans[place - 1].last:
            cure = f"it begins before {parts[place - 1]} ends"
            field.refuse("windows in turn that share no second", cure, part)
    seconds = sum(span.last - span.first + 1 for span in spans)
    if len(field.faults) == known and seconds > MOST_WINDOW_SECONDS:
        field.refuse(f"windows of at most {MOST_WINDOW_SECONDS} seconds together", f"these have {seconds}")
    return len(field.faults) == known and len(spans) <= MOST_WINDOWS


def _backward_cure(span: Span) -> str:
    if span.first < clock.DAY and clock.DAY + span.last - span.first <= MOST_WINDOW_SECONDS:
        later = span.last + clock.DAY
        return f"the second day's {clock.shown(span.last)} is {clock.shown(later)}, or {later} seconds"
    return "it ends before it begins"


def span_of(field: Field) -> Span | None:
    """The span of a closure. Its end is the first second behind it."""
    span = _ends(field, field.plain, clock.LAST_SECOND + 1)
    if span is None or span.first < span.last:
        return span
    field.refuse("a closure's first second, then the first second behind it", _backward_cure(span))
    return None


def _ends(field: Field, part: str, latest: int) -> Span | None:
    """Both ends of a window or a span, each there and in its range. What is wrong is noted once for the part."""
    text = part.translate(DASHES) if field.lenient else part
    ends = [read_second(it, field.lenient) for it in text.split("-")]
    if len(ends) == 2:
        first, last = ends
        if first is not None and last is not None and first <= clock.LAST_SECOND and last <= latest:
            return Span(first, last)
    form = "10:30-11:00" if field.lenient else "37800-39600"
    field.refuse(f"first and last as {form}, each at most {clock.LAST_SECOND} seconds", _ends_cure(field, part), part)
    return None


def _ends_cure(field: Field, part: str) -> str:
    ends = part.translate(DASHES).split("-")
    if len(ends) != 2:
        return "one hyphen stands between first and last"
    if not all(it.strip() for it in ends):
        return "both ends are wanted"
    first, last = (read_second(it, lenient=True) for it in ends)
    return "" if field.lenient or first is None or last is None else f"write {first}-{last}"


def after(field: Field) -> tuple[str, ...] | None:
    """The callsigns that land before a flight."""
    if not field.plain:
        return ()
    parts = re.split(r"\s*[;,]\s*|\s+", field.plain) if field.lenient else field.text.split(";")
    known = len(field.faults)
    if len(parts) > MOST_AFTER:
        field.refuse(WANTED_AFTER, f"{len(parts)} stand there")
    names = [_callsign(part, field.lenient) for part in parts]
    for place, (part, name) in enumerate(zip(parts, names, strict=True)):
        if name is None:
            field.refuse(WANTED_AFTER, _after_cure(part), part)
        elif name in names[:place]:
            field.refuse("each callsign once", f"{name} is named twice", part)
    return tuple(it for it in names if it) if len(field.faults) == known else None


def _after_cure(part: str) -> str:
    if not part.strip():
        return "leave it empty, without a blank" if part else "a ; stands there too often"
    several = re.split(r"[,\s/]+", part.strip())
    if len(several) > 1 and all(map(CALLSIGN.fullmatch, several)):
        return f"write {';'.join(several)}"
    return callsign_cure(part)
