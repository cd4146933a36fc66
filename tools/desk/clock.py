"""Seconds after midnight of the first day, and clock times: 10:30, 10:30:20, and +1 00:10:00 for the second day."""

import functools
import re

MINUTE = 60
HOUR = 3_600
DAY = 86_400
LAST_SECOND = 2 * DAY - 1  # the last that the program knows
WANTED = "a clock time as 10:30, 10:30:20 or +1 00:10:00, or seconds after midnight"

_TIME = re.compile(
    r"(?:\+(?P<before>\d)\s*)?(?P<hour>\d{1,2}):(?P<minute>\d{2})(?::(?P<second>\d{2}))?(?:\s*\+(?P<behind>\d))?"
)


@functools.lru_cache(8_192)
def shown(second: int) -> str:
    """A second as a clock time. From the second day on the day stands before it."""
    day, rest = divmod(second, DAY)
    time = f"{rest // HOUR:02}:{rest // MINUTE % 60:02}:{rest % MINUTE:02}"
    return f"+{day} {time}" if day else time


def duration(seconds: int) -> str:
    """A number of seconds as minutes and seconds, with its sign where it is below 0."""
    minutes, rest = divmod(abs(seconds), MINUTE)
    return f"{'-' if seconds < 0 else ''}{minutes}:{rest:02}"


def read(text: str) -> int | None:
    """The second of a clock time or of a number of seconds, or None where the text is neither. It may be too late."""
    text = text.strip()
    if text.isascii() and text.isdigit():
        return int(text)
    found = _TIME.fullmatch(text)
    if found is None or not text.isascii() or (found["before"] and found["behind"]):
        return None
    hour, minute, second = int(found["hour"]), int(found["minute"]), int(found["second"] or 0)
    if hour > 23 or minute > 59 or second > 59:
        return None
    return int(found["before"] or found["behind"] or 0) * DAY + hour * HOUR + minute * MINUTE + second
