"""Events and their refusals in words."""

from tools.desk import clock
from tools.desk.changes import Situation
from tools.desk.model import (
    MOST_ACTIVE,
    MOST_CLOSURES,
    MOST_WAITING,
    Add,
    Cancel,
    Clock,
    Close,
    Estimate,
    Event,
    Reopen,
    Span,
)


def opening_words(opening: Situation) -> str:
    """The opening in words."""
    closures = len(opening.aerodrome.closures)
    said = f"opening with {counted(len(opening.flights), 'flight')}"
    return said + (f" and {counted(closures, 'closure')}" if closures else "")


def event_words(event: Event, before: Situation) -> str:
    """An event in words, in the situation that it meets."""
    match event:
        case Estimate(callsign, eta, windows):
            flight = before.flight(callsign)
            was = f", before {clock.shown(flight.eta)}" if flight and flight.eta != eta else ""
            return f"estimate of {callsign} {clock.shown(eta)}{was}; windows {' and '.join(map(span_words, windows))}"
        case Cancel(callsign):
            return f"cancel {callsign}"
        case Add(flight):
            after = f", after {' and '.join(flight.after)}" if flight.after else ""
            return f"add {flight.callsign}: category {flight.category}, estimate {clock.shown(flight.eta)}{after}"
        case Close(span):
            return f"close {span_words(span)}"
        case Reopen(span):
            return f"reopen {span_words(span)}"
        case Clock(second):
            return f"clock {clock.shown(second)}, horizon {clock.shown(second + before.aerodrome.freeze)}"


def refusal_words(cause: str, event: Event) -> str:
    """Why an event was refused: the program's words as a sentence."""
    word, *values = cause.split()
    said = {
        "unknown-flight": "no active flight has this callsign",
        "frozen": "{callsign} is frozen at {0}",
        "duplicate": "a flight of this callsign is active already",
        "too-many-flights": f"{MOST_ACTIVE} flights are active, and no more may be",
        "too-many-waiting": f"{MOST_WAITING} flights wait, and no more may",
        "predecessor-of-frozen": "{0} must land after it and is frozen already",
        "covers-frozen": "{0} is frozen at {1}, within it",
        "too-many-closures": f"{MOST_CLOSURES} closures stand, and no more may",
        "unknown-closure": "no such closure stands",
        "clock-back": "the clock stood at {0} already",
    }[word]
    shown = [_value_words(word, number, it) for number, it in enumerate(values)]
    return said.format(*shown, callsign=getattr(event, "callsign", ""))


def _value_words(word: str, number: int, value: str) -> str:
    """A second on the clock, and any other value as it is."""
    return clock.shown(int(value)) if value.isdigit() and not _is_callsign(word, number) else value


def _is_callsign(word: str, number: int) -> bool:
    """Whether a value of a refusal is a callsign, which may be all digits."""
    return number == 0 and word not in ("frozen", "clock-back")


def span_words(span: Span) -> str:
    """A span on the clock."""
    return f"{clock.shown(span.first)} to {clock.shown(span.last)}"


def counted(number: int, word: str) -> str:
    """A number of things: "1 flight", "2 flights"."""
    return f"{number} {word}{'' if number == 1 else 's'}"
