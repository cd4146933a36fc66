"""What the files say, as values: flights, the aerodrome, events, and plans. Times are seconds after midnight."""

from dataclasses import dataclass, field
from enum import StrEnum

LETTERS = "ABCDEF"

# The limits of the rules, as docs/RULES.md lists them.
MOST_SHIFT = 3
MOST_FREEZE = 7_200
MOST_WEIGHT = 100
MOST_SEPARATION = 600
MOST_WINDOWS = 4
MOST_WINDOW_SECONDS = 7_200
MOST_AFTER = 4
MOST_ACTIVE = 500
MOST_WAITING = 60
MOST_CLOSURES = 32
MOST_EVENTS = 2_000
MOST_TRIALS = 16
MOST_BYTES = 16_777_216

FLIGHT_COLUMNS = ["callsign", "category", "eta", "weight", "windows", "after"]
EVENT_COLUMNS = ["kind", *FLIGHT_COLUMNS]


class Objective(StrEnum):
    """What a plan makes small: the last landing, or the weighted delay."""

    MAKESPAN = "makespan"
    DELAY = "delay"


@dataclass(frozen=True)
class Span:
    """Seconds from the first on. The last second of a window belongs to it; the end of a closure does not."""

    first: int
    last: int


@dataclass(frozen=True)
class Flight:
    """A flight as a flight file has it. Its row is its line in that file, 0 for none."""

    callsign: str
    category: str
    eta: int
    weight: int
    windows: tuple[Span, ...]
    after: tuple[str, ...] = ()
    row: int = field(default=0, compare=False)

    def delay(self, second: int) -> int:
        """The seconds after the estimate, 0 for a landing before it."""
        return max(0, second - self.eta)


@dataclass(frozen=True)
class Frozen:
    """A flight that is frozen, and its second. Its row is its line in the aerodrome file."""

    callsign: str
    second: int
    row: int | None = field(default=None, compare=False)


@dataclass(frozen=True)
class Passed:
    """How many others have passed a waiting flight. Its row is its line in the aerodrome file."""

    callsign: str
    count: int
    row: int | None = field(default=None, compare=False)


@dataclass(frozen=True)
class Aerodrome:
    """An aerodrome file. The table has a row for each leader's letter, with the followers' seconds in letter order."""

    version: int
    k: int
    freeze: int
    objective: Objective
    table: dict[str, tuple[int, ...]]
    closures: tuple[Span, ...] = ()
    clock: int | None = None
    frozen: tuple[Frozen, ...] = ()
    passed: tuple[Passed, ...] = ()

    @property
    def horizon(self) -> int:
        """The first second at which a waiting flight may land."""
        return 0 if self.clock is None else self.clock + self.freeze

    @property
    def carries(self) -> bool:
        """Whether those that passed a flight are counted from plan to plan."""
        return self.version == 3

    def separation(self, leader: str, follower: str) -> int:
        """The seconds from a leader of one category to a follower of another."""
        return self.table[leader][LETTERS.index(follower)]

    def most_shift(self) -> int:
        """The greatest k that the objective and the version admit."""
        if self.objective is Objective.MAKESPAN:
            return MOST_SHIFT
        return 1 if self.version == 1 else 2


@dataclass(frozen=True)
class Estimate:
    """A flight gets another estimate and other windows."""

    callsign: str
    eta: int
    windows: tuple[Span, ...]
    row: int = field(default=0, compare=False)


@dataclass(frozen=True)
class Cancel:
    """A flight goes away."""

    callsign: str
    row: int = field(default=0, compare=False)


@dataclass(frozen=True)
class Add:
    """A flight comes in."""

    flight: Flight
    row: int = field(default=0, compare=False)

    @property
    def callsign(self) -> str:
        return self.flight.callsign


@dataclass(frozen=True)
class Close:
    """The runway is closed from the first second to the one before the last."""

    span: Span
    row: int = field(default=0, compare=False)


@dataclass(frozen=True)
class Reopen:
    """An equal closure is taken back."""

    span: Span
    row: int = field(default=0, compare=False)


@dataclass(frozen=True)
class Clock:
    """The clock gives a second."""

    second: int
    row: int = field(default=0, compare=False)


Event = Estimate | Cancel | Add | Close | Reopen | Clock


@dataclass(frozen=True)
class Landing:
    """A landing line of a plan."""

    callsign: str
    second: int
    frozen: bool = False


@dataclass(frozen=True)
class Plan:
    """A plan block. Where there is no plan, None stands in its place: infeasible."""

    objective: Objective
    value: int
    landings: tuple[Landing, ...]


@dataclass(frozen=True)
class Step:
    """An event of a printed replay, 0 for the opening: its plan, or why it was refused."""

    number: int
    refusal: str | None
    plan: Plan | None


def in_turn(flights: list[Flight]) -> list[Flight]:
    """Flights in first-come order: by estimate, and then by callsign."""
    return sorted(flights, key=lambda flight: (flight.eta, flight.callsign))
