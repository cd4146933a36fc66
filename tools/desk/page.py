"""A replay as one HTML page without network: the moments as data, and a script that draws the one that is picked.

The data of a moment are what changed since the one before, so that a day of 2,000 events takes a few megabytes.
"""

import json
from collections.abc import Iterable, Iterator, Mapping, Sequence
from dataclasses import dataclass, field
from html import escape
from pathlib import Path
from string import Template

from tools.desk import clock
from tools.desk.drawing import title
from tools.desk.event_words import refusal_words
from tools.desk.model import Flight, Landing, Span
from tools.desk.moments import Moment

HERE = Path(__file__).parent


def html(heading: str, moments: Iterable[Moment], findings: Mapping[int, Sequence[str]]) -> str:
    """The page of a replay, from its opening on. The findings are those of `audit`, by the moment's number."""
    changes = _Changes()
    table: dict[str, tuple[int, ...]] = {}
    drawn = []
    for moment in moments:
        table = moment.aerodrome.table
        drawn.append({**_words(moment), **_judged(moment, findings.get(moment.number)), **changes.data(moment)})
    data = {"names": list(changes.names), "table": table, "moments": drawn}
    # No text of the data may end the script element that they stand in.
    packed = json.dumps(data, separators=(",", ":")).replace("<", "\\u003c")
    style = _text("picture.css") + _text("page.css")
    page = Template(_text("page.html"))
    return page.substitute(title=escape(heading), style=style, data=packed, script=_text("page.js"))


def _text(name: str) -> str:
    return HERE.joinpath(name).read_text("utf-8")


def _words(moment: Moment) -> dict:
    """What the page says of a moment."""
    words = {"happened": moment.happened, "value": title(moment.plan)}
    if moment.event:
        words["where"] = f"event {moment.number}, record {moment.record}, row {moment.row}"
    if moment.clock is not None:
        words["clock"] = clock.shown(moment.clock)
    if moment.event and moment.refusal is not None:
        words["refused"] = refusal_words(moment.refusal, moment.event)
    return words


def _judged(moment: Moment, findings: Sequence[str] | None) -> dict:
    """What `audit` says of a moment, or that it was not asked. Nothing is said for `ok`."""
    if findings is None:
        return {"audit": "not asked"}
    if moment.plan is None:
        return {"audit": "infeasible claimed"}
    return {"audit": list(findings)} if findings else {}


def _pairs(spans: Iterable[Span]) -> list[list[int]]:
    return [[span.first, span.last] for span in spans]


@dataclass
class _Changes:
    """What the moments so far have said, from which the data of the next are told apart."""

    names: dict[str, int] = field(default_factory=dict)
    flights: dict[str, Flight] = field(default_factory=dict)
    landings: dict[str, tuple[int, bool]] = field(default_factory=dict)
    closures: tuple[Span, ...] = ()
    horizon: int = 0

    def data(self, moment: Moment) -> dict:
        """What is otherwise than in the moment before."""
        data: dict = {}
        if moment.closures != self.closures:
            self.closures = moment.closures
            data["closures"] = _pairs(self.closures)
        if moment.horizon != self.horizon:
            data["horizon"] = self.horizon = moment.horizon
        data["gone"] = self._gone({it.callsign for it in moment.flights})
        data["flights"] = list(self._flights(moment.flights))
        data["lands"] = list(self._landings(moment))
        data["moves"] = [[self._index(it.callsign), it.seconds, it.places] for it in moment.moves]
        data["froze"] = [self._index(it.callsign) for it in moment.froze]
        return {key: value for key, value in data.items() if value or key in ("closures", "horizon")}

    def _index(self, callsign: str) -> int:
        """The number by which the data name a callsign."""
        return self.names.setdefault(callsign, len(self.names))

    def _gone(self, active: set[str]) -> list[int]:
        """The flights that are no longer active."""
        gone = [callsign for callsign in self.flights if callsign not in active]
        for callsign in gone:
            del self.flights[callsign]
            self.landings.pop(callsign, None)
        return [self._index(callsign) for callsign in gone]

    def _flights(self, flights: Sequence[Flight]) -> Iterator[list]:
        """The flights that are new or have another estimate or other windows."""
        for flight in flights:
            known = self.flights.get(flight.callsign)
            if known is not flight and known != flight:
                self.flights[flight.callsign] = flight
                yield [self._index(flight.callsign), flight.category, flight.eta, _pairs(flight.windows)]

    def _landings(self, moment: Moment) -> Iterator[list[int | None]]:
        """The flights that land otherwise than before. Where there is no plan, the frozen flights alone land."""
        frozen = moment.aerodrome.frozen
        landings = moment.plan.landings if moment.plan else [Landing(it.callsign, it.second, True) for it in frozen]
        now = {it.callsign: (it.second, it.frozen) for it in landings}
        for callsign in [it for it in self.landings if it not in now]:
            yield [self._index(callsign), None, 0]
        for callsign, (second, is_frozen) in now.items():
            if self.landings.get(callsign) != (second, is_frozen):
                yield [self._index(callsign), second, int(is_frozen)]
        self.landings = now
