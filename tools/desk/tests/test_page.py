"""The page of a replay: its data bring each moment back, it asks for nothing from outside, and a whole day is small."""

import json
import re
import unittest
from collections.abc import Iterator
from dataclasses import replace

from tools.desk import files, page
from tools.desk.model import Aerodrome, Clock, Flight, Frozen, Landing, Objective, Plan, Span
from tools.desk.moments import Moment, Move, moments_of
from tools.desk.tests.samples import EXAMPLES

TABLE = {letter: (60,) * 6 for letter in "ABCDEF"}
AERODROME = Aerodrome(3, 1, 600, Objective.MAKESPAN, TABLE)
DAY_BYTES = 10_000_000


def moments_in(folder: str) -> list[Moment]:
    """The moments of an example, by its printed replay."""
    place = EXAMPLES / folder
    aerodrome = files.read_aerodrome(str(place / "aerodrome.toml"))
    flights, events = files.read_flights(str(place / "flights.csv")), files.read_events(str(place / "events.csv"))
    return list(moments_of(aerodrome, flights, events, files.steps_of((place / "output").read_text())))


def data_of(text: str) -> dict:
    """The data that stand in a page."""
    found = re.search(r'<script type="application/json" id="data">(.*?)</script>', text, re.DOTALL)
    assert found is not None
    return json.loads(found[1])


def moment(number: int, flights: list[Flight], seconds: dict[str, int] | None, **changed) -> Moment:
    """A moment after a clock event, where the flights land at these seconds or there is no plan."""
    plan = None
    if seconds is not None:
        plan = Plan(Objective.MAKESPAN, max(seconds.values(), default=0), tuple(Landing(*it) for it in seconds.items()))
    at = Moment(number, Clock(number, number), f"clock {number}", None, AERODROME, tuple(flights), plan, None, (), ())
    return replace(at, **changed)


def said_of(flight: Flight) -> list:
    """What the data say of a flight behind its number."""
    return [flight.category, flight.eta, [[it.first, it.last] for it in flight.windows]]


class Played:
    """What the page's script does with the data, once more: the state after each moment."""

    def __init__(self, data: dict) -> None:
        self.names = data["names"]
        self.flights: dict[str, list] = {}
        self.landings: dict[str, tuple[int, int]] = {}
        self.closures: list[list[int]] = []
        self.horizon = 0

    def apply(self, changes: dict) -> None:
        for index in changes.get("gone", []):
            del self.flights[self.names[index]]
            self.landings.pop(self.names[index], None)
        for index, *said in changes.get("flights", []):
            self.flights[self.names[index]] = said
        for index, second, frozen in changes.get("lands", []):
            if second is None:
                del self.landings[self.names[index]]
            else:
                self.landings[self.names[index]] = (second, frozen)
        self.closures = changes.get("closures", self.closures)
        self.horizon = changes.get("horizon", self.horizon)


class Data(unittest.TestCase):
    """What the page is given."""

    def assert_brought_back(self, moments: list[Moment]) -> None:
        data = data_of(page.html("a day", moments, {}))
        played = Played(data)
        for at, changes in zip(moments, data["moments"], strict=True):
            played.apply(changes)
            frozen = {it.callsign: (it.second, 1) for it in at.aerodrome.frozen}
            landings = {it.callsign: (it.second, int(it.frozen)) for it in at.plan.landings} if at.plan else frozen
            self.assertEqual(played.flights, {it.callsign: said_of(it) for it in at.flights})
            self.assertEqual(played.landings, landings)
            self.assertEqual(played.closures, [[it.first, it.last] for it in at.closures])
            self.assertEqual(played.horizon, at.horizon)

    def test_examples_come_back(self) -> None:
        for folder in ("day", "passed-again", "passed-once"):
            with self.subTest(folder):
                self.assert_brought_back(moments_in(folder))

    def test_without_a_plan_the_frozen_land(self) -> None:
        flights = [Flight(it, "A", 1_000, 1, (Span(1_000, 2_000),)) for it in ("AA1", "BB2", "CC3")]
        frozen = replace(AERODROME, clock=900, frozen=(Frozen("AA1", 1_000),), closures=(Span(5, 6),))
        moments = [
            moment(1, flights, {"AA1": 1_000, "BB2": 1_060, "CC3": 1_120}),
            moment(2, flights, None, aerodrome=frozen),
            moment(3, flights[:2], {"BB2": 1_060}, aerodrome=replace(frozen, closures=())),
            moment(4, [*flights[:2], replace(flights[2], eta=7)], {"CC3": 1_060}, aerodrome=replace(frozen, clock=950)),
        ]
        self.assert_brought_back(moments)
        said = data_of(page.html("a day", moments, {2: ()}))["moments"][1]
        self.assertEqual((said["value"], said["audit"]), ("infeasible", "infeasible claimed"))

    def test_the_words(self) -> None:
        moments = moments_in("day")
        findings = {it.number: () for it in moments} | {2: ("early F1",)}
        del findings[4]
        data = data_of(page.html("a day", moments, findings))["moments"]
        self.assertEqual([it.get("audit") for it in data[:5]], [None, None, ["early F1"], None, "not asked"])
        self.assertEqual(data[3]["where"], "event 3, record 4, row 4")
        self.assertEqual(data[3]["refused"], "no active flight has this callsign")
        self.assertEqual(data[5]["clock"], "00:15:00")
        self.assertNotIn("where", data[0])
        index = data_of(page.html("a day", moments, findings))["names"].index
        moved = [[index(it.callsign), it.seconds, it.places] for it in moments[1].moves]
        self.assertEqual(data[1].get("moves", []), moved)


class Page(unittest.TestCase):
    """The page as a whole."""

    def test_it_asks_for_nothing(self) -> None:
        text = page.html("a </script> day", moments_in("day"), {})
        self.assertIn("default-src 'none'", text)
        self.assertEqual(set(re.findall(r"https?://[^\"'` >]*", text)), {"http://www.w3.org/2000/svg"})
        self.assertEqual(set(re.findall(r'(?:src|href)="([^"]*)"', text)), {"data:,", "#${number}"})
        self.assertNotRegex(text, r"@import|url\((?!#)|fetch\(|import\(|XMLHttpRequest")
        self.assertEqual(text.count("</script>"), 2)

    def test_the_same_input_gives_the_same_bytes(self) -> None:
        moments = moments_in("passed-again")
        self.assertEqual(page.html("a day", moments, {}), page.html("a day", moments, {}))

    def test_a_day_of_2000_events_is_small(self) -> None:
        """Each event moves all flights that may wait, and 440 are frozen. A tenth of the day takes a tenth of it."""
        text = page.html("a day", _busy_day(200), {it: () for it in range(201)})
        self.assertLessEqual(len(text.encode()) * 10, DAY_BYTES)


def _busy_day(events: int) -> Iterator[Moment]:
    flights = [Flight(f"ABC{it:05}", "A", 1_000 + 60 * it, 1, (Span(1_000, 8_000),)) for it in range(500)]
    frozen = {it.callsign: it.eta for it in flights[:440]}
    for number in range(events + 1):
        shift = number % 2 * 60
        seconds = frozen | {it.callsign: 50_000 + it.eta + shift for it in flights[440:]}
        moves = tuple(Move(it.callsign, 120 * (number % 2) - 60, 0) for it in flights[440:])
        yield moment(number, flights, seconds, moves=moves if number else ())


if __name__ == "__main__":
    unittest.main()
