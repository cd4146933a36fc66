"""Pictures: what is drawn, where, and in which words. The texts are read back as XML."""

import random
import tempfile
import unittest
from pathlib import Path
from xml.etree import ElementTree

from tools.desk import drawing, files, program
from tools.desk.model import Aerodrome, Flight, Frozen, Landing, Objective, Plan, Span
from tools.desk.scene import named, scene_of
from tools.desk.tests.samples import EXAMPLES, desk, needs_program

SVG = "{http://www.w3.org/2000/svg}"
TABLE = {letter: (60, 70, 80, 90, 100, 110) for letter in "ABCDEF"}


def flight(callsign: str, eta: int, *windows: tuple[int, int], category: str = "A") -> Flight:
    """A flight with a window of half an hour where none is given."""
    return Flight(callsign, category, eta, 1, tuple(Span(*it) for it in windows or ((eta, eta + 1_800),)))


def aerodrome(**changed) -> Aerodrome:
    """An aerodrome with a table whose columns differ."""
    return Aerodrome(**{"version": 2, "k": 1, "freeze": 0, "objective": Objective.MAKESPAN, "table": TABLE, **changed})


def plan(*landings: tuple) -> Plan:
    """A plan for the makespan."""
    return Plan(Objective.MAKESPAN, max(it[1] for it in landings), tuple(Landing(*it) for it in landings))


class Drawn:
    """A picture, read back."""

    def __init__(self, text: str) -> None:
        self.elements = list(ElementTree.fromstring(text).iter())

    def of(self, style: str) -> list[ElementTree.Element]:
        """The shapes of a class in the rows: those of the key say no words."""
        return [it for it in self.elements if it.get("class") == style and it.find(f"{SVG}title") is not None]

    def hints(self, style: str) -> list[str]:
        return [it.findtext(f"{SVG}title", "") for it in self.of(style)]

    def rows(self) -> list[list[str]]:
        """The words of each row, behind those of the columns."""
        texts = [it for it in self.elements if it.tag == f"{SVG}text" and len(it)]
        return [[span.text or "" for span in it] for it in texts[1:]]

    def lines(self, style: str | None) -> list[str]:
        """The texts of one class that stand by themselves."""
        texts = [it for it in self.elements if it.tag == f"{SVG}text" and not len(it)]
        return [it.text or "" for it in texts if it.get("class") == style]


def along(shape: ElementTree.Element) -> float:
    """Where a path begins."""
    return float(shape.get("d", "")[1:].split(" ")[0])


def drawn(of: Aerodrome, flights: list[Flight], landed: Plan | None, findings: tuple[str, ...] = ()) -> Drawn:
    """A plan's picture, read back."""
    return Drawn(drawing.svg(scene_of(of, flights, landed, findings)))


class Rows(unittest.TestCase):
    """The words and the shapes of the rows."""

    def test_words(self) -> None:
        flights = [flight("AA1", 36_000), flight("BB2", 36_010, category="F"), flight("CC3", 35_999)]
        picture = drawn(aerodrome(), flights, plan(("BB2", 36_000), ("AA1", 36_070), ("CC3", 86_470)))
        self.assertEqual(
            picture.rows(),
            [
                ["BB2", "F", "3", "1", "-2", "10:00:00", "-0:10"],
                ["AA1", "A", "2", "2", "0", "10:01:10", "1:10"],
                ["CC3", "A", "1", "3", "+2", "+1 00:01:10", "841:11"],
            ],
        )

    def test_frozen_unknown_and_missing(self) -> None:
        flights = [flight("AA1", 1_000), flight("BB2", 1_010), flight("CC3", 1_020)]
        at = aerodrome(clock=900, freeze=200, frozen=(Frozen("AA1", 1_000),))
        findings = ("missing BB2", "missing CC3", "unknown ZZ9")
        picture = drawn(at, flights, plan(("AA1", 1_000, True), ("ZZ9", 1_200)), findings)
        self.assertEqual(picture.rows()[0], ["AA1", "A", "00:16:40", "0:00"])
        self.assertEqual(picture.rows()[1:], [["ZZ9", "00:20:00"], ["BB2", "A", "1"], ["CC3", "A", "2"]])
        self.assertEqual(picture.lines("x"), [f"audit: {it}" for it in findings])
        self.assertEqual(picture.hints("h"), ["horizon 00:18:20 (1100)"])
        self.assertEqual(picture.hints("m"), ["ZZ9 lands 00:20:00 (1200), waiting"])
        self.assertEqual(picture.hints("f"), ["AA1 lands 00:16:40 (1000), frozen"])

    def test_owed_separation(self) -> None:
        flights = [flight("AA1", 1_000), flight("BB2", 1_010, category="C")]
        picture = drawn(aerodrome(), flights, plan(("AA1", 1_000), ("BB2", 1_080)))
        self.assertEqual(picture.hints("s"), ["behind AA1 the next may land at 00:18:00 (1080)"])
        end = float(picture.of("s")[0].get("d", "").split("H")[1])
        self.assertEqual(end, along(picture.of("m")[1]))

    def test_findings_name_flights(self) -> None:
        landings = [Landing("AA1", 1), Landing("BB2", 1)]
        self.assertEqual(named(["order 2"], landings), {"BB2"})
        self.assertEqual(named(["shift AA1 4 2", "value 36320", "objective"], landings), {"AA1"})
        self.assertEqual(named(["separation AA1 BB2", "closed CC3 7"], landings), {"AA1", "BB2", "CC3"})


class Scale(unittest.TestCase):
    """What is seen from side to side."""

    def test_it_is_that_of_the_landings(self) -> None:
        flights = [flight("AA1", 36_000), flight("BB2", 36_050), flight("CC3", 3_810, (3_810, 5_000), (36_000, 37_000))]
        picture = drawn(aerodrome(), flights, plan(("AA1", 36_000), ("BB2", 36_060), ("CC3", 36_240)))
        places = list(map(along, picture.of("m")))
        self.assertEqual(places[0], drawing.FIELD + drawing.MARGIN)
        self.assertEqual(places[-1], drawing.WIDTH - drawing.MARGIN)
        self.assertEqual(picture.hints("o"), ["CC3 window 01:03:30 (3810) to 01:23:20 (5000)"])
        self.assertEqual(picture.hints("f"), ["CC3 estimate 01:03:30 (3810)"])

    def test_the_landings_take_half(self) -> None:
        for second in range(35_000, 37_000, 7):
            flights = [flight("AA1", 36_000), flight("BB2", second, (36_000, 36_600))]
            places = list(map(along, drawn(aerodrome(), flights, plan(("AA1", 36_000), ("BB2", 36_600))).of("m")))
            self.assertGreaterEqual((places[1] - places[0]) * 2, drawing.INNER)

    def test_places_rise_with_the_seconds(self) -> None:
        drawer = random.Random(7)
        for _ in range(100):
            seconds = sorted(drawer.sample(range(drawer.choice((200, 5_000, 172_800))), 8))
            names = [f"AA{it}" for it in drawer.sample(range(100), 8)]
            flights = [flight(it, drawer.randrange(172_800)) for it in names]
            picture = drawn(aerodrome(), flights, plan(*zip(names, seconds)))
            places = list(map(along, picture.of("m")))
            self.assertEqual(places, sorted(places))
            self.assertLess(drawing.FIELD, places[0])
            self.assertLess(places[-1], drawing.WIDTH)

    def test_a_window_of_one_second(self) -> None:
        flights = [flight("AA1", 36_000), flight("BB2", 36_000, (36_300, 36_300))]
        picture = drawn(aerodrome(), flights, plan(("AA1", 36_000), ("BB2", 36_300)))
        self.assertEqual(picture.hints("v"), ["BB2 window 10:05:00 (36300) to 10:05:00 (36300)"])
        self.assertAlmostEqual(along(picture.of("v")[0]), along(picture.of("m")[1]), delta=drawing.LEAST_BAR)

    def test_closures(self) -> None:
        flights = [flight("AA1", 36_000), flight("BB2", 36_010)]
        at = aerodrome(closures=(Span(36_100, 36_200), Span(50_000, 50_001)))
        picture = drawn(at, flights, plan(("AA1", 36_000), ("BB2", 36_200)))
        self.assertEqual(picture.hints("c"), ["closed 10:01:40 (36100) to 10:03:20 (36200)"])
        self.assertIn("closed 13:53:20 to 13:53:21", picture.lines(None))
        shut = picture.of("c")[0]
        end = float(shut.get("x", "")) + float(shut.get("width", ""))
        self.assertAlmostEqual(end, along(picture.of("m")[1]), delta=0.11)

    def test_infeasible(self) -> None:
        flights = [flight("BB2", 36_010), flight("AA1", 36_000), flight("CC3", 35_000)]
        picture = drawn(aerodrome(clock=35_000, freeze=60, frozen=(Frozen("CC3", 35_000),)), flights, None)
        self.assertEqual([row[0] for row in picture.rows()], ["CC3", "AA1", "BB2"])
        self.assertEqual(picture.hints("f"), ["CC3 lands 09:43:20 (35000), frozen"])
        self.assertEqual(picture.lines("t"), ["infeasible"])
        self.assertIn("audit: infeasible claimed", picture.lines(None))

    def test_nothing_to_draw(self) -> None:
        for landed in (None, Plan(Objective.DELAY, 0, ())):
            self.assertEqual(drawn(aerodrome(), [], landed).rows(), [])


@needs_program
class Command(unittest.TestCase):
    """The command over files."""

    def picture(self, folder: str, landed: str) -> program.Answer:
        return desk(["picture", *(str(EXAMPLES / folder / name) for name in ("aerodrome.toml", "flights.csv", landed))])

    def test_the_pictures_of_the_documents(self) -> None:
        bank, broken = self.picture("bank", "output"), self.picture("broken-plan", "plan.txt")
        self.assertEqual((bank.status, broken.status), (0, 0))
        self.assertEqual(bank.out, (program.TOP / "docs/bank.svg").read_text())
        self.assertEqual(broken.out, (EXAMPLES / "broken-plan/plan.svg").read_text())
        self.assertEqual(broken.out, self.picture("broken-plan", "plan.txt").out)

    def test_without_a_plan_it_is_that_of_first(self) -> None:
        files_of = [str(EXAMPLES / "first-best" / name) for name in ("aerodrome.toml", "flights.csv")]
        self.assertEqual(desk(["picture", *files_of]).out, self.picture("first-best", "output").out)

    def test_broken_plan(self) -> None:
        picture = Drawn(self.picture("broken-plan", "plan.txt").out)
        red = [it for it in picture.elements if it.get("class") == "x" and it.tag == f"{SVG}text" and len(it)]
        self.assertEqual([it[0].text for it in red], ["DLH400", "NJE5", "EZY81"])
        findings = (EXAMPLES / "broken-plan/output").read_text().splitlines()
        self.assertEqual(picture.lines("x"), [f"audit: {it}" for it in findings])

    def test_refusals_name_the_file(self) -> None:
        bank = EXAMPLES / "bank"
        with tempfile.TemporaryDirectory() as folder:
            bad, missing, windows = (Path(folder, name) for name in ("bad.csv", "missing.csv", "notepad.txt"))
            bad.write_text(f"{','.join(files.FLIGHT_COLUMNS)}\n\n\nAA1,d,1,1,1-2,\n")
            windows.write_bytes((bank / "output").read_bytes().replace(b"\n", b"\r\n"))
            for flights, landed, said in (
                (bad, bank / "output", f"{bad}, row 4: category"),
                (missing, bank / "output", f"{missing}: cannot be read: No such file or directory"),
                (bank / "flights.csv", windows, f"{windows}, row 1: wanted: lines that end with LF alone"),
            ):
                answer = desk(["picture", str(bank / "aerodrome.toml"), str(flights), str(landed)])
                self.assertEqual((answer.status, answer.out, answer.err.split(";")[0].strip()), (3, "", said))


if __name__ == "__main__":
    unittest.main()
