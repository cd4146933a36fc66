"""`desk check` of aerodrome files, and of what they say of flights."""

import unittest

from tools.desk.tests.checked import AERODROME, FLIGHTS, PLAN, Checks
from tools.desk.tests.samples import needs_program


@needs_program
class Aerodromes(Checks):
    """Aerodrome files."""

    def assert_changed(self, old: str, new: str, cause: str, *said: str) -> None:
        self.assertIn(old, AERODROME)
        self.assert_refused("aerodrome", AERODROME.replace(old, new), cause, *said)

    def test_keys(self) -> None:
        for old, new, cause, *said in [
            ("[table]", "[separations]", "unknown key separations", 'row 6, separations: "separations"', "write table"),
            ("k = 1", "K = 1", "unknown key K", 'row 2, K: "K"', "write k"),
            (
                "k = 1",
                'k = 1\nremark = "ours"',
                "unknown key remark",
                'row 3, remark: "remark"',
                "a remark stands behind a #",
            ),
            ("k = 1\n", "", "missing k", "k: wanted: k = .., the most places of shift, 0 to 3"),
            ("k = 1", "k = 4", "range k", 'row 2, k: "4"; wanted: a whole number from 0 to 3'),
            (
                "k = 1",
                'k = "1"',
                "kind k",
                'row 2, k: "1"; wanted: a whole number from 0 to 3; write 1, without quotes',
            ),
            ("k = 1", "k = true", "kind k", 'row 2, k: "true"'),
            ("freeze = 900", "freeze = 7201", "range freeze", "row 3, freeze", "0 to 7200"),
            ("freeze = 900", "freeze = 00:15:00", "kind freeze", "row 3, freeze", "write 900"),
            ('"makespan"', '"Makespan"', "range objective", "row 4, objective", 'write "makespan"'),
            ("version = 1", "version = 3.0", "kind version", 'row 1, version: "3.0"', "write 3"),
            ("version = 1", "version = 4", "range version", "row 1, version", "1, 2 or 3"),
            ("k = 1", "k = 1\nclock = 37000", "unknown key clock", "row 3, clock", "write version = 2 or 3"),
            ("k = 1", "k = 1\npassed = []", "unknown key passed", "row 3, passed", "write version = 3"),
            (
                "F = [60",
                "clock = 37000\nF = [60",
                "unknown key table clock",
                "table clock",
                "put it above the line [table]",
            ),
            ("k = 1", f"k = {2**63}", "not toml", "row 2, k", "a whole number of 64 bits"),
        ]:
            self.assert_changed(old, new, cause, *said)

    def test_texts_that_are_no_toml(self) -> None:
        for old, new, *said in [
            ('"makespan"', "makespan", "row 4, objective", 'a word stands in quotes: "makespan"'),
            ("180]", "180", "row 7, A", "a bracket ] is missing"),
            ('"makespan"', "\u201cmakespan\u201d", "row 4, objective", "straight quotes are wanted"),
            ("B = [60, 90, 100, 110, 120, 160]", "..", 'row 8: ".."', "a row for each category"),
            ("k = 1", "k = 1\nk = 1", "row 3, k", "TOML (cannot overwrite a value)"),
        ]:
            self.assert_changed(old, new, "not toml", *said)
        self.assert_changed("freeze = 900", "freeze = 10:35", "kind freeze", "row 3, freeze", "write 38100")
        self.assert_refused("aerodrome", FLIGHTS, "not toml", "row 1", "two files in each other's place?")
        self.assert_refused("aerodrome", PLAN, "not toml", "row 1", "looks like a printed plan")
        self.assert_refused("aerodrome", AERODROME.encode("utf-16"), "not toml", "UTF-8; the file looks like UTF-16")

    def test_the_table(self) -> None:
        for old, new, cause, *said in [
            ("D = [60, 60, 60, 60, 60, 120]\n", "", "missing row D", "a row D = [..], with 6 numbers in brackets"),
            ("60, 120]", "120]", "kind row D", "row 10, table D", "6 numbers in brackets", "5 stand there"),
            ("A = [90", "A = [0", "table range A A", 'row 7, table A: "0"', "whole seconds from A to A, 1 to 600"),
            (
                "140, 180]",
                "140, 400]",
                "table triangle A B F",
                'row 7, table A: "400"',
                "from A to F at most 240",
                "A to E to F",
            ),
            ("F = [", "G = [", "unknown key table G", "row 12, table G", "the letters A to F alone"),
        ]:
            self.assert_changed(old, new, cause, *said)

    def test_the_shift_of_a_delay(self) -> None:
        delay = AERODROME.replace("makespan", "delay")
        self.assert_refused(
            "aerodrome", delay.replace("k = 1", "k = 2"), "delay shift 2", "row 2, k", "write version = 2 for k = 2"
        )
        third = delay.replace("k = 1", "k = 3").replace("version = 1", "version = 2")
        self.assert_refused("aerodrome", third, "delay shift 3", "row 2, k", "write k = 2")

    def test_closures(self) -> None:
        for closure, cause, *said in [
            ("[[closures]]\nfrom = 38100\nto = 37900\n", "closure 1 empty", 'row 14, closure 1: "38100 to 37900"'),
            ("[closures]\nfrom = 1\nto = 2\n", "kind closures", "row 14, closures", "two brackets on each side"),
            ("[[closure]]\nfrom = 1\nto = 2\n", "unknown key closure", "row 14, closure", "write closures"),
            ("[[closures]]\nfrom = 10:35:00\nto = 38300\n", "kind from 1", 'closure 1 from: "10:35:00"', "write 38100"),
            ("[[closures]]\nfrom = 1\n", "missing to 1", "row 14, closure 1 to: wanted: to = .."),
            ("[[closures]]\nfrom = 1\nto = 172801\n", "range to 1", "row 16, closure 1 to", "from 0 to 172800"),
            (
                "[[closures]]\nfrom = 1\nto = 2\nwhy = 1\n",
                "unknown key closure 1 why",
                "closure 1 why",
                "from and to alone",
            ),
            ("[[closures]]\nfrom = 1\nto = 2\n" * 33, "closure 33 too-many", "at most 32 entries; 33 stand there"),
        ]:
            self.assert_refused("aerodrome", f"{AERODROME}\n{closure}", cause, *said)

    def test_the_middle_of_a_day(self) -> None:
        second = AERODROME.replace("version = 1", "version = 3\nclock = 37000")
        frozen, passed = "\n[[frozen]]\ncallsign = ", "\n[[passed]]\ncallsign = "
        for text, cause, *said in [
            (
                second + frozen + '"UAE7"\nsecond = 37900\n',
                "frozen late 1",
                "a second below 37900, the clock plus the freeze",
            ),
            (second + frozen + '"uae7"\nsecond = 1\n', "range callsign 1", "row 16, frozen 1 callsign", "write UAE7"),
            (second + frozen + "7\nsecond = 1\n", "kind callsign 1", "a text in quotes"),
            (
                second + (frozen + '"UAE7"\nsecond = 1\n') * 2,
                "frozen repeat 2",
                "frozen 2 callsign",
                "entry 1 has it too",
            ),
            (second + passed + '"UAE7"\ncount = 2\n', "range count 1", "row 17, passed 1 count", "from 1 to 1"),
            (
                AERODROME.replace("= 1\n", "= 2\n", 1) + frozen + '"UAE7"\nsecond = 1\n',
                "frozen no-clock",
                "clock = .. as well",
            ),
        ]:
            self.assert_refused("aerodrome", text, cause, *said)

    def test_a_version_that_is_no_whole_number(self) -> None:
        text = AERODROME.replace("version = 1", "version = 3.0\nclock = 37000")
        answer = self.check("aerodrome", text)
        self.assert_said(answer.out, "cps says: unknown key clock")
        self.assert_said(answer.out, 'row 1, version: "3.0"', "write 3")
        self.assertNotIn("clock:", answer.out)

    def test_all_at_once(self) -> None:
        text = (
            AERODROME.replace("k = 1", "k = 7")
            .replace("900", "9000")
            .replace('"makespan"', "makespan")
            .replace("140, 180", "140")
        )
        answer = self.check("aerodrome", text + "\n[[closures]]\nfrom = 2\nto = 1\n")
        for place in ("row 2, k", "row 3, freeze", "row 4, objective", "row 7, table A", "row 14, closure 1"):
            self.assert_said(answer.out, f"aerodrome.toml, {place}:")
        self.assert_said(answer.out, "flights.csv: good, 10 flights")

    def test_toml_that_python_cannot_read(self) -> None:
        later = AERODROME.replace("[table]", "closures = [{from = 1,\n  to = 2}]\n[table]")
        answer = self.check("aerodrome", later)
        self.assertEqual(answer.status, 0)
        self.assert_said(answer.out, "aerodrome.toml: good", "tomllib cannot read it", "TOML 1.1")


@needs_program
class Openings(Checks):
    """Frozen landings and counts that the flights do not bear out."""

    def assert_opening(self, lists: str, cause: str, *said: str) -> None:
        text = AERODROME.replace("version = 1", "version = 3\nclock = 38000")
        answer = self.check("aerodrome", f"{text}\n{lists}")
        with self.subTest(cause=cause):
            self.assertEqual(answer.status, 3)
            self.assert_said(answer.out, f"aerodrome.toml, flights.csv: cps says: {cause}")
            self.assert_said(answer.out, *said)

    def test_openings(self) -> None:
        def frozen(*pairs: tuple[str, int]) -> str:
            return "".join(f'[[frozen]]\ncallsign = "{name}"\nsecond = {second}\n' for name, second in pairs)

        closure = "[[closures]]\nfrom = 37900\nto = 38000\n"
        self.assert_opening(
            frozen(("EZY18", 38000)),
            "unknown-frozen 1",
            "row 15, frozen 1",
            "a flight of flights.csv",
            "is EZY81 meant?",
        )
        self.assert_opening(
            '[[passed]]\ncallsign = "EZY18"\ncount = 1\n', "unknown-passed 1", "passed 1", "a waiting flight"
        )
        self.assert_opening(
            frozen(("UAE7", 37800), ("BAW12", 37880)), "frozen-separation 1 2", "frozen 2", "110 seconds from UAE7"
        )
        self.assert_opening(
            closure + frozen(("UAE7", 37950)), "frozen-closed 1", "frozen 1", "the closure from 37900 to 38000"
        )
        self.assert_opening(
            frozen(("UAE7", 37700)), "frozen-closed 1", "frozen 1", "a window of the flight, 37800-39600"
        )
        self.assert_opening(frozen(("DLH4A", 38000)), "frozen-precedence 1 EZY81", "frozen 1", "EZY81 frozen before it")


if __name__ == "__main__":
    unittest.main()
