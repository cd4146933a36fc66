"""`desk check` of flight files, logs and plans: what the program says, and then every fault with its cure."""

import unittest
import unittest.mock

from tools.desk import check, program
from tools.desk.tests.checked import AERODROME, FLIGHTS, HEADER, LOG, PLAN, Checks
from tools.desk.tests.samples import InFolder, desk, needs_program


@needs_program
class Flights(Checks):
    """Flight files."""

    def test_headers(self) -> None:
        for text, *said in [
            (FLIGHTS.partition("\n")[2], "row 1", "the header is missing"),
            (FLIGHTS.replace("callsign", "Callsign"), "row 1", "wanted are lower case"),
            (FLIGHTS.replace("callsign,category", "category,callsign"), "row 1", "this order"),
            (FLIGHTS.replace("n,c", "n, c"), "row 1", "no blanks"),
            (FLIGHTS.replace(",", ";"), "row 1", "semicolons separate the fields; `desk sheet` reads them"),
            (FLIGHTS.replace(",", "\t"), "row 1", "tabs separate the fields"),
            (FLIGHTS.encode("utf-16"), "row 1", "the file is UTF-16"),
            ("# today\n" + FLIGHTS, 'row 1: "# today"', "there are no comments"),
            ("", "row 1", "the file is empty"),
            (AERODROME, "row 1", "looks like an aerodrome file"),
            (PLAN, "row 1", "looks like a printed plan"),
            (FLIGHTS.replace(",weight", ""), "row 1", 'the column "weight" is missing'),
        ]:
            self.assert_refused("flights", text, "header", *said)

    def test_fields(self) -> None:
        good = "UAE7,A,37800,5,37800-39600,"
        for row, cause, *said in [
            ("uae7" + good[4:], "callsign", 'callsign: "uae7"', "write UAE7"),
            ("EZY-81" + good[4:], "callsign", "write EZY81"),
            (good.replace(",A", ",a"), "category", "write A"),
            (good.replace(",A", ",H"), "category", "RECAT-EU"),
            (good.replace(",A", ", A"), "category", 'category: " A"', "write A"),
            (good.replace("37800,", "10:30,"), "eta not-number", "write 37800; `desk sheet` turns clock times"),
            (good.replace("37800,", "37840.0,"), "eta not-number", "write 37840"),
            (good.replace("37800,", '"37,840",'), "eta not-number", "write 37840"),
            (good.replace("37800,", "037870,"), "eta not-number", "write 37870"),
            (good.replace("37800,", "172800,"), "eta above", "from 0 to 172799"),
            (good.replace(",5,", ",0,"), "weight below", "a whole number from 1 to 100"),
            (good.replace(",5,", ",1.5,"), "weight not-number", "a whole number from 1 to 100"),
            (good.replace("37800-39600", "37870-"), "windows number 1 not-number", "both ends are wanted"),
            (good.replace("37800-39600", "37870 - 39670"), "windows number 1 not-number", "write 37870-39670"),
            (good.replace("37800-39600", "37870\u201339670"), "windows shape 1", "write 37870-39670"),
            (good.replace("37800-39600", ""), "windows none", "the estimate to half an hour after it"),
            (good.replace("37800-39600", "39600-37800"), "windows backward 1", "it ends before it begins"),
            (
                good.replace("37800-39600", "37870-49670"),
                "windows too-long",
                "at most 7200 seconds together; these have 11801",
            ),
            (good.replace("37800-39600", "1-5;5-9"), "windows overlap 2", "it begins before 1-5 ends"),
            (good + " ", "after callsign 1", 'after: " "', "leave it empty, without a blank"),
            (good + '"EZY81,BAW12"', "after callsign 1", "write EZY81;BAW12"),
            (good + "UAE7", "after itself 1", "cannot land before itself"),
            (good + "B1;B1", "after repeat 2", "B1 is named twice"),
            (good + "B1;B2;B3;B4;B5", "after too-many", "5 stand there"),
            (good[:-1], "fields", "6 fields, with 5 commas; 5 stand there", "an empty last field has its comma too"),
            (good + ",late", "fields", "7 stand there", "remarks no column"),
            (",,,,,", "callsign", "no empty row", "delete the row"),
        ]:
            self.assert_refused("flights", f"{HEADER}\n\n{row}\n", cause, "flights.csv, row 4", *said)
        self.assert_refused("flights", f"{HEADER}{good}\n{good}\n", "duplicate", "row 3, callsign", "row 2 has it too")
        many = "".join(f"F{number:03}" + good[4:] + "\n" for number in range(501))
        self.assert_refused("flights", HEADER + many, "too-many", "row 502", "at most 500 flights")

    def test_all_at_once(self) -> None:
        answer = self.check("flights", HEADER + "uae7,H,x,0,,\n\nBAW12,B,37840,1,1-2,;\nBAW12,B,1,2,3-4\n")
        for place in (
            "row 2, callsign",
            "row 2, category",
            "row 2, eta",
            "row 2, weight",
            "row 2, windows",
            "row 4, after",
            "row 5",
        ):
            self.assert_said(answer.out, f"flights.csv, {place}:")

    def test_doubts(self) -> None:
        answer = self.check("flights", FLIGHTS.replace("EZY81\n", "EZY18\n"))
        self.assertEqual(answer.status, 0)
        self.assert_said(answer.out, "row 7, after", "EZY18 is no flight of the file", "is EZY81 meant?")

    def test_too_many_wait(self) -> None:
        rows = "".join(f"F{number:03},A,{36000 + number},1,36000-37800,\n" for number in range(61))
        answer = self.check("flights", HEADER + rows)
        self.assertEqual(answer.status, 3)
        self.assert_said(answer.out, "cps says: too many waiting 61")
        self.assert_said(answer.out, 'flights.csv: "61 waiting flights"; wanted: at most 60 that are not frozen')


@needs_program
class Third(Checks):
    """Logs and plans."""

    def test_logs(self) -> None:
        for row, cause, *said in [
            ("clock,37500,,,,,", "callsign not-empty", "row 2, callsign", "nothing here", "is it meant for eta?"),
            ("estimate,UAE7,,37800,,,", "windows none", "row 2, windows", "one to 4 windows"),
            ("estimate,UAE7,A,37800,,1-2,", "category not-empty", "row 2, category", "nothing here"),
            ("closure,,,,,1-2,", "kind", "row 2, kind", "write close"),
            ("close,,,,,2-1,", "windows empty", "row 2, windows", "it ends before it begins"),
            ("clock,,,37500,,", "fields", "row 2", "7 fields, with 6 commas; 6 stand there"),
        ]:
            self.assert_refused("events", f"{LOG}{row}\n", cause, *said)
        self.assert_refused("events", f"kind,callsign\nclock,\n{LOG}", "header", "row 1", "the column")

    def test_plans(self) -> None:
        for text, *said in [
            (PLAN.replace("\n", "\r\n"), "row 1", "11 of the lines end with CR LF"),
            ("\ufeff" + PLAN, "row 1", "no mark of byte order"),
            (PLAN[:-1], "row 11", "a line end behind the last line"),
            ("event 0 begun\n" + PLAN, 'row 1: "event 0 begun"', "`desk replay` writes the plan of each moment"),
            (PLAN + "\n", "row 12", "an empty line is none"),
            (PLAN.replace("UAE7", "uae7"), "row 2", "land CALLSIGN SECOND waiting"),
            (PLAN.replace("makespan 38550", "makespan"), "row 1", "makespan and a number"),
        ]:
            self.assert_refused("plan", text, "not what a plan has there", *said)

    def test_what_audit_finds(self) -> None:
        answer = self.check("plan", PLAN)
        self.assertEqual(answer.status, 0)
        self.assert_said(answer.out, "plan.txt: audit: ok")
        answer = self.check("plan", PLAN.replace("37910", "37900"))
        self.assertEqual(answer.status, 1)
        self.assert_said(answer.out, "plan.txt: audit: separation UAE7 BAW12")


class Reading(InFolder):
    """What needs no program."""

    def test_it_reads_without_a_program(self) -> None:
        self.write("a.toml", AERODROME.replace("k = 1", "k = 4"))
        with unittest.mock.patch.object(
            check.program, "find", side_effect=program.NoProgram("the program is not built; run ./build first")
        ):
            answer = desk(["check", "a.toml"])
            self.assertEqual(answer.status, 3)
            self.assert_said(answer.out, "a.toml, row 2, k:")
            answer = desk(["check", self.write("a.toml", AERODROME)])
        self.assertEqual(answer.status, 9)
        self.assertEqual(answer.err, "desk: the program is not built; run ./build first\n")
        self.assert_said(answer.out, "a.toml: the desk finds no fault")

    @needs_program
    def test_no_file(self) -> None:
        for path, said in [("none.toml", "No such file or directory"), (".", "Is a directory")]:
            answer = desk(["check", path])
            self.assertEqual((answer.status, answer.err), (3, f"desk: {path}: {said}\n"))


if __name__ == "__main__":
    unittest.main()
