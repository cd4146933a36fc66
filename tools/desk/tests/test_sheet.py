"""`desk sheet`: what is taken as it is, all faults at once, and what is likely wrong."""

import unittest
from dataclasses import replace
from pathlib import Path

from tools.desk import clock, doubts, files
from tools.desk.model import Span
from tools.desk.tests.samples import EXAMPLES, InFolder, desk

TEN = EXAMPLES / "ten-flights"
HEADER = "callsign,category,eta,weight,windows,after\n"
FLIGHTS = HEADER + "UAE7,A,37800,5,37800-39600,\nEZY81,D,37870,1,37870-39670,UAE7\n"


class Taken(InFolder):
    """Sheets that all say the same."""

    def assert_taken(self, content: str | bytes, *said: str) -> None:
        answer = desk(["sheet", self.write("sheet.csv", content)])
        self.assertEqual((answer.status, answer.out), (0, FLIGHTS), answer.err)
        for part in said:
            self.assert_said(answer.err, part)

    def test_a_strict_file(self) -> None:
        self.assert_taken(FLIGHTS)

    def test_other_separators(self) -> None:
        self.assert_taken(FLIGHTS.replace(",", ";"), "separated by semicolons")
        self.assert_taken(FLIGHTS.replace(",", "\t"), "separated by tabs")

    def test_other_bytes(self) -> None:
        self.assert_taken("\ufeff" + FLIGHTS)
        self.assert_taken(FLIGHTS.replace("\n", "\r\n"))
        self.assert_taken(FLIGHTS.replace("\n", "\r"))
        self.assert_taken(FLIGHTS.encode("utf-16"), "read as UTF-16")
        self.assert_taken(FLIGHTS.replace("\n", "\r\n").encode("utf-16-be"), "read as UTF-16")
        self.assert_taken(
            (HEADER[:-1] + ",Größe\n" + FLIGHTS[len(HEADER) :]).encode("cp1252"), "Windows-1252", 'column "Größe"'
        )

    def test_blanks_capitals_and_empty_rows(self) -> None:
        self.assert_taken(
            "\n Callsign , CATEGORY,Eta,weight,windows,after \n uae7 ,a, 37800,5,37800 - 39600, \n,,,,,\n\n"
            "ezy81,d,37870.0,01,37870-39670,uae7\n"
        )

    def test_clock_times_and_dashes(self) -> None:
        self.assert_taken(HEADER + "UAE7,A,10:30,5,10:30:00\u201311:00,\nEZY81,D,10:31:10,1,10:31:10 - 11:01:10,UAE7\n")

    def test_other_columns(self) -> None:
        self.assert_taken(
            "sep=;\n;;ATC list of today\nRemark;Due;Behind;Flight;Wake;Weight\n"
            "vip;10:30;;UAE7;A;5\n;10:31:10;UAE7;EZY81;D;\n",
            'left out: the column "Remark"',
            "left out: row 2, above the header",
            'the column "Due" is read as eta',
            "2 rows without windows: the estimate to 30 minutes after it",
            "1 row without a weight: 1",
        )

    def test_the_window_of_an_empty_one(self) -> None:
        answer = desk(["sheet", self.write("sheet.csv", "callsign,category,eta\nUAE7,A,10:30\n"), "--window", "10"])
        self.assertEqual(answer.out, HEADER + "UAE7,A,37800,1,37800-38400,\n")
        self.assert_said(answer.err, "10 minutes after it")

    def test_the_second_day(self) -> None:
        answer = desk(
            ["sheet", self.write("sheet.csv", "callsign;category;eta;windows\nUAE7;A;23:55;23:55-+1 00:20\n")]
        )
        self.assertEqual(answer.out, HEADER + "UAE7,A,86100,1,86100-87600,\n")

    def test_the_ten_flights(self) -> None:
        answer = desk(["sheet", str(TEN / "sheet.csv")])
        self.assertEqual(answer.out, (TEN / "flights.csv").read_text())

    def test_a_file_is_not_written_over(self) -> None:
        sheet, wanted = self.write("sheet.csv", FLIGHTS), self.write("flights.csv", "mine")
        answer = desk(["sheet", sheet, "--output", wanted])
        self.assertEqual((answer.status, Path(wanted).read_text()), (3, "mine"))
        self.assert_said(answer.err, "flights.csv", "--force")
        self.assertEqual(desk(["sheet", sheet, "--output", wanted, "--force"]).status, 0)
        self.assertEqual(Path(wanted).read_text(), FLIGHTS)


class Refused(InFolder):
    """Faults: the row, the column, what stands there, and what is wanted."""

    def test_each_mistake(self) -> None:
        good = ["BAW12", "B", "10:30:40", "3", "10:30:40-11:00:40", ""]
        for column, text, wanted in [
            ("callsign", "EZY-81", "write EZY81"),
            ("callsign", "EZY 81", "write EZY81"),
            ("callsign", "B", "2 to 8 capital letters or digits"),
            ("callsign", "", "2 to 8 capital letters or digits"),
            ("category", "H", "RECAT-EU"),
            ("category", "AB", "one of the wake categories A, B, C, D, E, F"),
            ("eta", "10.30", "a clock time as 10:30"),
            ("eta", "10:30 AM", "a clock time as 10:30"),
            ("eta", "0.4375", "or seconds after midnight"),
            ("eta", "+2 10:00", "the last is +1 23:59:59"),
            ("weight", "1.5", "a whole number from 1 to 100"),
            ("weight", "0", "a whole number from 1 to 100"),
            ("windows", "11:00 - 10:00", '"11:00 - 10:00"; wanted: the first second, then the last'),
            ("weight", "9" * 5000, "a whole number from 1 to 100"),
            ("windows", "11:00-10:30", "the first second, then the last"),
            ("windows", "23:55-00:20", "+1 00:20:00"),
            ("windows", "10:30-", "both ends are wanted"),
            ("windows", "10:30", "one hyphen stands between"),
            ("windows", "10:30-13:00", "at most 7200 seconds together; these have 9001"),
            ("windows", "10:30-10:40;10:35-10:50", "share no second; it begins before 10:30-10:40 ends"),
            ("windows", ";".join(["10:30-10:31"] * 5), "at most 4 windows; 5 stand there"),
            ("after", "UAE7,UAE7", "UAE7 is named twice"),
            ("after", "BAW12", "a flight cannot land before itself"),
            ("after", "EZY-81", "write EZY81"),
            ("after", "A1 A2 A3 A4 A5", "5 stand there"),
        ]:
            row = [text if name == column else it for name, it in zip(HEADER.strip().split(","), good, strict=True)]
            answer = desk(
                [
                    "sheet",
                    self.write("sheet.csv", HEADER.replace(",", ";") + "\n" + ";".join(f'"{it}"' for it in row) + "\n"),
                ]
            )
            with self.subTest(column=column, text=text[:20]):
                self.assertEqual((answer.status, answer.out), (3, ""))
                self.assert_said(answer.err, f"sheet.csv, row 3, {column}:", wanted)

    def test_a_comma_is_no_sign_between_thousands_where_no_three_digits_follow(self) -> None:
        answer = desk(["sheet", self.write("sheet.csv", HEADER + 'UAE7,A,"37,800","1,5",,\n')])
        self.assert_said(answer.err, "eta", "a clock time as 10:30")
        self.assertNotIn("write 15", answer.err)

    def test_all_at_once(self) -> None:
        sheet = HEADER + "uae7,H,10.30,0,x,y\n\nBAW12,B,10:30,1,,\nBAW12,B,10:31,1,,\nAFR22,B,10:31,1,,EZY81,BAW12\n"
        answer = desk(["sheet", self.write("sheet.csv", sheet)])
        for column in ("category", "eta", "weight", "windows", "after"):
            self.assert_said(answer.err, f"sheet.csv, row 2, {column}:", "wanted")
        self.assert_said(answer.err, 'row 5, callsign: "BAW12"', "row 4 has it too")
        self.assert_said(answer.err, 'row 6, field 7: "BAW12"', "the header names no such column")

    def test_headers(self) -> None:
        for content, wanted in [
            ("", "a header with the columns callsign"),
            ("UAE7,A,37800,5,37800-39600,\n", "a header with the columns callsign"),
            ("callsign,category,weight\nUAE7,A,1\n", "a column eta; it may be headed eta, estimate"),
            ("callsign,flight,category,eta\nUAE7,UAE7,A,1\n", "one column for callsign"),
            (HEADER, "a row below the header"),
        ]:
            answer = desk(["sheet", self.write("sheet.csv", content)])
            self.assertEqual(answer.status, 3)
            self.assert_said(answer.err, "sheet.csv", wanted)

    def test_too_many(self) -> None:
        rows = "".join(f"F{number:03},A,{number},1,,\n" for number in range(501))
        answer = desk(["sheet", self.write("sheet.csv", HEADER + rows)])
        self.assert_said(answer.err, "row 502", "at most 500 flights")

    def test_no_file(self) -> None:
        answer = desk(["sheet", "none.csv"])
        self.assertEqual((answer.status, answer.err), (3, "desk: none.csv: No such file or directory\n"))


class Doubtful(InFolder):
    """What is lawful and likely wrong. It is said, and the file is made."""

    def assert_warned(self, rows: str, *parts: str) -> None:
        answer = desk(["sheet", self.write("sheet.csv", HEADER + rows)])
        self.assertEqual(answer.status, 0, answer.err)
        self.assert_said(answer.err, "warning", *parts)

    def test_an_after_that_names_nobody(self) -> None:
        self.assert_warned(
            "EZY81,D,10:30,1,,\nDLH4A,D,10:31,1,,EZY18\n", "row 3, after", "EZY18 is no flight", "is EZY81 meant?"
        )

    def test_an_estimate_far_from_the_others(self) -> None:
        rows = (TEN / "flights.csv").read_text().replace("AFR22,B,38100", "AFR22,B,3810").partition("\n")[2]
        self.assert_warned(rows, "row 10, eta", "01:03:30 (3810)", f"warned above {doubts.MOST_GAP}")
        self.assert_warned(rows, "row 10, windows", f"warned above {doubts.LATEST_WINDOW}")

    def test_clock_times_without_a_colon(self) -> None:
        self.assert_warned("UAE7,A,1030,1,,\nBAW12,B,1031,1,,\n", "eta", "before 00:40:00", "has a colon, as 10:30")

    def test_windows_far_from_the_estimate(self) -> None:
        self.assert_warned(
            "AFR22,B,38100,1,48100-49900,\n", "row 2, windows", "166:40 minutes after the estimate", "warned above 60"
        )
        self.assert_warned(
            "BEL3,E,38400,1,38050-40150,\n", "row 2, windows", "5:50 minutes before the estimate", "warned above 5"
        )
        self.assert_warned(
            "BEL3,E,41000,1,40900-40950,\n", "row 2, windows", "the last ends 0:50 minutes before the estimate"
        )
        self.assert_warned(
            "BEL3,E,10:30,1,10:30-10:40;12:00-12:10,\n", "row 2, windows", "80:00 minutes apart", "warned above 60"
        )

    def test_flights_that_wait_for_each_other(self) -> None:
        self.assert_warned("A1,D,10:30,1,,B1\nB1,D,10:31,1,,A1\n", "row 2, after", "A1 has to land before itself")

    def test_more_than_may_wait(self) -> None:
        rows = "".join(f"F{number:03},A,{36000 + 60 * number},1,,\n" for number in range(61))
        self.assert_warned(rows, "61 flights; at most 60 may wait")

    def test_nothing_is_doubtful_in_a_good_bank(self) -> None:
        flights = files.read_flights(str(TEN / "flights.csv"))
        self.assertEqual(doubts.of_flights("flights.csv", flights), [])
        later = 4 * clock.HOUR
        moved = [
            replace(
                it,
                callsign=f"N{it.callsign}",
                eta=it.eta + later,
                windows=(Span(it.eta + later, it.eta + later + 60),),
                after=(),
            )
            for it in flights
        ]
        self.assertEqual(doubts.of_flights("flights.csv", flights + moved), [])


if __name__ == "__main__":
    unittest.main()
