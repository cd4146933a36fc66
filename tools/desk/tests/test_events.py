"""`desk events`: logs as people write them, all faults at once, and events for flights that are not there."""

import unittest

from tools.desk.tests.samples import EXAMPLES, InFolder, desk

TEN = EXAMPLES / "ten-flights"
HEADER = "kind,callsign,category,eta,weight,windows,after\n"


class Taken(InFolder):
    """Logs that are made."""

    def test_the_log_of_the_ten_flights(self) -> None:
        answer = desk(["events", str(TEN / "log-sheet.csv"), str(TEN / "flights.csv")])
        self.assertEqual((answer.status, answer.out), (0, (TEN / "events.csv").read_text()))
        self.assertNotIn("warning", answer.err)

    def test_a_strict_log(self) -> None:
        log = (EXAMPLES / "day/events.csv").read_text()
        self.assertEqual(desk(["events", self.write("log.csv", log)]).out, log)

    def test_people_write_it(self) -> None:
        sheet = (
            "Type\tFlight\tEta\tWindow\tRemark\nCLOCK\t\t10:20\t\tnow\n close \t\t\t23:00 \u2013 +1 00:00\t\n"
            "\t\t\t\t\nCancel\tuae7\t\t\t\n"
        )
        answer = desk(["events", self.write("log.csv", sheet)])
        self.assertEqual(answer.out, HEADER + "clock,,,37200,,,\nclose,,,,,82800-86400,\ncancel,UAE7,,,,,\n")

    def test_empty_windows(self) -> None:
        answer = desk(["events", self.write("log.csv", "kind,callsign,eta\nestimate,UAE7,10:30\n"), "--window", "20"])
        self.assertEqual(answer.out, HEADER + "estimate,UAE7,,37800,,37800-39000,\n")
        self.assert_said(answer.err, "1 row without windows: the estimate to 20 minutes after it")


class Refused(InFolder):
    """Faults of a log."""

    def test_each_mistake(self) -> None:
        for row, column, wanted in [
            ("clock,37500,,,,,", "callsign", "nothing here; the kind clock has eta alone"),
            ("clock,37500,,,,,", "eta", "a clock time"),
            ("closure,,,,,10:30-10:40,", "kind", "write close"),
            ("closed,,,,,10:30-10:40,", "kind", "estimate, cancel, add, close, reopen, clock"),
            (",UAE7,,,,,", "kind", "one of the kinds"),
            (
                "estimate,UAE7,A,10:30,,,",
                "category",
                "nothing here; the kind estimate has callsign and eta and windows alone",
            ),
            ("cancel,,,,,,", "callsign", "2 to 8 capital letters"),
            ("close,,,,,10:40-10:30,", "windows", "the first second behind it; it ends before it begins"),
            ("reopen,,,,,,", "windows", "first and last as 10:30-11:00"),
            ("add,UAE7,,10:30,,,", "category", "one of the wake categories"),
        ]:
            answer = desk(["events", self.write("log.csv", HEADER + row + "\n")])
            with self.subTest(row=row):
                self.assertEqual((answer.status, answer.out), (3, ""))
                self.assert_said(answer.err, f"log.csv, row 2, {column}:", wanted)

    def test_all_at_once(self) -> None:
        answer = desk(["events", self.write("log.csv", HEADER + "clock,,,x,,,\n\nclosure,,,,,,\nadd,U,H,x,0,y,z\n")])
        for place in (
            "row 2, eta",
            "row 4, kind",
            "row 5, callsign",
            "row 5, category",
            "row 5, eta",
            "row 5, weight",
            "row 5, after",
        ):
            self.assert_said(answer.err, f"log.csv, {place}:")

    def test_too_many(self) -> None:
        answer = desk(["events", self.write("log.csv", HEADER + "clock,,,1,,,\n" * 2001)])
        self.assert_said(answer.err, "row 2002", "at most 2000 events")


class Doubtful(InFolder):
    """Events that are lawful and likely wrong."""

    def assert_warned(self, rows: str, *parts: str) -> None:
        answer = desk(["events", self.write("log.csv", HEADER + rows), str(TEN / "flights.csv")])
        self.assertEqual(answer.status, 0, answer.err)
        self.assert_said(answer.err, "warning", *parts)

    def test_flights_that_are_not_there(self) -> None:
        self.assert_warned(
            "cancel,EZY18,,,,,\n", "row 2, callsign", "EZY18 is not there at this event; is EZY81 meant?"
        )
        self.assert_warned("cancel,EZY81,,,,,\nestimate,EZY81,,10:40,,,\n", "row 3, callsign", "EZY81 is not there")
        self.assert_warned("add,EZY81,D,10:40,,,\n", "row 2, callsign", "EZY81 is there already")

    def test_an_added_flight_is_there(self) -> None:
        answer = desk(
            [
                "events",
                self.write("log.csv", HEADER + "add,TRA5K,D,10:36,,,\ncancel,TRA5K,,,,,\n"),
                str(TEN / "sheet.csv"),
            ]
        )
        self.assertNotIn("warning", answer.err)

    def test_estimates_and_windows(self) -> None:
        self.assert_warned(
            "estimate,BEL3,,10:40,,10:33-11:00,\n",
            "row 2, windows",
            "7:00 minutes before the estimate",
            "warned above 5",
        )
        self.assert_warned("estimate,BEL3,,1:34,,,\n", "row 2, eta", "the estimate moves by", "warned above 120")
        self.assert_warned(
            "add,TRA5K,D,10:36,,12:00-12:30,\n", "row 2, windows", "84:00 minutes after the estimate", "warned above 60"
        )


if __name__ == "__main__":
    unittest.main()
