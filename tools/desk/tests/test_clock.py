"""Clock times."""

import unittest

from tools.desk import clock


class Times(unittest.TestCase):
    """Clock times to seconds and back."""

    def test_read(self) -> None:
        for text, second in [
            ("10:30", 37800),
            ("10:30:20", 37820),
            (" 7:05 ", 25500),
            ("37840", 37840),
            ("0", 0),
            ("+1 00:10:00", 87000),
            ("+1 00:10", 87000),
            ("00:10 +1", 87000),
            ("+0 00:10", 600),
        ]:
            self.assertEqual(clock.read(text), second, text)

    def test_what_is_no_time(self) -> None:
        for text in [
            "",
            "10.30",
            "10:3",
            "24:00",
            "10:60",
            "10:30:60",
            "-10:30",
            "10:30 AM",
            "+1 10:30 +1",
            "\u0661\u0660:30",
        ]:
            self.assertIsNone(clock.read(text), text)

    def test_shown(self) -> None:
        for second in (0, 37820, 86399, 86400, 172799):
            self.assertEqual(clock.read(clock.shown(second)), second)
        self.assertEqual(clock.shown(37820), "10:30:20")
        self.assertEqual(clock.shown(87000), "+1 00:10:00")

    def test_duration(self) -> None:
        self.assertEqual([clock.duration(it) for it in (0, 65, -65)], ["0:00", "1:05", "-1:05"])


if __name__ == "__main__":
    unittest.main()
