"""Files that are spoilt at random: the desk finds a fault exactly where the program refuses the file."""

import random
import unittest

from tools.desk import check
from tools.desk.tests.samples import EXAMPLES, InFolder, needs_program

SEED = 7
FILES = 60
STRAY = b'0123456789ABCDEF,;-\n "[]='
KINDS = {
    "aerodrome": EXAMPLES / "ten-flights/aerodrome.toml",
    "flights": EXAMPLES / "ten-flights/flights.csv",
    "events": EXAMPLES / "ten-flights/events.csv",
    "plan": EXAMPLES / "ten-flights/plan.txt",
}


def spoilt(draw: random.Random, content: bytes) -> bytes:
    """The content with one byte changed, which is often a lawful change, or with a few taken away."""
    at = draw.randrange(len(content))
    if draw.random() < 0.8:
        return content[:at] + bytes([draw.choice(STRAY[: 16 if draw.random() < 0.7 else None])]) + content[at + 1 :]
    return content[:at] + content[at + draw.randint(1, 4) :]


@needs_program
class Agreement(InFolder):
    """The desk and the program over the same files."""

    def test_spoilt_files(self) -> None:
        draw, refused = random.Random(SEED), 0
        for _ in range(FILES):
            kind = draw.choice(list(KINDS))
            content = spoilt(draw, KINDS[kind].read_bytes())
            it = check.read({kind: self.write("file", content)})[0]
            _, cause = check.verdict(it)
            self.assertEqual(bool(cause), bool(it.faults), f"{kind}: {cause}: {it.faults}: {content!r}")
            refused += bool(cause)
        self.assertTrue(0 < refused < FILES, refused)


if __name__ == "__main__":
    unittest.main()
