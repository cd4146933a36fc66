"""How far a check is: a line each ten seconds."""
import time

SECONDS = 10


class Progress:
    def __init__(self):
        self.said = time.monotonic()

    def tell(self, line):
        if time.monotonic() - self.said >= SECONDS:
            self.said = time.monotonic()
            print(line, flush=True)
