"""Work done side by side, with a line of how far it is on a terminal."""

import os
import sys
from collections.abc import Callable, Iterator, Sequence
from concurrent.futures import ThreadPoolExecutor
from typing import TypeVar

Item = TypeVar("Item")
Result = TypeVar("Result")


def each(work: Callable[[Item], Result], items: Sequence[Item], what: str) -> Iterator[Result]:
    """What the work makes of each item, in their order. Threads do, since the work is to wait for the program."""
    shown = sys.stderr.isatty()
    with ThreadPoolExecutor(os.cpu_count() or 1) as pool:
        for done, result in enumerate(pool.map(work, items), 1):
            if shown:
                print(f"\r{done} of {len(items)} {what}", end="", file=sys.stderr, flush=True)
            yield result
    if shown and items:
        print(file=sys.stderr)
