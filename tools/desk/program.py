"""The built program: where it is, whether it may be trusted to be this tree's, and what it answers."""

import functools
import os
import subprocess
import tempfile
from collections.abc import Iterator, Sequence
from dataclasses import dataclass
from pathlib import Path

TOP = Path(__file__).resolve().parents[2]
BUILT = TOP / "crates/cps_main/out/cps_main"


class NoProgram(Exception):
    """The program is not there or is older than its sources."""


@dataclass(frozen=True)
class Answer:
    """What the program printed, and its status."""

    status: int
    out: str
    err: str

    @property
    def refused(self) -> bool:
        """Whether it printed no answer of its command: wrong words, files that it refuses, no memory."""
        return self.status not in (0, 1, 7)


@functools.cache
def find() -> str:
    """The program's path. One that CPS names is taken as it is; that of the tree must not be older than its sources."""
    named = os.environ.get("CPS")
    if named:
        if not os.access(named, os.X_OK):
            raise NoProgram(f"the program {named}, which CPS names, cannot be run")
        return named
    if not os.access(BUILT, os.X_OK):
        raise NoProgram("the program is not built; run ./build first")
    built = BUILT.stat().st_mtime_ns
    if any(os.stat(path).st_mtime_ns > built for path in _sources()):
        raise NoProgram("the program is older than its sources; run ./build first")
    return str(BUILT)


def _sources() -> Iterator[str]:
    """All files and folders whose change makes the program old."""
    yield str(TOP / "crates.txt")
    for crate in sorted((TOP / "crates").iterdir()):
        for part in ("src", "specs"):
            for folder, _, names in os.walk(crate / part):
                yield folder
                yield from (os.path.join(folder, name) for name in names)


def run(words: Sequence[str | os.PathLike[str]]) -> Answer:
    """Runs the program with these words."""
    asked = [find(), *map(os.fspath, words)]
    try:
        ran = subprocess.run(asked, capture_output=True, stdin=subprocess.DEVNULL, check=False)
    except OSError as trouble:
        raise NoProgram(f"the program {asked[0]} cannot be run: {trouble.strerror}") from None
    return Answer(ran.returncode, ran.stdout.decode("utf-8", "surrogateescape"), ran.stderr.decode("utf-8", "replace"))


def run_texts(command: str, *texts: str | bytes) -> Answer:
    """Runs a command over texts, each in a file of its own, in the order in which the command names its files."""
    with tempfile.TemporaryDirectory(prefix="desk") as folder:
        words = [command]
        for number, text in enumerate(texts):
            path = Path(folder, str(number))
            path.write_bytes(text.encode("utf-8", "surrogateescape") if isinstance(text, str) else text)
            words.append(str(path))
        return run(words)
