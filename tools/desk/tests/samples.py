"""What several tests use: the examples, the desk run as a user runs it, and tests that need the built program."""

import atexit
import contextlib
import io
import os
import sys
import tempfile
import unittest
from collections.abc import Callable, Sequence
from pathlib import Path
from typing import TypeVar

from tools.desk import __main__, program

EXAMPLES = program.TOP / "examples"
SKIPPED = "desk: the tests that ask the program were left out, since it is not built"
Test = TypeVar("Test", bound=Callable)


def has_program() -> bool:
    """Whether the built program is there."""
    try:
        program.find()
    except program.NoProgram:
        return False
    return True


def needs_program(test: Test) -> Test:
    """Marks a test, or a class of tests, that asks the built program."""
    if not has_program():
        atexit.register(_say_skipped)  # once for all
    return unittest.skipUnless(has_program(), "the program is not built")(test)


def _say_skipped() -> None:
    """The last line of a run of the tests without a program."""
    atexit.unregister(_say_skipped)
    print(f"{SKIPPED}: ./build builds it, or CPS names one", file=sys.stderr)


def desk(words: Sequence[str]) -> program.Answer:
    """Runs the desk in this process: its status and what it printed."""
    out, err = io.StringIO(), io.StringIO()
    with contextlib.redirect_stdout(out), contextlib.redirect_stderr(err):
        try:
            status = __main__.main(words)
        except SystemExit as ended:
            status = ended.code if isinstance(ended.code, int) else 1
    return program.Answer(status, out.getvalue(), err.getvalue())


class InFolder(unittest.TestCase):
    """Tests that work in a folder of their own."""

    def setUp(self) -> None:
        folder = tempfile.TemporaryDirectory()
        self.addCleanup(folder.cleanup)
        self.addCleanup(os.chdir, os.getcwd())
        os.chdir(folder.name)

    def write(self, name: str, content: str | bytes) -> str:
        """Writes a file of the folder, and returns its name."""
        Path(name).write_bytes(content.encode() if isinstance(content, str) else content)
        return name

    def assert_said(self, lines: str, *wanted: str) -> None:
        """That one of the lines has all of these parts."""
        found = any(all(part in line for part in wanted) for line in lines.splitlines())
        self.assertTrue(found, f"no line has {wanted} in:\n{lines}")
