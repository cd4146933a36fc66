"""The command line of the desk: picks the command, and turns each expected trouble into lines and a status."""

import argparse
import os
import sys
from collections.abc import Sequence

from tools.desk import commands
from tools.desk.faults import GOOD, NO_PROGRAM, Refused
from tools.desk.program import NoProgram

INTERRUPTED = 130
BROKEN_PIPE = 141


def parser() -> argparse.ArgumentParser:
    """The words of all commands."""
    words = argparse.ArgumentParser(
        prog="desk",
        description="Sheets in, clock times out, why not, and a replay to look at. Nothing of the desk is proved.",
        epilog="docs/DESK.md has the first steps. Statuses: 0 good, 1 findings or no plan, 2 wrong words, "
        "3 faults in files, 9 no program.",
    )
    subparsers = words.add_subparsers(dest="command", metavar="COMMAND", required=True)
    for module in commands.modules():
        module.add_parser(subparsers)
    return words


def main(words: Sequence[str] | None = None) -> int:
    """Runs the command that the words name, and returns its status."""
    arguments = parser().parse_args(words)
    try:
        status = arguments.run(arguments)
        sys.stdout.flush()
        return status
    except Refused as refused:
        print(refused, file=sys.stderr)
        return refused.status
    except NoProgram as missing:
        print(f"desk: {missing}", file=sys.stderr)
        return NO_PROGRAM
    except BrokenPipeError:
        # The reader has gone. Python would complain once more when it flushes at its end.
        os.dup2(os.open(os.devnull, os.O_WRONLY), sys.stdout.fileno())
        return BROKEN_PIPE
    except OSError as trouble:
        print(f"desk: {trouble.filename or 'the output'}: {trouble.strerror}", file=sys.stderr)
        return Refused.status
    except KeyboardInterrupt:
        return INTERRUPTED


if __name__ == "__main__":
    sys.exit(main() or GOOD)
