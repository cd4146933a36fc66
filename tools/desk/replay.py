"""`desk replay`: a log event by event, and the files of each moment, which the program judges."""

import argparse
import csv
import sys
from collections.abc import Sequence
from pathlib import Path

from tools.desk import files, judging, page, program
from tools.desk.event_words import counted
from tools.desk.faults import FINDINGS, GOOD, Refused
from tools.desk.moments import Moment, moments_of
from tools.desk.refusals import refused
from tools.desk.replay_words import csv_rows, line

DESCRIPTION = """Prints for each event of a log what happened: its number, record and row, the clock, whether it was
accepted or why not, what froze, and who moved since the plan before, by how many seconds and places among the flights
of both plans. FOLDER/NNNN gets the aerodrome, flight and plan files of the moment after event NNNN, the opening being
0000; a refused event changes nothing and gets none. `audit` judges each, and `plan` must give its value."""


def add_parser(subparsers: argparse._SubParsersAction) -> None:
    """The words of the command."""
    said = "a log event by event: who moved, and the files of each moment"
    words = subparsers.add_parser("replay", help=said, description=DESCRIPTION)
    words.add_argument("aerodrome", metavar="AERODROME")
    words.add_argument("flights", metavar="FLIGHTS")
    words.add_argument("events", metavar="EVENTS")
    words.add_argument("folder", metavar="FOLDER", type=Path, help="a new or empty folder")
    words.add_argument("--moments", type=numbers, help="write and judge these alone, as 0,5,8-12; refused events too")
    words.add_argument("--csv", action="store_true", help="also FOLDER/replay.csv: a row for each event and flight")
    words.add_argument("--html", action="store_true", help="also FOLDER/replay.html: a page with all pictures")
    words.add_argument("--force", action="store_true", help="replace the moments of an earlier replay in FOLDER")
    words.set_defaults(run=run)


def numbers(text: str) -> set[int]:
    """The numbers of a list as 0,5,8-12."""
    found: set[int] = set()
    for part in text.split(","):
        first, _, last = part.strip().partition("-")
        if not first.isdecimal() or not (last or first).isdecimal():
            raise argparse.ArgumentTypeError(f"{part!r} is no number and no span of numbers as 8-12")
        found.update(range(int(first), int(last or first) + 1))
    return found


def run(arguments: argparse.Namespace) -> int:
    """Runs the command."""
    _refuse_full(arguments.folder, arguments.force)
    moments = replayed(arguments.aerodrome, arguments.flights, arguments.events)
    chosen = _chosen(moments, arguments.moments)
    for moment in moments:
        print(line(moment))
    arguments.folder.mkdir(parents=True, exist_ok=True)
    judging.clear(arguments.folder)
    sys.stdout.flush()
    findings = judging.judged(arguments.folder, chosen)
    if arguments.csv:
        with arguments.folder.joinpath("replay.csv").open("w", encoding="ascii", newline="") as sink:
            csv.writer(sink, lineterminator="\n").writerows(csv_rows(moments))
    if arguments.html:
        text = page.html(Path(arguments.events).name, moments, _of_refused(moments, findings))
        arguments.folder.joinpath("replay.html").write_text(text, "utf-8")
    return _verdict(moments, findings)


def replayed(aerodrome: str, flights: str, events: str) -> list[Moment]:
    """The moments of a replay of these files. Refuses what the program refuses."""
    named = {"aerodrome": aerodrome, "flights": flights, "events": events}
    answer = program.run(["replay", *named.values()])
    if answer.refused:
        raise refused(answer, named)
    read = files.read_aerodrome(aerodrome), files.read_flights(flights), files.read_events(events)
    return list(moments_of(*read, files.steps_of(answer.out)))


def _refuse_full(folder: Path, force: bool) -> None:
    if folder.exists() and not folder.is_dir():
        raise Refused([f"{folder}: is no folder"])
    if folder.is_dir() and any(folder.iterdir()) and not force:
        raise Refused([f"{folder}: is not empty; name another folder, or replace an earlier replay there with --force"])


def _chosen(moments: Sequence[Moment], asked: set[int] | None) -> list[Moment]:
    """The moments whose files are written."""
    if asked is None:
        return [it for it in moments if it.accepted]
    if above := [it for it in asked if it >= len(moments)]:
        raise Refused([f"--moments: there is no event {min(above)}; the last is event {len(moments) - 1}"])
    return [it for it in moments if it.number in asked]


def _of_refused(moments: Sequence[Moment], findings: dict[int, list[str]]) -> dict[int, list[str]]:
    """The findings of all moments. After a refused event they are those of the moment before."""
    known = dict(findings)
    for moment in moments:
        if not moment.accepted and moment.number - 1 in known:
            known.setdefault(moment.number, known[moment.number - 1])
    return known


def _verdict(moments: Sequence[Moment], findings: dict[int, list[str]]) -> int:
    """Prints how the moments were judged, and gives the status."""
    wrong = {number: found for number, found in findings.items() if found}
    for number, found in wrong.items():
        print(f"event {number}: found in its files: {'; '.join(found)}")
    clean = len(findings) - len(wrong)
    right = "judged right: audit finds nothing, and plan gives the value of the replay"
    print(f"{counted(clean, 'moment')} of {len(findings)} {right}")
    return FINDINGS if wrong or moments[-1].plan is None else GOOD
