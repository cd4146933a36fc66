"""A plan block, or all faults of a file that should be one."""

import re
from collections.abc import Iterator

from tools.desk import clock
from tools.desk.faults import Fault, Place
from tools.desk.model import MOST_ACTIVE, Landing, Objective, Plan

MOST_VALUE = 8_639_950_000
HEAD = re.compile(rf"({'|'.join(Objective)}) (0|[1-9][0-9]*)")
LANDING = re.compile(r"land ([A-Z0-9]{2,8}) (0|[1-9][0-9]*) (waiting|frozen)")
WANTED_HEAD = "infeasible, or makespan and a number, or delay and a number"
WANTED_LANDING = "land CALLSIGN SECOND waiting, or frozen in place of waiting"
MOST_SHOWN = 20  # further lines that are none are counted only


def plan_of(file: str, data: bytes) -> tuple[Plan | None, list[Fault]]:
    """The plan, None for `infeasible`, and all faults."""
    text = data.decode("utf-8", "surrogateescape")
    faults = list(_of_text(file, text))
    lines = text.removeprefix("\ufeff").replace("\r\n", "\n").split("\n")
    if lines[-1] == "":
        lines.pop()
    if not lines:
        return None, faults
    if re.match(r"event \d", lines[0]):
        cure = "this is a replay; `desk replay` writes the plan of each moment"
        return None, [*faults, Fault(Place(file, 1), lines[0], WANTED_HEAD, cure)]
    if lines == ["infeasible"]:
        return None, faults
    head = HEAD.fullmatch(lines[0])
    if head is None or int(head[2][:12]) > MOST_VALUE:
        faults.append(Fault(Place(file, 1), lines[0], WANTED_HEAD, "the first line is that of the plan"))
    landings = list(_landings(file, lines[1:], faults))
    if faults or head is None:
        return None, faults
    return Plan(Objective(head[1]), int(head[2]), tuple(landings)), []


def _of_text(file: str, text: str) -> Iterator[Fault]:
    """What is wrong with the text as a whole. It is said once, and not for each line."""
    if not text:
        yield Fault(Place(file, 1), None, WANTED_HEAD, "the file is empty")
        return
    if text.startswith("\ufeff"):
        yield Fault(Place(file, 1), None, "no mark of byte order", "save it as plain UTF-8 or ASCII")
    count = text.count("\r\n")
    if count:
        cure = f"{count} of the lines end with CR LF; save it with the line ends of Unix"
        yield Fault(Place(file, 1 + text[: text.index("\r\n")].count("\n")), None, "lines that end with LF alone", cure)
    if not text.endswith("\n"):
        yield Fault(Place(file, text.count("\n") + 1), None, "a line end behind the last line")


def _landings(file: str, lines: list[str], faults: list[Fault]) -> Iterator[Landing]:
    others = 0
    for number, line in enumerate(lines, 2):
        found = LANDING.fullmatch(line)
        if found is not None and int(found[2][:12]) <= clock.LAST_SECOND:
            yield Landing(found[1], int(found[2]), found[3] == "frozen")
            continue
        others += 1
        if others <= MOST_SHOWN:
            cure = (
                f"seconds go to {clock.LAST_SECOND}" if found else "an empty line is none" if not line.strip() else ""
            )
            faults.append(Fault(Place(file, number), line, WANTED_LANDING, cure))
    if others > MOST_SHOWN:
        faults.append(Fault(Place(file), f"{others - MOST_SHOWN} further lines", WANTED_LANDING))
    if len(lines) > MOST_ACTIVE:
        faults.append(Fault(Place(file, MOST_ACTIVE + 2), None, f"at most {MOST_ACTIVE} landing lines"))
