"""A plan beside its files: read from a file or from the input, or asked of `first`, and what `audit` finds of it."""

import sys
import tempfile
from dataclasses import dataclass
from pathlib import Path

from tools.desk import files, program
from tools.desk.model import Aerodrome, Flight, Plan
from tools.desk.refusals import refused

INPUT = "-"
PLAN_HELP = "a plan's file, or - for the input; none: that of `cps first`"


@dataclass(frozen=True)
class Planned:
    """The files, the plan, None where it is `infeasible`, and the findings of `audit`."""

    aerodrome: Aerodrome
    flights: list[Flight]
    plan: Plan | None
    findings: list[str]


def planned(aerodrome: str, flights: str, plan: str | None) -> Planned:
    """The plan of a file, of the input for `-`, or that of `first` where none is named, beside its files."""
    with tempfile.TemporaryDirectory(prefix="desk") as folder:
        named = {"aerodrome": aerodrome, "flights": flights, "plan": _path(aerodrome, flights, plan, Path(folder))}
        return _audited(named, {**named, "plan": "the input"} if plan == INPUT else named)


def _path(aerodrome: str, flights: str, plan: str | None, folder: Path) -> str:
    """A file that holds the plan."""
    if plan not in (None, INPUT):
        return plan
    if plan == INPUT:
        path = folder / "the input"
        path.write_bytes(sys.stdin.buffer.read())
        return str(path)
    named = {"aerodrome": aerodrome, "flights": flights}
    answer = program.run(["first", *named.values()])
    if answer.refused:
        raise refused(answer, named)
    path = folder / "plan"
    path.write_text(answer.out, "ascii")
    return str(path)


def _audited(named: dict[str, str], shown: dict[str, str]) -> Planned:
    """The files and the plan, with the findings. A refusal has the names as they are shown."""
    answer = program.run(["audit", *named.values()])
    if answer.refused and not answer.err.startswith("cps: plan:"):
        raise refused(answer, shown)
    plan = files.read_plan(named["plan"], shown["plan"])
    if answer.refused:
        raise refused(answer, shown)
    findings = answer.out.splitlines() if answer.status == 7 else []
    return Planned(files.read_aerodrome(named["aerodrome"]), files.read_flights(named["flights"]), plan, findings)
