"""`desk check`: what the program says of files, by their names, and then all of their faults with cures."""

import argparse
import re
from collections.abc import Mapping
from dataclasses import dataclass, field
from pathlib import Path

from tools.desk import doubts, files, plan_reader, program, refusals, toml_text
from tools.desk.aerodrome_reader import aerodrome_of
from tools.desk.faults import FAULTS, FINDINGS, GOOD, Doubt, Fault
from tools.desk.model import EVENT_COLUMNS, FLIGHT_COLUMNS, LETTERS, Aerodrome, Event, Flight, Frozen, Objective
from tools.desk.opening_faults import of_opening
from tools.desk.program import Answer
from tools.desk.records import events_of, flights_of
from tools.desk.sheets import in_rows
from tools.desk.strict_tables import strict_rows

# Files that stand for those that are not asked about. The second aerodrome is refused as an opening.
TABLE = {letter: (60,) * len(LETTERS) for letter in LETTERS}
AERODROME = files.aerodrome_text(Aerodrome(1, 0, 0, Objective.MAKESPAN, TABLE))
REFUSED = files.aerodrome_text(Aerodrome(2, 0, 1, Objective.MAKESPAN, TABLE, (), 0, (Frozen("F1", 0),)))
FLIGHTS = files.flights_text([])
INFEASIBLE = files.plan_text(None)


def add_parser(subparsers: argparse._SubParsersAction) -> None:
    """The words of the command."""
    words = subparsers.add_parser(
        "check",
        help="name every fault of the files",
        description="Says what cps says of the files, and then names every fault of each with its line and its cure.",
    )
    words.add_argument("aerodrome", metavar="AERODROME")
    words.add_argument("flights", metavar="FLIGHTS", nargs="?")
    words.add_argument("third", metavar="EVENTS or PLAN", nargs="?")
    words.set_defaults(run=run)


@dataclass
class Checked:
    """A file as the desk reads it."""

    kind: str
    name: str
    data: bytes
    faults: list[Fault] = field(default_factory=list)
    doubts: list[Doubt] = field(default_factory=list)
    content: str = ""
    aerodrome: Aerodrome | None = None
    flights: list[Flight] = field(default_factory=list)
    events: list[Event] = field(default_factory=list)


def run(arguments: argparse.Namespace) -> int:
    """Checks each file, and then the files together."""
    named = _named(arguments)
    checked = read(named)
    try:
        program.find()
    except program.NoProgram:
        # The reading part needs no program; what is missing is said by main.
        found = [_show_reading(it) for it in checked]
        if any(found):
            return FAULTS
        for it in checked:
            print(f"{it.name}: the desk finds no fault{it.content}")
        raise
    refused = [_show(it) for it in checked]
    return FAULTS if any(refused) else _together(named, checked)


def _named(arguments: argparse.Namespace) -> dict[str, str]:
    named = {"aerodrome": arguments.aerodrome}
    if arguments.flights is not None:
        named["flights"] = arguments.flights
    if arguments.third is not None:
        start = Path(arguments.third).read_bytes()[:100].decode("utf-8", "replace").lstrip("\ufeff\r\n ")
        is_plan = re.match(r"(infeasible|makespan|delay|land|event)\b(?!,)", start)
        named["plan" if is_plan else "events"] = arguments.third
    return named


def read(named: Mapping[str, str]) -> list[Checked]:
    """The files as the desk reads them."""
    checked = [Checked(kind, name, Path(name).read_bytes()) for kind, name in named.items()]
    flights: list[Flight] = []
    for it in checked:
        if it.kind == "aerodrome":
            it.aerodrome, it.faults = aerodrome_of(it.name, it.data)
        elif it.kind == "plan":
            plan, it.faults = plan_reader.plan_of(it.name, it.data)
            it.content = (
                ", infeasible" if plan is None else f", {plan.objective} {plan.value}, {len(plan.landings)} landings"
            )
        else:
            columns = FLIGHT_COLUMNS if it.kind == "flights" else EVENT_COLUMNS
            rows, it.faults = strict_rows(it.name, it.data, columns)
            if it.kind == "flights":
                it.flights = flights = flights_of(rows)
                it.doubts = doubts.of_flights(it.name, flights, [row.texts.get("callsign", "") for row in rows])
            else:
                it.events = events_of(rows)
                it.doubts = doubts.of_events(it.name, it.events, flights)
            it.content = f", {len(rows)} {it.kind}"
    return checked


def _show_reading(it: Checked) -> bool:
    """Prints what the desk finds in a file. Whether there is a fault."""
    for line in [*in_rows(it.faults), *it.doubts]:
        print(line)
    return bool(it.faults)


def _show(it: Checked) -> bool:
    """Prints what the program says of a file, and what the desk finds. Whether the program refuses it."""
    where, cause = verdict(it)
    if cause:
        print(f"{where}: cps says: {cause}")
        if not _show_reading(it):
            print(f"{it.name}: the desk finds no fault here, and cps is right")
        return True
    if (
        it.kind == "aerodrome"
        and it.aerodrome is None
        and all(fault.wanted.startswith(toml_text.SYNTAX) for fault in it.faults)
    ):
        print(f"{it.name}: good; cps takes it, and Python's tomllib cannot read it: it is likely TOML 1.1")
        print(f"{it.name}: the desk can look no further into it, and its other commands cannot use it")
        return False
    print(f"{it.name}: good{it.content}")
    if it.faults:
        print(f"{it.name}: cps takes it, and cps is right; what the desk finds here is its own mistake:")
    _show_reading(it)
    return False


def verdict(it: Checked) -> tuple[str, str]:
    """Where and for what cause the program refuses a file beside good ones. The cause is empty where it takes it."""
    match it.kind:
        case "aerodrome":
            answer = program.run_texts("audit", it.data, FLIGHTS, INFEASIBLE)
        case "flights":
            answer = program.run_texts("audit", AERODROME, it.data, INFEASIBLE)
        case "plan":
            answer = program.run_texts("audit", AERODROME, FLIGHTS, it.data)
        case _:
            answer = program.run_texts("replay", REFUSED, FLIGHTS, it.data)
    return _cause(answer, it)


def _cause(answer: Answer, it: Checked) -> tuple[str, str]:
    # What is said of the opening concerns the files that stand for others.
    if not answer.refused or answer.err.startswith(("cps: opening:", "cps: too many waiting")):
        return it.name, ""
    if answer.err.startswith("cps: file "):
        return it.name, answer.err.strip().rpartition(": ")[2]
    return refusals.said(answer, {it.kind: it.name})


def _together(named: dict[str, str], checked: list[Checked]) -> int:
    """Prints what the program says of the files together: of the opening, and of a plan."""
    if "flights" not in named:
        return GOOD
    by_kind = {it.kind: it for it in checked}
    plan = by_kind["plan"].data if "plan" in by_kind else INFEASIBLE
    answer = program.run_texts("audit", by_kind["aerodrome"].data, by_kind["flights"].data, plan)
    aerodrome = by_kind["aerodrome"].aerodrome
    if answer.refused:
        where, cause = refusals.said(answer, named)
        print(f"{where}: cps says: {cause}")
        faults = (
            of_opening((named["aerodrome"], named["flights"]), aerodrome, by_kind["flights"].flights)
            if aerodrome
            else []
        )
        print("\n".join(map(str, faults)) or "the desk finds no fault here, and cps is right")
        return FAULTS
    if "plan" not in named:
        return GOOD
    for finding in answer.out.splitlines():
        print(f"{named['plan']}: audit: {finding}")
    return GOOD if answer.status == 0 else FINDINGS
