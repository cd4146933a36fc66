"""`desk why`: what single relaxation makes an infeasible bank feasible, and which flights cannot land together."""

import argparse
import sys
import textwrap
from collections import Counter

from tools.desk import files, program
from tools.desk.beside import each
from tools.desk.changes import Situation
from tools.desk.columns import aligned
from tools.desk.event_words import counted
from tools.desk.faults import FINDINGS, GOOD, Refused
from tools.desk.model import MOST_SHIFT, Plan
from tools.desk.refusals import refused
from tools.desk.relaxations import Relaxation, conflict, relaxations, relaxed_plan
from tools.desk.replay import replayed
from tools.desk.replay_words import line, value_words

MOST_WIDE = 100  # a list of callsigns goes on in the next line
DESCRIPTION = """Where no plan is feasible, relaxes one thing after another and plans again: k, each closure, each
flight's windows (two hours from its estimate on), each precedence, each flight left out. Prints which of these make the
bank feasible, the objective then, and the smallest group of flights from the front of the first-come order that cannot
be landed. What concerns only flights that have no part in the conflict cannot help, and is not tried. With a log and an
event's number it does so for the moment after that event, or says why the event was refused."""


def add_parser(subparsers: argparse._SubParsersAction) -> None:
    """The words of the command."""
    words = subparsers.add_parser("why", help="what makes an infeasible bank feasible", description=DESCRIPTION)
    words.add_argument("aerodrome", metavar="AERODROME")
    words.add_argument("flights", metavar="FLIGHTS")
    words.add_argument("events", metavar="EVENTS", nargs="?")
    words.add_argument("number", metavar="NUMBER", nargs="?", type=int, help="an event's number, 0 for the opening")
    shifts = range(MOST_SHIFT + 1)
    words.add_argument("--most-k", type=int, choices=shifts, default=MOST_SHIFT, help="try k up to this alone")
    words.set_defaults(run=run)


def run(arguments: argparse.Namespace) -> int:
    """Runs the command."""
    if arguments.events is None:
        now, plan = _opening(arguments.aerodrome, arguments.flights)
    else:
        if arguments.number is None:
            raise Refused(["with a log stands the number of an event, 0 for the opening"])
        moments = replayed(arguments.aerodrome, arguments.flights, arguments.events)
        if not 0 <= arguments.number < len(moments):
            last = len(moments) - 1
            raise Refused([f"{arguments.events}: there is no event {arguments.number}; the last is event {last}"])
        moment = moments[arguments.number]
        print(line(moment))
        if not moment.accepted:
            return FINDINGS
        now, plan = Situation(moment.aerodrome, moment.flights), moment.plan
    if plan:
        print(f"feasible: {value_words(plan)}")
        return GOOD
    _explain(now, arguments.most_k)
    return FINDINGS


def _opening(aerodrome: str, flights: str) -> tuple[Situation, Plan | None]:
    named = {"aerodrome": aerodrome, "flights": flights}
    answer = program.run(["plan", *named.values()])
    if answer.refused:
        raise refused(answer, named)
    return Situation(files.read_aerodrome(aerodrome), tuple(files.read_flights(flights))), files.plan_of(answer.out)


def _explain(now: Situation, most_shift: int) -> None:
    """Prints why a situation is infeasible."""
    waiting, frozen = now.waiting(), len(now.aerodrome.frozen)
    behind = f" behind {frozen} frozen" if frozen else ""
    print(f"infeasible: {counted(len(waiting), 'waiting flight')}{behind}, k = {now.aerodrome.k}")
    found = conflict(now)
    count = len(found.front)
    print(f"from the front of the first-come order {counted(count, 'flight')} cannot be landed, {count - 1} can:")
    print(_listed(found.front))
    if found.core != found.front:
        print(f"of these the last {counted(len(found.core), 'flight')} alone cannot be landed either:")
        print(_listed(found.core))
    sys.stdout.flush()
    core = set(found.core)
    tried = relaxations(now, core, most_shift)
    plans = list(each(lambda it: relaxed_plan(it, core), tried, "relaxations tried"))
    helpful = [(it, plan) for it, plan in zip(tried, plans) if plan]
    print("\n".join(_helpful(helpful)))
    print(_tried(tried, {it for it, plan in helpful}))


def _listed(callsigns: list[str]) -> str:
    return textwrap.fill(" ".join(callsigns), MOST_WIDE, initial_indent="  ", subsequent_indent="  ")


def _helpful(helpful: list[tuple[Relaxation, Plan]]) -> list[str]:
    if not helpful:
        return ["no single relaxation makes all flights feasible"]
    rows = ((it.said, value_words(plan)) for it, plan in helpful)
    return aligned(["each of these alone makes all feasible", "the objective then"], rows, left=2)


def _tried(tried: list[Relaxation], helpful: set[Relaxation]) -> str:
    """What was tried without avail."""
    counts = Counter(it.kind for it in tried if it not in helpful)
    of_shift = [it.said for it in tried if it.kind == "k" and it not in helpful]
    parts = of_shift + [f"{kind} ({count})" for kind, count in counts.items() if kind != "k"]
    return f"tried and infeasible still: {', '.join(parts) or 'nothing'}"
