"""Banks of the study: their flights, their plans by the built program, and what is measured of a plan."""
import argparse
import os
import sys
from collections.abc import Iterator, Sequence
from dataclasses import replace

TOP = os.path.dirname(os.path.dirname(os.path.dirname(os.path.realpath(__file__))))
sys.path[:0] = [TOP, f"{TOP}/bench"]
sys.dont_write_bytecode = True
import traffic
from tools.desk import files, program, refusals
from tools.desk.faults import Refused
from tools.desk.model import MOST_WAITING, Aerodrome, Flight, Landing, Objective, Span, in_turn

SAMPLE = Aerodrome(2, 0, 0, Objective.MAKESPAN, {leader: tuple(row) for leader, row in traffic.TABLE.items()})
SETTINGS = [(Objective.MAKESPAN, shift) for shift in range(4)] + [(Objective.DELAY, shift) for shift in range(3)]
INFEASIBLE = "infeasible"


def read_aerodrome(name: str | None) -> Aerodrome:
    """The aerodrome of a file, or that of the examples. k and the objective are the study's."""
    if name is None:
        return SAMPLE
    aerodrome = files.read_aerodrome(name)
    if aerodrome.clock is not None or aerodrome.frozen or aerodrome.passed:
        raise Refused(
            [f"{name}: clock, frozen and passed belong to one bank; the study takes the table and the closures"]
        )
    return replace(aerodrome, version=2)


def flights_of(bank: str, count: int) -> list[Flight]:
    """The flights of a seed or of a file."""
    if not bank.isdigit():
        return files.read_flights(bank)
    drawn = traffic.traffic(int(bank), count)
    return [Flight(it.callsign, it.category, it.estimate, it.weight, (Span(*it.window),)) for it in drawn]


def measures(flights: Sequence[Flight], landings: Sequence[Landing]) -> list[int]:
    """The last landing; the delays' sum, weighted sum and greatest; how many flights are moved, by how many places."""
    ranked = {it.callsign: (rank, it) for rank, it in enumerate(in_turn(flights))}
    delays, weighted, moves = [0], 0, []
    for place, landing in enumerate(landings):
        rank, flight = ranked[landing.callsign]
        delays.append(flight.delay(landing.second))
        weighted += flight.weight * delays[-1]
        moves.append(abs(place - rank))
    last = landings[-1].second if landings else 0
    return [last, sum(delays), weighted, max(delays), sum(it > 0 for it in moves), sum(moves)]


def lines_of(bank: str, count: int, aerodrome: Aerodrome, name: str) -> Iterator[list[object]]:
    """The CSV rows of one bank."""
    flights = flights_of(bank, count)
    text = files.flights_text(flights)
    for objective, shift in SETTINGS:
        asked = replace(aerodrome, k=shift, objective=objective)
        answer = program.run_texts("first", files.aerodrome_text(asked), text)
        if answer.refused:
            # A seed is no file that the message could look into.
            raise refusals.refused(answer, {"aerodrome": name, "flights": f"bank {bank}" if bank.isdigit() else bank})
        plan = files.plan_of(answer.out)
        yield [bank, objective, shift, *([INFEASIBLE] * 6 if plan is None else measures(flights, plan.landings))]


def number_of_flights(word: str) -> int:
    """How many flights a seed's bank has."""
    if not (word.isascii() and word.isdigit() and 1 <= int(word) <= MOST_WAITING):
        raise argparse.ArgumentTypeError(f"{word}: 1 to {MOST_WAITING} flights are wanted, as so many may wait")
    return int(word)
