#!/usr/bin/env python3
"""A small planner of its own, that shows its plan by a certificate: planner.py AERODROME FLIGHTS > CERTIFICATE

It reads the same two files as `cps`, finds a best landing order of up to twelve waiting flights by dynamic programming over the
sets of flights that may have landed, and writes a certificate, which `cps check` judges. It shares no code with `cps`.
"""
import csv
import sys
import tomllib

MOST = 12
COLUMNS = ["callsign", "category", "eta", "weight", "windows", "after"]


def read(aerodrome, flights):
    """The aerodrome's keys, and the flights in the order of the file."""
    with open(aerodrome, "rb") as file:
        field = tomllib.load(file)
    with open(flights, newline="") as file:
        rows = list(csv.DictReader(file))
    if rows and list(rows[0]) != COLUMNS:
        raise ValueError("the flight file has other columns")
    bank = []
    for row in rows:
        windows = [tuple(map(int, it.split("-"))) for it in row["windows"].split(";")]
        bank.append({
            "callsign": row["callsign"], "category": row["category"], "estimate": int(row["eta"]),
            "weight": int(row["weight"]), "windows": windows, "after": [it for it in row["after"].split(";") if it],
        })
    return field, bank


class Bank:
    """The waiting flights by rank, counted from 0, with all that a landing order needs to know of them."""

    def __init__(self, field, flights):
        self.shift, self.is_delay = field["k"], field["objective"] == "delay"
        letters = sorted(field["table"])
        self.table = {leader: dict(zip(letters, row)) for leader, row in field["table"].items()}
        self.closures = [(it["from"], it["to"]) for it in field.get("closures", [])]
        self.horizon = field["clock"] + field["freeze"] if "clock" in field else 0
        frozen = {it["callsign"]: it["second"] for it in field.get("frozen", [])}
        passed = {it["callsign"]: it["count"] for it in field.get("passed", [])}
        waiting = [it for it in flights if it["callsign"] not in frozen]
        self.flights = sorted(waiting, key=lambda it: (it["estimate"], it["callsign"]))
        self.count = len(self.flights)
        if self.count > MOST:
            raise ValueError(f"{self.count} flights wait, and this planner takes at most {MOST}")
        rank_of = {it["callsign"]: rank for rank, it in enumerate(self.flights)}
        self.before = [[rank_of[it] for it in flight["after"] if it in rank_of] for flight in self.flights]
        # the last place that each rank may take, counted from 0
        self.latest = [rank + self.shift - passed.get(it["callsign"], 0) for rank, it in enumerate(self.flights)]
        landed = [(frozen[it["callsign"]], it) for it in flights if it["callsign"] in frozen]
        self.last_frozen = max(landed, key=lambda it: it[0], default=None)
        self.frozen_cost = sum(self.cost(flight, second) for second, flight in landed)

    def cost(self, flight, second):
        """What a landing adds to the objective of the delay; nothing for the makespan."""
        return flight["weight"] * max(0, second - flight["estimate"]) if self.is_delay else 0

    def separation(self, leader, follower):
        return self.table[leader["category"]][follower["category"]]

    def first_open(self, flight, second):
        """The first second at or after this one at which the flight may land, or None."""
        for first, last in flight["windows"]:
            at, is_moved = max(first, second), True
            while is_moved:
                is_moved = False
                for start, end in self.closures:
                    if start <= at < end:
                        at, is_moved = end, True
            if at <= last:
                return at
        return None

    def may_land(self, rank, place, placed):
        """Whether the rank may take this place, counted from 0, behind the placed ranks."""
        if rank in placed or not rank - self.shift <= place <= self.latest[rank]:
            return False
        if any(it not in placed for it in self.before[rank]):
            return False
        # who is k above its place has to land now
        return place < self.shift or rank == place - self.shift or place - self.shift in placed

    def land(self, rank, last, second, cost):
        """The second and the cost after this rank lands behind the last one, or None."""
        flight, earliest = self.flights[rank], self.horizon
        if last is not None:
            earliest = max(earliest, second + self.separation(self.flights[last], flight))
        elif self.last_frozen:
            earliest = max(earliest, self.last_frozen[0] + self.separation(self.last_frozen[1], flight))
        at = self.first_open(flight, earliest)
        return None if at is None else (at, cost + self.cost(flight, at))


def undominated(pairs):
    """Of (second, cost, way), those that no other is as early and as cheap as, by rising second."""
    kept = []
    for pair in sorted(pairs, key=lambda it: it[:2]):
        if not kept or pair[1] < kept[-1][1]:
            kept.append(pair)
    return kept


def plan(bank):
    """For each place the states (placed ranks, last rank) with their undominated pairs, each with the way that leads there."""
    stages = [{(frozenset(), None): [(0, 0, ())]}]
    for place in range(bank.count):
        reached = {}
        for (placed, last), pairs in stages[-1].items():
            for rank in range(bank.count):
                if not bank.may_land(rank, place, placed):
                    continue
                for second, cost, way in pairs:
                    landed = bank.land(rank, last, second, cost)
                    if landed:
                        state = (placed | {rank}, rank)
                        reached.setdefault(state, []).append((*landed, (*way, (rank, landed[0]))))
        stages.append({state: undominated(pairs) for state, pairs in reached.items()})
    return stages


def pattern(bank, stage, placed):
    """Which of the 2k ranks around this stage are placed, in digits; those before the first flight count as placed."""
    around = range(stage - bank.shift, stage + bank.shift)
    return "".join("1" if rank < 0 or rank in placed else "0" for rank in around) or "-"


def objective(bank, pair):
    """The value of an order of all flights that ends with this pair."""
    frozen_last = bank.last_frozen[0] if bank.last_frozen else 0
    return bank.frozen_cost + pair[1] if bank.is_delay else max(pair[0], frozen_last)


def certificate(bank):
    """The lines of the certificate of a best plan, or that there is none."""
    stages = plan(bank)
    ends = [pair for pairs in stages[-1].values() for pair in pairs]
    lines = ["certificate 1"]
    if ends:
        best = min(ends, key=lambda pair: objective(bank, pair))
        lines.append(f"claim optimal {objective(bank, best)}")
        lines += [f"land {bank.flights[rank]['callsign']} {second}" for rank, second in best[2]]
    else:
        lines.append("claim infeasible")
    for stage, states in enumerate(stages[1:], 1):
        rows = [(pattern(bank, stage, placed), last + 1, pairs) for (placed, last), pairs in states.items()]
        for digits, last, pairs in sorted(rows):
            shown = " ".join(f"{second}:{cost}" for second, cost, _ in pairs)
            lines.append(f"state {stage} {digits} {last} {shown}")
    return lines


def main(words):
    if len(words) != 2:
        sys.exit("planner: its words are AERODROME FLIGHTS")
    try:
        bank = Bank(*read(*words))
    except OSError as fault:
        sys.exit(f"planner: {fault.filename}: {fault.strerror}")
    except (KeyError, TypeError, ValueError) as fault:
        sys.exit(f"planner: no bank that it takes: {fault}")
    print("\n".join(certificate(bank)))


if __name__ == "__main__":
    main(sys.argv[1:])
