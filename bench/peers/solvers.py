"""The same problem for solvers from Debian's packages: a constraint model for Gecode, a mixed-integer form for CBC and GLPK."""
import os
import re
import shutil
import subprocess
import tempfile
import time

HERE = os.path.dirname(os.path.abspath(__file__))


class Answer:
    """What a solver said: `optimal`, `infeasible` or `stopped`; its best value and bound, where it has them; wall seconds."""

    def __init__(self, status, value=None, bound=None, seconds=0.0):
        self.status, self.value, self.bound, self.seconds = status, value, bound, seconds


def separation(table, leader, follower):
    return table[leader.category][sorted(table).index(follower.category)]


def precedences(flights):
    """The pairs of ranks, from 1, of which the first lands before the second."""
    rank_of = {it.callsign: rank for rank, it in enumerate(flights, 1)}
    return [(rank_of[name], rank_of[it.callsign]) for it in flights for name in it.after if name in rank_of]


def model_data(flights, shift, is_delay, table):
    """The bank as data of model.mzn."""
    pairs = precedences(flights)
    rows = {
        "estimate": [it.estimate for it in flights], "weight": [it.weight for it in flights],
        "first": [it.window[0] for it in flights], "last": [it.window[1] for it in flights],
        "leads": [leader for leader, _ in pairs], "follows": [follower for _, follower in pairs],
    }
    square = [separation(table, leader, follower) for leader in flights for follower in flights]
    lines = [f"flights = {len(flights)};", f"shift = {shift};", f"is_delay = {str(is_delay).lower()};"]
    lines += [f"{name} = {row};" for name, row in rows.items()]
    lines.append(f"separation = array2d(1..flights, 1..flights, {square});")
    return "\n".join(lines)


def integer_form(flights, shift, is_delay, table):
    """The bank in the LP format. x_r_p: rank r takes place p; y_r_q_p: r takes place p - 1 and q place p; T_p: its second;
    D_r: the delay of rank r. By the triangle inequality separation from the place before is enough."""
    count = len(flights)
    ranks = lambda place: range(max(1, place - shift), min(count, place + shift) + 1)  # those that may take the place
    flight = lambda rank: flights[rank - 1]
    rows, binary = [], []
    for place in range(1, count + 1):
        rows.append(" + ".join(f"x_{place}_{other}" for other in ranks(place)) + " = 1")
        rows.append(" + ".join(f"x_{rank}_{place}" for rank in ranks(place)) + " = 1")
        binary += [f"x_{rank}_{place}" for rank in ranks(place)]
        for end, sign in ((0, ">="), (1, "<=")):
            ends = "".join(f" - {flight(rank).window[end]} x_{rank}_{place}" for rank in ranks(place))
            rows.append(f"T_{place}{ends} {sign} 0")
    for place in range(2, count + 1):
        both = [(r, q) for r in ranks(place - 1) for q in ranks(place) if r != q]
        for rank in ranks(place - 1):
            rows.append(" + ".join(f"y_{r}_{q}_{place}" for r, q in both if r == rank) + f" - x_{rank}_{place - 1} = 0")
        for rank in ranks(place):
            rows.append(" + ".join(f"y_{r}_{q}_{place}" for r, q in both if q == rank) + f" - x_{rank}_{place} = 0")
        owed = "".join(f" - {separation(table, flight(r), flight(q))} y_{r}_{q}_{place}" for r, q in both)
        rows.append(f"T_{place} - T_{place - 1}{owed} >= 0")
    for leader, follower in precedences(flights):
        places = "".join(f" + {place} x_{follower}_{place}" for place in ranks(follower))
        rows.append(places + "".join(f" - {place} x_{leader}_{place}" for place in ranks(leader)) + " >= 1")
    if is_delay:
        for rank in range(1, count + 1):
            for place in ranks(rank):
                most = max(flight(it).window[1] for it in ranks(place)) - flight(rank).estimate
                rows.append(f"D_{rank} - T_{place} - {most} x_{rank}_{place} >= {-flight(rank).estimate - most}")
    goal = " + ".join(f"{it.weight} D_{rank}" for rank, it in enumerate(flights, 1)) if is_delay else f"T_{count}"
    # a reader of this format may take no longer lines
    wrapped = lambda text: re.sub(r"((?:\S+ ){30})", r"\1\n ", text)
    lines = ["Minimize", " goal: " + wrapped(goal), "Subject To"]
    lines += [f" c{number}: {wrapped(row)}" for number, row in enumerate(rows)]
    return "\n".join([*lines, "Binary", *(f" {name}" for name in binary), "End", ""])


def number(found):
    return None if found is None else round(float(found[1]))


def last_of(pattern, text):
    found = None
    for found in re.finditer(pattern, text):
        pass
    return found


class Gecode:
    package, command, version = "minizinc", "minizinc", ["minizinc", "--version"]

    def words(self, folder, limit, bank):
        file = f"{folder}/bank.dzn"
        with open(file, "w") as it:
            it.write(model_data(*bank))
        return ["minizinc", "--solver", "gecode", "--time-limit", str(limit * 1_000), "-a", f"{HERE}/model.mzn", file]

    def answer(self, said, _folder):
        value = number(last_of(r"value (\d+)", said))
        if "=====UNSATISFIABLE" in said:
            return Answer("infeasible")
        return Answer("optimal" if "==========" in said else "stopped", value)


class Cbc:
    package, command, version = "coinor-cbc", "cbc", ["cbc", "-stop"]

    def words(self, folder, limit, bank):
        file = f"{folder}/bank.lp"
        with open(file, "w") as it:
            it.write(integer_form(*bank))
        ends = ["ratioGap", "0", "allowableGap", "0", "sec", str(limit)]
        return ["cbc", file, *ends, "solve", "solu", f"{folder}/solution"]

    def answer(self, said, folder):
        try:
            with open(f"{folder}/solution") as it:
                head = it.readline()
        except OSError:
            head = ""
        if "nfeasible" in head and "Optimal" not in head:
            return Answer("infeasible")
        value = number(re.search(r"objective value\s+([-\d.e+]+)", head))
        value = value if value is not None and value < 1e30 and "no integer solution" not in head else None
        bound = number(last_of(r"Lower bound:\s+([-\d.e+]+)", said))
        return Answer("optimal" if head.startswith("Optimal") else "stopped", value, bound)


class Glpk:
    package, command, version = "glpk-utils", "glpsol", ["glpsol", "--version"]

    def words(self, folder, limit, bank):
        file = f"{folder}/bank.lp"
        with open(file, "w") as it:
            it.write(integer_form(*bank))
        return ["glpsol", "--lp", file, "--tmlim", str(limit), "-o", f"{folder}/solution"]

    def answer(self, said, folder):
        try:
            with open(f"{folder}/solution") as it:
                text = it.read()
        except OSError:
            text = ""
        if "INTEGER EMPTY" in text or "HAS NO PRIMAL FEASIBLE" in said:
            return Answer("infeasible")
        value = number(re.search(r"Objective:\s+\S+ = ([-\d.e+]+)", text))
        value = None if "INTEGER UNDEFINED" in text else value
        bound = number(last_of(r">=\s+([-\d.e+]+)", said))
        return Answer("optimal" if "INTEGER OPTIMAL" in text else "stopped", value, bound)


SOLVERS = {"gecode": Gecode(), "cbc": Cbc(), "glpk": Glpk()}


def missing(name):
    """What to install for a solver, or None where it is there."""
    solver = SOLVERS[name]
    return None if shutil.which(solver.command) else f"{name}: not there; install Debian's package {solver.package}"


def version(name):
    """What a solver says of its version."""
    ran = subprocess.run(SOLVERS[name].version, capture_output=True, text=True, stdin=subprocess.DEVNULL)
    found = re.search(r"[Vv]ersion:?\s+([\d.]+)|v(\d[\d.]+\d)|(\d+\.\d[\d.]*)", ran.stdout)
    return f"{name} {next(it for it in found.groups() if it)}" if found else name


def solve(name, limit, bank):
    """The answer of a solver to a bank: (flights first come first, shift, whether it is the delay, table)."""
    solver = SOLVERS[name]
    with tempfile.TemporaryDirectory() as folder:
        words = solver.words(folder, limit, bank)
        begun = time.perf_counter()
        try:
            ran = subprocess.run(words, capture_output=True, text=True, stdin=subprocess.DEVNULL, timeout=3 * limit + 30)
        except subprocess.TimeoutExpired:
            return Answer("stopped", seconds=time.perf_counter() - begun)
        seconds = time.perf_counter() - begun
        answer = solver.answer(ran.stdout + ran.stderr, folder)
    answer.seconds = seconds
    return answer
