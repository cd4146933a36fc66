"""Banks for benchmarks and studies: traffic made from a seed, as the command `trial` makes it, and files of it."""
import csv
import tomllib

TABLE = {
    "A": [90, 110, 120, 130, 140, 180],
    "B": [60, 90, 100, 110, 120, 160],
    "C": [60, 60, 60, 60, 100, 140],
    "D": [60, 60, 60, 60, 60, 120],
    "E": [60, 60, 60, 60, 60, 100],
    "F": [60, 60, 60, 60, 60, 60],
}
LETTERS = list(TABLE)
WINDOW = 7_200  # seconds
COLUMNS = ["callsign", "category", "eta", "weight", "windows", "after"]


class NoBank(Exception):
    """What two files lack to be a bank that is read here."""


class Flight:
    """A flight that waits, with one window; times in seconds."""

    def __init__(self, callsign, category, estimate, weight, window, after=()):
        self.callsign, self.category, self.estimate, self.weight = callsign, category, estimate, weight
        self.window, self.after = window, after

    def delay(self, second):
        return max(0, second - self.estimate)


def traffic(seed, count, spacing=60):
    """The flights of a seed, first come first: each estimate is the one before plus `spacing` plus a draw below 60."""
    state, estimate, flights = seed, 3_600, []

    def draw(below):
        nonlocal state
        state = (state * 6_364_136_223_846_793_005 + 1_442_695_040_888_963_407) % 2**64
        return (state >> 33) % below

    for number in range(1, count + 1):
        estimate += spacing + draw(60)
        category, weight = LETTERS[draw(len(LETTERS))], 1 + draw(5)
        flights.append(Flight(f"T{number:03}", category, estimate, weight, (estimate, estimate + WINDOW - 1)))
    return flights


def write(folder, flights, shift, objective, table=TABLE):
    """Writes the aerodrome file and the flight file of a bank, and gives their names."""
    aerodrome, bank = f"{folder}/aerodrome.toml", f"{folder}/flights.csv"
    with open(aerodrome, "w") as file:
        file.write(f'version = 2\nk = {shift}\nfreeze = 0\nobjective = "{objective}"\n\n[table]\n')
        file.writelines(f"{leader} = {row}\n" for leader, row in table.items())
    with open(bank, "w") as file:
        file.write(",".join(COLUMNS) + "\n")
        for it in flights:
            windows, after = "-".join(map(str, it.window)), ";".join(it.after)
            file.write(f"{it.callsign},{it.category},{it.estimate},{it.weight},{windows},{after}\n")
    return aerodrome, bank


def read_flights(name):
    """The flights of a flight file, first come first."""
    try:
        with open(name, newline="") as file:
            reader = csv.DictReader(file)
            rows = list(reader)
        if reader.fieldnames != COLUMNS:
            raise ValueError
        flights = []
        for row in rows:
            windows = [tuple(map(int, it.split("-"))) for it in row["windows"].split(";")]
            after = tuple(it for it in row["after"].split(";") if it)
            if len(windows) != 1:
                raise NoBank(f"{name}: {row['callsign']} has {len(windows)} windows, and one is modelled here")
            first, last = windows[0]
            flights.append(Flight(row["callsign"], row["category"], int(row["eta"]), int(row["weight"]), (first, last), after))
    except OSError as fault:
        raise NoBank(f"{name}: {fault.strerror}") from None
    except (AttributeError, KeyError, TypeError, ValueError, csv.Error):
        raise NoBank(f"{name}: no flight file") from None
    return sorted(flights, key=lambda it: (it.estimate, it.callsign))


def read_aerodrome(name):
    """The shift, the objective and the table of an aerodrome file without closures, clock or frozen flights."""
    try:
        with open(name, "rb") as file:
            field = tomllib.load(file)
        shift, objective, table = field["k"], field["objective"], field["table"]
    except OSError as fault:
        raise NoBank(f"{name}: {fault.strerror}") from None
    except (KeyError, ValueError):
        raise NoBank(f"{name}: no aerodrome file") from None
    for key in ("closures", "clock", "frozen", "passed"):
        if field.get(key):
            raise NoBank(f"{name}: {key} are not modelled here")
    return shift, objective, table


def read_plan(text):
    """The value and the landings, (callsign, second), of a printed plan, or None where there is none."""
    lines = text.split("\n")
    if lines[0] == "infeasible":
        return None
    landings = [line.split()[1:3] for line in lines[1:] if line]
    return int(lines[0].split()[1]), [(callsign, int(second)) for callsign, second in landings]
