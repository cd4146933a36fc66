"""What the rows of a study say: means over the banks, differences within each bank, and the picture of these."""
import math
import shutil
import subprocess
import sys
from collections import defaultdict
from collections.abc import Iterator, Sequence
from dataclasses import dataclass

COLUMNS = ["bank", "objective", "k", "makespan", "total_delay", "weighted_delay", "greatest_delay", "moved", "places"]
MEASURES = {
    "makespan": "last landing, s",
    "total_delay": "delay of all flights, s",
    "weighted_delay": "weighted delay, s",
    "greatest_delay": "greatest delay of a flight, s",
    "moved": "flights moved",
    "places": "places moved, all flights",
}
DRAWN = ["makespan", "weighted_delay", "greatest_delay"]
INFEASIBLE = "infeasible"
WITHIN = (
    "Within each bank, by how much it is more than in first-come order: the mean, its standard error, the percentiles."
)
Row = dict[str, str]
Setting = tuple[str, str]


@dataclass(frozen=True)
class Spread:
    """The mean of some values, its standard error where there are two or more, and their 5th and 95th percentile."""

    mean: float
    error: float | None
    low: int
    high: int


def spread(values: Sequence[int]) -> Spread:
    """The spread of values, of which there is one at least."""
    count, mean = len(values), sum(values) / len(values)
    squares = sum((it - mean) ** 2 for it in values)
    error = math.sqrt(squares / (count - 1) / count) if count > 1 else None
    return Spread(mean, error, percentile(values, 5), percentile(values, 95))


def percentile(values: Sequence[int], share: int) -> int:
    """The least value that this share of them, in a hundred, does not exceed."""
    return sorted(values)[max(0, -(-share * len(values) // 100) - 1)]


class Summary:
    """The rows of a study, compared over the banks that have a plan in first-come order."""

    def __init__(self, rows: Sequence[Row]) -> None:
        self.by_setting: dict[Setting, dict[str, Row]] = defaultdict(dict)
        for row in rows:
            self.by_setting[row["objective"], row["k"]][row["bank"]] = row

    def infeasible(self, setting: Setting) -> int:
        """How many banks have no plan."""
        return sum(row["makespan"] == INFEASIBLE for row in self.by_setting[setting].values())

    def values(self, setting: Setting, measure: str, is_within: bool) -> list[int]:
        """For each bank that is compared its value, or by how much that is more than its own in first-come order."""
        found = []
        for bank, first in self.by_setting[setting[0], "0"].items():
            row = self.by_setting[setting].get(bank)
            if row is not None and INFEASIBLE not in (first[measure], row[measure]):
                found.append(int(row[measure]) - (int(first[measure]) if is_within else 0))
        return found

    def spreads(self, is_within: bool) -> Iterator[tuple[Setting, dict[str, Spread]]]:
        """For each objective and k the spread of each measure."""
        for setting in self.by_setting:
            found = {measure: self.values(setting, measure, is_within) for measure in MEASURES}
            yield setting, {measure: spread(values) for measure, values in found.items() if values}

    def text(self) -> str:
        """Both tables, and how many banks are compared."""
        said = [self._counted(), "", *self._table(False), "", WITHIN, "", *self._table(True)]
        return "\n".join(said) + "\n"

    def _counted(self) -> str:
        banks = len({bank for rows in self.by_setting.values() for bank in rows})
        left_out = self.infeasible(next(iter(self.by_setting), ("", "0")))
        said = f"Means over {banks - left_out} of {banks} banks, in brackets the 5th and 95th percentile."
        return f"{said} {left_out} without a plan in first-come order are left out." if left_out else said

    def _table(self, is_within: bool) -> Iterator[str]:
        counted = [] if is_within else ["infeasible"]
        yield f"| {' | '.join(['objective', 'k', *counted, *MEASURES.values()])} |"
        yield "|" + "---|" * (2 + len(counted) + len(MEASURES))
        for setting, found in self.spreads(is_within):
            if is_within and setting[1] == "0":
                continue
            count = [] if is_within else [str(self.infeasible(setting))]
            cells = [_cell(found[it], is_within) if it in found else "-" for it in MEASURES]
            yield f"| {' | '.join([*setting, *count, *cells])} |"


def _cell(it: Spread, is_within: bool) -> str:
    """A spread in the table. The sign of a difference is always shown."""
    if not is_within:
        return f"{it.mean:.1f} ({it.low} to {it.high})"
    error = "" if it.error is None else f" ± {it.error:.1f}"
    return f"{it.mean:+.1f}{error} ({it.low} to {it.high})"


def draw(summary: Summary, name: str) -> None:
    """Draws the differences within each bank over k, a part for each of three measures. Says why where it cannot."""
    if not shutil.which("gnuplot"):
        print("study: no picture: gnuplot is not there (Debian's package gnuplot-nox)", file=sys.stderr)
        return
    spreads = dict(summary.spreads(True))
    if not any(spreads.values()):
        print("study: no picture: no bank has a plan in first-come order", file=sys.stderr)
        return
    ran = subprocess.run(
        ["gnuplot"], input="\n".join(_script(spreads, name)) + "\n", capture_output=True, text=True, check=False
    )
    if ran.returncode:
        print(
            f"study: no picture: gnuplot ended with status {ran.returncode}: {ran.stderr.strip()[-200:]}",
            file=sys.stderr,
        )


def _script(spreads: dict[Setting, dict[str, Spread]], name: str) -> Iterator[str]:
    quoted = name.replace("'", "''")
    yield f"set terminal svg size 1200,420 background 'white'; set output '{quoted}'"
    yield f"set multiplot layout 1,{len(DRAWN)}"
    yield "set xlabel 'k'; set xtics 1; set xrange [-0.3:3.3]; set key below; set offsets 0, 0, graph 0.05, graph 0.05"
    yield "set xzeroaxis linetype 0"
    for measure in DRAWN:
        yield f'set title "{MEASURES[measure]}\\nmore than in first-come order, within each bank"'
        for objective in ("makespan", "delay"):
            yield f"${objective} << END"
            for (by, shift), found in spreads.items():
                if by == objective and measure in found:
                    yield f"{shift} {found[measure].mean} {found[measure].low} {found[measure].high}"
            yield "END"
        yield (
            "plot $makespan using ($1-0.05):2:3:4 with yerrorlines title 'for the makespan', "
            "$delay using ($1+0.05):2:3:4 with yerrorlines title 'for the delay'"
        )
