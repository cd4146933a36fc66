"""The files of the moments of a replay, and the program's judgement of each."""

from collections.abc import Sequence
from pathlib import Path

from tools.desk import files, program
from tools.desk.beside import each
from tools.desk.moments import Moment

# The words of a moment's files, in the order in which the program names them.
NAMES = ("aerodrome.toml", "flights.csv", "plan.txt")
# What stands beside the moments.
PAGES = ("replay.csv", "replay.html")


def folder_of(folder: Path, number: int) -> Path:
    """Where the files of a moment stand."""
    return folder / f"{number:04}"


def clear(folder: Path) -> None:
    """Takes away the moments of an earlier replay: their files, and folders where nothing else stands."""
    for place in folder.glob("[0-9][0-9][0-9][0-9]"):
        if place.is_dir():
            for name in NAMES:
                place.joinpath(name).unlink(missing_ok=True)
            if not any(place.iterdir()):
                place.rmdir()
    for name in PAGES:
        folder.joinpath(name).unlink(missing_ok=True)


def write(folder: Path, moment: Moment) -> None:
    """Writes the files of a moment."""
    place = folder_of(folder, moment.number)
    place.mkdir(parents=True, exist_ok=True)
    texts = (files.aerodrome_text(moment.aerodrome), files.flights_text(moment.flights), files.plan_text(moment.plan))
    for name, text in zip(NAMES, texts):
        place.joinpath(name).write_text(text, "ascii")


def judged(folder: Path, moments: Sequence[Moment]) -> dict[int, list[str]]:
    """Writes the files of these moments. What is found in those of each, side by side: nothing where all is right."""
    found = each(lambda moment: _written(folder, moment), moments, "moments judged")
    return {moment.number: findings for moment, findings in zip(moments, found)}


def _written(folder: Path, moment: Moment) -> list[str]:
    """Writes the files of a moment, while the program judges others, and gives what is found in them."""
    write(folder, moment)
    return audited(folder, moment) + planned(folder, moment)


def audited(folder: Path, moment: Moment) -> list[str]:
    """What `audit` finds in a moment's plan."""
    answer = program.run(["audit", *_paths(folder, moment)])
    if answer.refused:
        return [answer.err.strip()]
    return [] if answer.out == ("infeasible claimed\n" if moment.plan is None else "ok\n") else answer.out.splitlines()


def planned(folder: Path, moment: Moment) -> list[str]:
    """A line where `plan` of a moment's files does not give the value that the replay printed."""
    answer = program.run(["plan", *_paths(folder, moment)[:2]])
    value = answer.out.partition("\n")[0] or answer.err.strip()
    shown = files.plan_text(moment.plan).partition("\n")[0]
    return [] if value == shown else [f"plan gives {value}, and the replay {shown}"]


def _paths(folder: Path, moment: Moment) -> list[Path]:
    return [folder_of(folder, moment.number) / name for name in NAMES]
