#!/usr/bin/env python3
"""The page of a replay in headless Chromium: checks/page/run.py [FOLDER] [--screenshot FILE]

Makes the page of the day in a folder (examples/ten-flights) by `desk replay --html`, opens it, and looks: nothing on the
console, no request but the page's own, the keys step and a click picks, and in each moment the rows are the landings
that `cps replay` prints, and those of the flights that moved are marked. Wants Debian's chromium and chromium-driver,
and the built program.
"""
import argparse
import subprocess
import sys
import tempfile
from pathlib import Path

sys.dont_write_bytecode = True
HERE = Path(__file__).resolve().parent
TOP = HERE.parents[1]
sys.path[:0] = [str(TOP), str(HERE)]
from browser import Browser
from tools.desk import clock, files, program

NUMBER = 'return Number(document.querySelector("[aria-current]").hash.slice(1))'
ROWS = '''return [...document.querySelectorAll("g.row")].map((row) => {
  const lands = row.querySelector("tspan[x='210']");
  return [row.dataset.callsign, lands ? lands.textContent : null, row.querySelector("path.p") !== null];
})'''

wrong = []


def want(what, found, wanted):
    """Notes where something is not as wanted."""
    if found != wanted:
        wrong.append(what)
        print(f'page: {what}: {found!r}, wanted {wanted!r}')


def steps_by_keys(browser, last):
    """The keys, and a click."""
    down, up = [('ArrowDown', 1), ('j', 2)], [('ArrowUp k', 0), ('k', 0)]
    for keys, number in [*down, *up, ('End', last), ('j', last), ('Home', 0)]:
        browser.press(*keys.split())
        want(f'the keys {keys}', browser.run(NUMBER), number)
    browser.click(f'#events li:nth-child({last}) a')
    want('the click', browser.run(NUMBER), last - 1)
    browser.wait_for(f'return location.hash === "#{last - 1}"')
    browser.run('location.hash = "#1"')
    browser.wait_for('return document.querySelector("[aria-current]").hash === "#1"')
    browser.press('Home')


def moved_by_keys(browser, numbers):
    """The key that goes on to where a flight moved."""
    browser.press('Home')
    for number in numbers:
        browser.press('n')
        want('the key n', browser.run(NUMBER), number)
    browser.press('Home')


def moved_between(before, after):
    """The flights that land at another second, or in another order among those of both plans."""
    old, new = ({it.callsign: it.second for it in plan.landings} for plan in (before, after))
    places = {it: place for place, it in enumerate(it for it in old if it in new)}
    both = [it for it in new if it in old]
    return {it for place, it in enumerate(both) if new[it] != old[it] or place != places[it]}


def rows_of_moments(browser, steps):
    """Steps through all moments and compares the rows. Gives the numbers of the moments in which a flight moved."""
    browser.click('#all')
    browser.press('Home')
    shown, moved = None, []
    for step in steps:
        marked = set()
        if step.refusal is None and step.plan and shown:
            marked = moved_between(shown, step.plan)
        if marked:
            moved.append(step.number)
        rows = browser.run(ROWS)
        want(f'the marks of moment {step.number}', {it[0] for it in rows if it[2]}, marked)
        if step.refusal is None and step.plan:
            shown = step.plan
            lands = [[it.callsign, clock.shown(it.second)] for it in step.plan.landings]
            want(f'the rows of moment {step.number}', [it[:2] for it in rows], lands)
        browser.press('ArrowDown')
    browser.click('#all')
    return moved


def main():
    words = argparse.ArgumentParser(description=__doc__, formatter_class=argparse.RawDescriptionHelpFormatter)
    words.add_argument('folder', nargs='?', type=Path, default=TOP / 'examples/ten-flights')
    words.add_argument('--screenshot', type=Path, metavar='FILE', help='a PNG file for the moment after the first move')
    asked = words.parse_args()
    given = [str(asked.folder / it) for it in ('aerodrome.toml', 'flights.csv', 'events.csv')]
    steps = files.steps_of(program.run(['replay', *given]).out)
    with tempfile.TemporaryDirectory() as made, Browser() as browser:
        page = Path(made, 'day/replay.html')
        words = [TOP / 'desk', 'replay', *given, page.parent, '--html']
        if subprocess.run(words, stdout=subprocess.DEVNULL).returncode > 1:  # 1: the day ends without a plan
            return True
        browser.open(page.as_uri())
        steps_by_keys(browser, len(steps) - 1)
        moved = rows_of_moments(browser, steps)
        moved_by_keys(browser, moved)
        if asked.screenshot:
            browser.press('n')
            browser.picture(asked.screenshot)
        want('the console', browser.log('browser'), [])
        want('the requests', browser.requests(), [page.as_uri()])
        print(f'page: {len(steps)} moments, {len(moved)} with moves, {page.stat().st_size} bytes, {len(wrong)} faults')
    return bool(wrong)


if __name__ == '__main__':
    sys.exit(main())
