"""Refuses each allocation of a day's events in turn: events.py PROGRAM, the built tests of gate_tests.

The day has an event of each kind. Where an allocation of an event is refused, the test finds the situation and the plan shown
as they were, makes the event again, and ends well; where one of its own is refused, it ends without a word of an event. Goes on
until there is none left to refuse, and prints one line. Ends with 1 where an answer was wrong, or where no event was refused."""
import os
import subprocess
import sys
import tempfile
from pathlib import Path

TEST = 'tests::refused_memory::want_of_memory_changes_nothing'
WRONG = (b'not as before', b'not accepted', b'event is refused', b'assert')


def main(program):
    number, kept, wrong = 0, 0, 0
    with tempfile.TemporaryDirectory() as folder:
        library, told = Path(folder) / 'refuse.so', Path(folder) / 'told'
        source = Path(__file__).parent / 'refuse.c'
        subprocess.run(['cc', '-O2', '-shared', '-fPIC', '-o', library, source, '-ldl'], check=True)
        while number == 0 or told.exists():
            number += 1
            told.unlink(missing_ok=True)
            extra = {'LD_PRELOAD': str(library), 'REFUSE': str(number), 'TOLD': str(told)}
            done = subprocess.run([Path(program).resolve(), TEST], capture_output=True, env={**os.environ, **extra}, timeout=120)
            text = done.stdout + done.stderr
            kept += done.returncode == 0 and told.exists()
            if done.returncode and (not told.exists() or any(it in text for it in WRONG)):
                wrong += 1
                print(f'allocation {number}: {done.returncode} {text}')
    print(f'events: {number - 1} allocations refused, {kept} of them in an event, {wrong} wrong answers')
    return wrong > 0 or kept == 0


if __name__ == '__main__':
    sys.exit(main(*sys.argv[1:]))
