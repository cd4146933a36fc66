"""Refuses each allocation in turn: sweep.py PROGRAM FOLDER WORD.., in the folder whose files the words name.

Where allocation N is refused the program must end with status 8 and a front of its text, or with its whole text and its own
status. Goes on until forty numbers in a row made no difference, so that none is left to refuse, and prints one line. Ends with
1 where an answer was wrong, or where nothing was refused."""
import os
import subprocess
import sys
import tempfile
from pathlib import Path

sys.path.append(str(Path(__file__).resolve().parent.parent))
from progress import Progress

LAST_IN_A_ROW = 40


def run(program, folder, words, library=None, number=0):
    extra = {'LD_PRELOAD': str(library), 'REFUSE': str(number)} if library else {}
    done = subprocess.run([program, *words], cwd=folder, capture_output=True, env={**os.environ, **extra}, timeout=120)
    return done.stdout, done.stderr, done.returncode


def is_right(whole, answer):
    text, lines, status = answer
    if status == 8:
        return whole[0].startswith(text) and lines in (b'cps: no memory\n', b'')
    return answer == whole


def main(program, folder, *words):
    program = str(Path(program).resolve())
    whole = run(program, folder, words)
    refused, wrong, in_a_row, number = 0, 0, 0, 0
    with tempfile.TemporaryDirectory() as build:
        library = Path(build) / 'refuse.so'
        if {' ', ':'} & set(str(library)):
            sys.exit('LD_PRELOAD takes no path with a blank or a colon')
        source = Path(__file__).parent / 'refuse.c'
        subprocess.run(['cc', '-O2', '-shared', '-fPIC', '-o', library, source, '-ldl'], check=True)
        progress = Progress()
        try:
            while in_a_row < LAST_IN_A_ROW:
                number += 1
                answer = run(program, folder, words, library, number)
                refused += answer[2] == 8
                if not is_right(whole, answer):
                    wrong += 1
                    print(f'{" ".join(words)}: allocation {number}: {answer}', flush=True)
                in_a_row = in_a_row + 1 if answer == whole else 0
                progress.tell(f'{" ".join(words)}: {refused} allocations refused, {wrong} wrong answers so far')
        finally:
            print(f'{" ".join(words)}: {refused} allocations refused, {wrong} wrong answers', flush=True)
    return wrong > 0 or refused == 0


if __name__ == '__main__':
    sys.exit(main(*sys.argv[1:]))
