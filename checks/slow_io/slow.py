"""Short, interrupted and failing reads and writes: slow.py PROGRAM FOLDER WORD.., in the folder whose files the words name.

Where each read and write moves one byte, the program must end as it does without. Where the one of number N fails or is
interrupted, it must end with status 4 and no text, with status 5 and a front of its text, or as without, where
only a line on the standard error was cut. Goes on until no number makes a difference, and prints one line. Ends with 1 where an
answer was wrong, or where nothing failed."""
import os
import subprocess
import sys
import tempfile
from pathlib import Path

PIECE = 7


def run(program, folder, words, library=None, move=1, fail=0):
    extra = {'LD_PRELOAD': str(library), 'MOVE': str(move), 'FAIL': str(fail)} if library else {}
    done = subprocess.run([program, *words], cwd=folder, capture_output=True, env={**os.environ, **extra}, timeout=120)
    return done.stdout, done.stderr, done.returncode


def is_right(whole, answer):
    text, line, status = answer
    if status == 4:
        return text == b'' and line.startswith(b'cps: file ') and line.endswith(b': failed\n')
    if status == 5:
        return whole[0].startswith(text) and line == b'cps: write failed\n'
    return (text, status) == (whole[0], whole[2]) and whole[1].startswith(line)


def main(program, folder, *words):
    program = str(Path(program).resolve())
    whole = run(program, folder, words)
    failed, wrong, number = 0, 0, 0
    with tempfile.TemporaryDirectory() as build:
        library = Path(build) / 'slow.so'
        if {' ', ':'} & set(str(library)):
            sys.exit('LD_PRELOAD takes no path with a blank or a colon')
        source = Path(__file__).parent / 'slow.c'
        subprocess.run(['cc', '-O2', '-shared', '-fPIC', '-o', library, source, '-ldl'], check=True)
        slow = run(program, folder, words, library)
        if slow != whole:
            wrong += 1
            print(f'{" ".join(words)}: a byte at a time: {slow}')
        answer = None
        while answer != whole:
            number += 1
            answer = run(program, folder, words, library, PIECE, number)
            failed += answer[2] in (4, 5)
            if not is_right(whole, answer):
                wrong += 1
                print(f'{" ".join(words)}: read or write {number}: {answer}')
    print(f'{" ".join(words)}: {failed} reads and writes failed, {wrong} wrong answers')
    return wrong > 0 or failed == 0


if __name__ == '__main__':
    sys.exit(main(*sys.argv[1:]))
