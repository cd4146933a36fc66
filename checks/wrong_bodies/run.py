#!/usr/bin/env python3
"""Wrong bodies that no contract can refuse, each of which a test must: run.py, anywhere in a checkout.

Beside this file each FILE.edit turns a copy of the sources, in the form of the gate's must-fail edits ('file:', 'old:', 'new:', with the
crate before the file) and with a line 'test:', a crate and its tests that are run on it, unproved. Where one of them fails, the body is
refused. The unchanged sources are run first and must pass. Takes some minutes; ends with 1 where a body was let through."""
import shutil
import subprocess
import sys
import tempfile
from pathlib import Path

HERE = Path(__file__).resolve().parent
TOP = HERE.parents[1]


def read(edit):
    """The names of the tests, and for each change its file, old and new text."""
    tests, changes, file, old = set(), [], None, None
    for line in edit.read_text().splitlines():
        word, _, text = line.partition(': ')
        if word == 'test':
            tests.add(text)
        elif word == 'file':
            file = text
        elif word == 'old':
            old = text
        elif word in ("new", "new:"):
            changes.append((file, old, text))
    return tests, changes


def passes(copy, test):
    crate, _, name = test.partition(' ')
    ran = subprocess.run(['rt', 'try', '--test', '--', name], cwd=copy / 'crates' / crate, capture_output=True, text=True)
    if 'test result: ok.' not in ran.stdout and 'test result: FAILED.' not in ran.stdout:
        sys.exit(f'{test} did not run:\n{(ran.stdout + ran.stderr)[-2000:]}')
    return 'test result: ok.' in ran.stdout


def copied(folder):
    copy = Path(folder) / 'copy'
    shutil.copytree(TOP / 'crates', copy / 'crates', ignore=shutil.ignore_patterns('out', 'must-fail'))
    for name in ('crates.txt', 'HANDLES'):
        shutil.copy(TOP / name, copy / name)
    return copy


def main():
    edits = sorted(HERE.glob('*.edit'))
    let_through = 0
    with tempfile.TemporaryDirectory() as folder:
        copy = copied(folder)
        for test in sorted(set().union(*(read(edit)[0] for edit in edits))):
            if not passes(copy, test):
                sys.exit(f'{test} fails on the sources as they are')
    for edit in edits:
        tests, changes = read(edit)
        with tempfile.TemporaryDirectory() as folder:
            copy = copied(folder)
            for file, old, new in changes:
                text = (copy / 'crates' / file).read_text()
                if text.count(old) != 1:
                    sys.exit(f'{edit.name}: its old text stands in {file} {text.count(old)} times')
                (copy / 'crates' / file).write_text(text.replace(old, new))
            is_refused = not all(passes(copy, test) for test in sorted(tests))
        let_through += not is_refused
        print(f'{edit.stem}: {"refused" if is_refused else "LET THROUGH"}', flush=True)
    print(f'wrong bodies: {len(edits)}, {let_through} let through')
    return let_through > 0


if __name__ == '__main__':
    sys.exit(main())
