#!/usr/bin/env python3
"""Runs a program over a file of cases whose answers were written down before any run: cases.py PROGRAM CASES.json

The file is an array of tables. Each has a `name`, the `words` of the command line, the `files` by name (a text of which each letter is one
byte, as in latin-1), the `status`, the texts that the output `out` may be, and the standard error `err`."""
import json
import subprocess
import sys
import tempfile
from pathlib import Path

from progress import Progress


def run(program, case):
    """The status, the output and the standard error of the program on a case, as texts of bytes; None where it doesn't end."""
    with tempfile.TemporaryDirectory() as folder:
        for name, text in case.get('files', {}).items():
            (Path(folder) / name).write_bytes(text.encode('latin-1'))
        try:
            ended = subprocess.run([program, *case['words']], cwd=folder, capture_output=True, timeout=60)
        except subprocess.TimeoutExpired:
            return None
    return ended.returncode, ended.stdout.decode('latin-1'), ended.stderr.decode('latin-1')


def is_right(case, got):
    return got is not None and got[0] == case['status'] and got[1] in case['out'] and got[2] == case['err']


def main(program, path):
    program = Path(program).resolve()
    cases = json.loads(Path(path).read_text())
    wrong, progress = 0, Progress()
    for done, case in enumerate(cases):
        progress.tell(f'{done} of {len(cases)} cases of {path}, {wrong} wrong so far')
        got = run(program, case)
        if not is_right(case, got):
            wrong += 1
            print(f'{case["name"]}: wants {case["status"]} {case["out"][0][:80]!r} {case["err"]!r}, got {str(got)[:200]}')
    print(f'{path}: {len(cases)} cases, {wrong} wrong')
    return wrong


if __name__ == '__main__':
    if len(sys.argv) != 3:
        sys.exit(__doc__)
    sys.exit(main(*sys.argv[1:]) > 0)
