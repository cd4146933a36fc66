"""Runs a program over hostile files of 16 MiB: measure.py PROGRAM [KIND], where KIND is one of files.COMMANDS.

Each must be refused or judged with its status and its line, in less than a second of processor time and 100 MB; of
files.HELD_WHOLE the status and the line alone count, and the limits do not. Prints one line for each file, and ends
with 1 if one was wrong. What this script itself holds, 15 MB, is the least that shows."""
import os
import sys
import tempfile
from pathlib import Path

import files

SECONDS = 1.0
BYTES = 100_000_000


def run(program, folder, words):
    """The status, the standard error, and the processor time and the peak memory of one run."""
    out, err = (os.open(folder / name, os.O_RDWR | os.O_CREAT | os.O_TRUNC, 0o600) for name in ('out', 'err'))
    streams = [(os.POSIX_SPAWN_DUP2, out, 1), (os.POSIX_SPAWN_DUP2, err, 2)]
    paths = [str(folder / word) for word in words[1:]]
    child = os.posix_spawn(program, [program, words[0], *paths], os.environ, file_actions=streams)
    _, ended, usage = os.wait4(child, 0)
    os.close(out)
    os.close(err)
    line = (folder / 'err').read_text(errors='replace').rstrip('\n')
    return os.waitstatus_to_exitcode(ended), line, usage.ru_utime + usage.ru_stime, usage.ru_maxrss * 1024


def main(program, only=None):
    if only not in (None, *files.COMMANDS):
        sys.exit(f'no such kind: {only}')
    program = str(Path(program).resolve())
    wrong, done = 0, 0
    with tempfile.TemporaryDirectory() as made:
        folder = Path(made)
        (folder / 'aerodrome').write_bytes(files.AERODROME)
        (folder / 'flights').write_bytes(files.FLIGHTS + files.FLIGHT)
        try:
            for kind, name, text, status, line in files.all_files():
                if only not in (None, kind):
                    continue
                with open(folder / 'hostile', 'wb') as hostile:
                    hostile.writelines(text)
                ended, told, seconds, memory = run(program, folder, files.COMMANDS[kind])
                within = seconds < SECONDS and memory < BYTES
                good = (ended, told) == (status, line) and (within or name in files.HELD_WHOLE)
                done, wrong = done + 1, wrong + (not good)
                figures = f'{seconds:.2f} s, {memory / 1e6:.0f} MB, status {ended} {told[:80]}'
                print(f'{"" if good else "WRONG "}{"" if within else "OVER "}{kind}: {name}: {figures}', flush=True)
        finally:
            print(f'{done} hostile files: {wrong} wrong', flush=True)
    return wrong > 0


if __name__ == '__main__':
    sys.exit(main(*sys.argv[1:]))
