#!/usr/bin/env python3
"""Runs `rt ci` and tells what it took, and where: times.py [WORD..], at the top of a checkout; the words go to `rt ci`.

Behind what `rt ci` prints stand the machine's kind and the commit; a table with the processor seconds of each crate's proof, of its tests'
proof and of its edits, and the longest chain of crates that stand on one another; and the processor time and the wall time of the whole.
The whole is what the system counted for the gate and for all that it started. The table comes from looks at the provers, one a second,
and sees neither the compiler nor what the tests and programs take. Nothing else should prove at the same time: what does takes
processors, though it is not counted.

To compare two commits, run both with `--anew` on one machine within one day, and compare the processor times."""
import os
import re
import resource
import subprocess
import sys
import time

KINDS = 'proof', 'tests', 'edits'
TICKS = os.sysconf('SC_CLK_TCK')


def read(path):
    with open(path, 'rb') as file:
        return file.read().decode(errors='replace')


def is_under(number, ancestor):
    """Whether a process is one that another has started, or that one of those has."""
    while number > 1:
        number = int(read(f'/proc/{number}/stat').rpartition(')')[2].split()[1])
        if number == ancestor:
            return True
    return False


def look(number, gate):
    """The crate, the kind of work and the processor seconds of a prover of the gate, or None for another process."""
    words = read(f'/proc/{number}/cmdline').split('\0')
    if not words[0].endswith('/rattle') or '--crate-name' not in words or not is_under(int(number), gate):
        return None
    fields = read(f'/proc/{number}/stat').rpartition(')')[2].split()
    kind = 'tests' if '--test' in words else 'edits' if 'rt-edit' in os.readlink(f'/proc/{number}/cwd') else 'proof'
    return words[words.index('--crate-name') + 1], kind, (int(fields[11]) + int(fields[12])) / TICKS, fields[19]


def sample(seen, gate):
    for number in filter(str.isdigit, os.listdir('/proc')):
        try:
            found = look(number, gate)
        except OSError:
            continue
        if found:
            crate, kind, seconds, begun = found
            seen[number, begun] = crate, kind, seconds


def stands_on():
    lines = (line.split(':') for line in open('crates.txt') if not line.startswith('#'))
    return {line[0].split()[0]: line[1].split() for line in lines if len(line) > 1}


def longest_chain(below, seconds):
    """The chain of crates whose proofs take longest one after another, and its seconds."""
    chains = {}

    def chain(crate):
        if crate not in chains:
            under = max((chain(it) for it in below.get(crate, ()) if it in below), default=(0, []))
            chains[crate] = under[0] + seconds.get((crate, 'proof'), 0), under[1] + [crate]
        return chains[crate]

    return max(chain(crate) for crate in below)


def machine():
    """The processor's model, how many of them the gate may use, and how many there are."""
    model = re.search(r'^model name\s*:\s*(.*)$', read('/proc/cpuinfo'), re.M)
    return f'{model[1] if model else "unknown processor"}, {len(os.sched_getaffinity(0))} of {os.cpu_count()} processors'


def commit():
    """The commit that is checked out, and whether files differ from it."""
    def git(*words):
        return subprocess.run(['git', *words], capture_output=True, text=True).stdout.strip()

    changed = git('status', '--porcelain', '--untracked-files=no')
    return (git('rev-parse', '--short=8', 'HEAD') or 'unknown') + (' with changes' if changed else '')


def main(words):
    stands = commit()
    begun = time.time()
    gate = subprocess.Popen(['rt', 'ci', *words])
    seen = {}
    while gate.poll() is None:
        sample(seen, gate.pid)
        time.sleep(1)
    wall = time.time() - begun
    used = resource.getrusage(resource.RUSAGE_CHILDREN)
    seconds = {}
    for crate, kind, spent in seen.values():
        seconds[crate, kind] = seconds.get((crate, kind), 0) + spent
    below = stands_on()
    print(f'\nMachine: {machine()}\nCommit: {stands}\n')
    print('| crate | proof | tests | edits |\n|---|---|---|---|')
    for crate in below:
        if any((crate, kind) in seconds for kind in KINDS):
            print(f'| {crate} | ' + ' | '.join('%d' % seconds.get((crate, kind), 0) for kind in KINDS) + ' |')
    sums = [sum(spent for (_, it), spent in seconds.items() if it == kind) for kind in KINDS]
    print('| all | ' + ' | '.join('%d' % it for it in sums) + ' |')
    length, chain = longest_chain(below, seconds)
    print(f'Longest chain of proofs ({" ".join(chain)}): {length / 60:.1f} min')
    print(f'Processor time of the whole: {(used.ru_utime + used.ru_stime) / 60:.1f} min')
    print(f'Wall time of the whole: {wall / 60:.1f} min')
    return gate.returncode


if __name__ == '__main__':
    sys.exit(main(sys.argv[1:]))
