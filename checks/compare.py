"""Compares a program with the rules over random small files: compare.py PROGRAM [FIRST [COUNT]], by seeds.

Each printed plan must be feasible, tight, of the least objective and of the printed value, or `infeasible` exactly where no
order of the flights is feasible; each event must have its answer; the statuses must be 0 or 1 by the last plan. A certificate
must be judged to hold with the same value, and not to hold without the counts of the carry where these cost something. A replay is followed by the program's own plans. `first` must print the best plan
whose order of ranks is least, `whatif` each outcome, and `audit` each finding. An opening is refused with its first cause."""
import subprocess
import sys
import tempfile
from dataclasses import replace
from pathlib import Path

from audit import findings
from draw import aerodrome_text, block_text, draw_block, draw_case, events_text, flights_text, trials_text
from progress import Progress

FILES = 'aerodrome.toml', 'flights.csv'


class Wrong(Exception):
    pass


def need(holds, what):
    if not holds:
        raise Wrong(what)


def read_block(lines, situation):
    """The plan that the next lines show, or None for `infeasible`."""
    head = lines.pop(0)
    if head == 'infeasible':
        return None
    word, value = head.split(' ')
    need(word == situation.objective, 'the objective is named otherwise')
    plan = {}
    for _ in situation.flights:
        land, callsign, second, mark = lines.pop(0).split(' ')
        need(land == 'land' and mark == ('frozen' if callsign in situation.frozen else 'waiting'), f'the line of {callsign}')
        need(not plan or int(second) > max(plan.values()), 'not in landing order')
        plan[callsign] = int(second)
    need(situation.broken(plan) is None, situation.broken(plan))
    need(situation.value(plan) == int(value), 'the printed value')
    need(situation.is_tight(plan), 'a flight could land earlier in this order')
    return plan


def read_plan(lines, situation):
    """The same, and that no schedule is better."""
    plan = read_block(lines, situation)
    least = situation.least()
    need((plan and situation.value(plan)) == least or (plan == {} and least == 0), f'the least objective is {least}')
    return plan


def run(program, folder, *words, error=''):
    done = subprocess.run([program, *words], cwd=folder, capture_output=True, text=True, timeout=60)
    need(done.stderr == error, f'standard error: {done.stderr}')
    return done.stdout, done.stdout.splitlines(), done.returncode


def check_plan(program, folder, situation):
    _, lines, status = run(program, folder, 'plan', *FILES)
    plan = read_plan(lines, situation)
    need(lines == [] and status == (plan is None), 'the end of a plan')


def check_replay(program, folder, situation, events):
    _, lines, status = run(program, folder, 'replay', *FILES, 'events.csv')
    need(lines.pop(0) == 'event 0 begun', 'the opening line')
    plan = read_plan(lines, situation)
    for number, event in enumerate(events, 1):
        refusal = situation.refusal(event)
        answer = f'refused {refusal}' if refusal else 'accepted'
        need(lines.pop(0) == f'event {number} {answer}', f'event {number} is {answer}')
        if refusal is None:
            situation = situation.accept(event, plan)
            plan = read_plan(lines, situation)
    need(lines == [] and status == (plan is None), 'the end of a replay')


def check_certificate(program, folder, situation):
    text, _, status = run(program, folder, 'certify', *FILES)
    need(status == 0, 'a certificate is printed')
    (folder / 'certificate.txt').write_text(text)
    verdict, _, status = run(program, folder, 'check', *FILES, 'certificate.txt')
    least = situation.least()
    need(verdict == ('infeasible\n' if least is None else f'optimal {least}\n') and status == 0, 'the certificate is accepted')
    check_without_counts(program, folder, situation)


def check_without_counts(program, folder, situation):
    """Where the counts of the carry make the plan dearer, the certificate does not hold for the same files without them."""
    has_first = situation.clock is None and (situation.objective == 'makespan' or situation.k < 2)
    free = replace(situation, passed={}, version=1 if has_first else 2)
    if free.least() == situation.least():
        return
    (folder / 'free.toml').write_text(aerodrome_text(free))
    verdict, _, status = run(program, folder, 'check', 'free.toml', 'flights.csv', 'certificate.txt')
    need(verdict.startswith('rejected ') and status == 7, 'the certificate is rejected without the counts')


def check_first(program, folder, situation):
    _, lines, status = run(program, folder, 'first', *FILES)
    plan = read_block(lines, situation)
    need(plan == situation.first() and lines == [] and status == (plan is None), 'the first best plan')


def check_trials(program, folder, situation, trials):
    (folder / 'trials.csv').write_text(trials_text(trials))
    least = situation.least()
    wanted = ['base infeasible' if least is None else f'base {least}']
    wanted += [f'trial {i} {situation.trial(*trial)}' for i, trial in enumerate(trials, 1)]
    _, lines, status = run(program, folder, 'whatif', *FILES, 'trials.csv')
    need(lines == wanted and status == 0, f'the trials are {wanted}')


def check_audit(program, folder, situation, block):
    (folder / 'plan.txt').write_text(block_text(*block))
    wanted = findings(situation, *block)
    _, lines, status = run(program, folder, 'audit', *FILES, 'plan.txt')
    need(lines == (wanted or ['ok']) and status == (7 if wanted else 0), f'the findings are {wanted}')


def check_case(program, folder, seed):
    situation, events, trials, draw = draw_case(seed)
    (folder / 'aerodrome.toml').write_text(aerodrome_text(situation))
    (folder / 'flights.csv').write_text(flights_text(situation))
    (folder / 'events.csv').write_text(events_text(events))
    fault = situation.opening_fault()
    if fault is not None:
        for words in ('plan', *FILES), ('replay', *FILES, 'events.csv'), ('certify', *FILES):
            text, _, status = run(program, folder, *words, error=f'cps: {fault}\n')
            need(text == '' and status == 3, 'a refused opening')
        return
    check_plan(program, folder, situation)
    check_replay(program, folder, situation, events)
    check_certificate(program, folder, situation)
    check_first(program, folder, situation)
    check_trials(program, folder, situation, trials)
    check_audit(program, folder, situation, draw_block(draw, situation))


def main(program, first=0, count=500):
    first, count, done, wrong = int(first), int(count), 0, 0
    progress = Progress()
    with tempfile.TemporaryDirectory() as folder:
        try:
            for seed in range(first, first + count):
                try:
                    check_case(str(Path(program).resolve()), Path(folder), seed)
                except (Wrong, IndexError, ValueError, subprocess.TimeoutExpired) as fault:
                    wrong += 1
                    print(f'seed {seed}: {fault}', flush=True)
                done += 1
                progress.tell(f'{done} of {count} cases, {wrong} wrong so far')
        finally:
            print(f'{done} of {count} cases from seed {first}: {wrong} wrong', flush=True)
    return wrong > 0


if __name__ == '__main__':
    sys.exit(main(*sys.argv[1:]))
