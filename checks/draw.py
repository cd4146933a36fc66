"""Small random files and event logs from a seed, and their texts as docs/FORMATS.md has them."""
import random

from rules import KINDS, Flight, Situation

LETTERS = 'ABCDEF'
FLIGHT_HEADER = 'callsign,category,eta,weight,windows,after\n'
EVENT_HEADER = 'kind,callsign,category,eta,weight,windows,after\n'


def spans(pairs):
    return ';'.join('%d-%d' % pair for pair in pairs)


def draw_windows(draw, estimate):
    start = estimate + draw.choice((0, 0, 0, -30, 40))
    windows = [(max(0, start), max(0, start) + draw.choice((60, 400, 900, 1500)))]
    if draw.random() < 0.3:
        begin = windows[0][1] + draw.randint(1, 200)
        windows.append((begin, begin + draw.randint(0, 300)))
    return windows


def draw_flight(draw, callsign, others):
    estimate = 600 + draw.randint(0, 500)
    after = draw.sample(others, min(len(others), 1)) if draw.random() < 0.25 else []
    return Flight(callsign, draw.choice(LETTERS), estimate, draw.randint(1, 5), draw_windows(draw, estimate), after)


def draw_situation(draw):
    """Any entries of 60 to 120 seconds meet the triangle inequality."""
    table = {(a, b): draw.randint(60, 120) for a in LETTERS for b in LETTERS}
    objective = draw.choice(('makespan', 'delay'))
    version = draw.choice((1, 2, 3))
    k = draw.randint(0, 3 if objective == 'makespan' else min(version, 2))
    names = ['F%d' % i for i in range(draw.randint(0, 6))]
    draw.shuffle(names)
    flights = [draw_flight(draw, name, [other for other in names if other != name]) for name in names]
    closures = [draw_closure(draw) for _ in range(draw.choice((0, 0, 1, 2)))]
    situation = Situation(table, k, draw.choice((0, 100, 300)), objective, flights, closures, version=version)
    return draw_opening(draw, situation) if version > 1 and draw.random() < 0.7 else situation


def draw_opening(draw, s):
    """With a clock, landings that are frozen before the horizon, mostly good ones, and with the carry some counts."""
    clock = draw.randint(300, 1200)
    planned = s.earliest(s.waiting()) or {}
    frozen = {c: t for c, t in planned.items() if t < clock + s.freeze}
    if frozen and draw.random() < 0.2:
        frozen[draw.choice(list(frozen))] = draw.randint(0, clock + s.freeze - 1)
    if draw.random() < 0.05:
        frozen['ZZ9'] = draw.randint(0, clock + s.freeze - 1)
    entries = list(frozen.items())
    draw.shuffle(entries)
    s.clock, s.frozen = clock, dict(entries)
    if s.version == 3 and s.k > 0:
        names = [f.callsign for f in s.flights if f.callsign not in s.frozen or draw.random() < 0.02]
        s.passed = {c: draw.randint(1, s.k) for c in draw.sample(names, len(names)) if draw.random() < 0.4}
    return s


def draw_closure(draw):
    begin = draw.randint(500, 1400)
    return begin, begin + draw.choice((1, 50, 200))


def draw_event(draw, number, closures):
    """An event of any kind, good or to be refused; `closures` are those seen so far."""
    kind = draw.choice((*KINDS, 'clock'))
    callsign = 'F%d' % draw.randint(0, 7)
    if kind == 'estimate':
        estimate = 600 + draw.randint(0, 800)
        return {'kind': kind, 'callsign': callsign, 'estimate': estimate, 'windows': draw_windows(draw, estimate)}
    if kind == 'cancel':
        return {'kind': kind, 'callsign': callsign}
    if kind == 'add':
        callsign = draw.choice((callsign, 'N%d' % number))
        others = [other for other in ('F0', 'F1', 'F2') if other != callsign]
        return {'kind': kind, 'callsign': callsign, 'flight': draw_flight(draw, callsign, others)}
    if kind == 'clock':
        return {'kind': kind, 'now': draw.randint(300, 1300)}
    begin, end = draw.choice(closures) if closures and kind != 'close' and draw.random() < 0.8 else draw_closure(draw)
    closures.append((begin, end))
    return {'kind': kind, 'from': begin, 'to': end}


def aerodrome_text(s):
    rows = ''.join('%s = [%s]\n' % (a, ', '.join(str(s.table[a, b]) for b in LETTERS)) for a in LETTERS)
    closures = ''.join('\n[[closures]]\nfrom = %d\nto = %d\n' % c for c in s.closures)
    clock = '' if s.clock is None else 'clock = %d\n' % s.clock
    frozen = ''.join('\n[[frozen]]\ncallsign = "%s"\nsecond = %d\n' % f for f in s.frozen.items())
    passed = ''.join('\n[[passed]]\ncallsign = "%s"\ncount = %d\n' % p for p in s.passed.items())
    head = 'version = %d\nk = %d\nfreeze = %d\nobjective = "%s"\n%s' % (s.version, s.k, s.freeze, s.objective, clock)
    return head + '\n[table]\n' + rows + closures + frozen + passed


def flight_fields(f):
    return '%s,%s,%d,%d,%s,%s\n' % (f.callsign, f.category, f.estimate, f.weight, spans(f.windows), ';'.join(f.after))


def flights_text(s):
    return FLIGHT_HEADER + ''.join(map(flight_fields, s.flights))


def event_text(e):
    kind = e['kind']
    if kind == 'estimate':
        return 'estimate,%s,,%d,,%s,\n' % (e['callsign'], e['estimate'], spans(e['windows']))
    if kind == 'cancel':
        return 'cancel,%s,,,,,\n' % e['callsign']
    if kind == 'add':
        return 'add,' + flight_fields(e['flight'])
    if kind == 'clock':
        return 'clock,,,%d,,,\n' % e['now']
    return '%s,,,,,%d-%d,\n' % (kind, e['from'], e['to'])


def events_text(events):
    return EVENT_HEADER + ''.join(map(event_text, events))


def draw_trials(draw):
    return [('k', draw.randint(0, 3)) if draw.random() < 0.5 else ('close', draw_closure(draw)) for _ in range(draw.randint(0, 4))]


def trials_text(trials):
    return 'kind,value\n' + ''.join('%s,%s\n' % (kind, value if kind == 'k' else '%d-%d' % value) for kind, value in trials)


def draw_block(draw, s):
    """A plan block, right or wrong: its word, its number, and its lines of callsign, second and mark."""
    seconds = s.first() or {f.callsign: f.estimate for f in s.flights}
    value, word = s.value(seconds), s.objective
    lines = sorted([(c, t, 'frozen' if c in s.frozen else 'waiting') for c, t in seconds.items()], key=lambda line: line[1])
    for _ in range(draw.choice((0, 1, 1, 2, 3))):
        fault = draw.randint(0, 7)
        i = draw.randrange(len(lines)) if lines else None
        if fault == 0:
            value = max(0, value + draw.choice((-1, 1)))
        elif fault == 1:
            word = 'delay' if word == 'makespan' else 'makespan'
        elif i is None:
            continue
        elif fault == 2:
            del lines[i]
        elif fault == 3:
            lines.append((draw.choice((lines[i][0], 'ZZ9')), lines[-1][1] + 100, 'waiting'))
        elif fault == 4:
            j = draw.randrange(len(lines))
            lines[i], lines[j] = (lines[j][0], *lines[i][1:]), (lines[i][0], *lines[j][1:])
        elif fault == 5:
            lines[i] = (*lines[i][:2], draw.choice(('frozen', 'waiting')))
        else:
            lines[i] = (lines[i][0], max(0, lines[i][1] + draw.choice((-200, -60, -1, 1, 60))), lines[i][2])
    return word, value, lines


def block_text(word, value, lines):
    return '%s %d\n' % (word, value) + ''.join('land %s %d %s\n' % line for line in lines)


def draw_case(seed):
    """A situation, a log of events, trials, and what draws a block for it."""
    draw = random.Random(seed)
    situation = draw_situation(draw)
    closures = list(situation.closures)
    events = [draw_event(draw, i, closures) for i in range(draw.randint(0, 8))]
    return situation, events, draw_trials(draw), draw
