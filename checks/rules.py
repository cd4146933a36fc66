"""The rules of docs/RULES.md once more, slowly: schedules as maps from callsigns to seconds, plans by trying every order."""
from dataclasses import dataclass, field
from itertools import permutations

LAST_SECOND = 172_799
MOST_ACTIVE, MOST_WAITING, MOST_CLOSURES = 500, 60, 32
KINDS = ('estimate', 'cancel', 'add', 'close', 'reopen', 'clock')


@dataclass
class Flight:
    callsign: str
    category: str
    estimate: int
    weight: int
    windows: list
    after: list


@dataclass
class Situation:
    table: dict
    k: int
    freeze: int
    objective: str
    flights: list
    closures: list
    clock: int = None
    frozen: dict = field(default_factory=dict)
    version: int = 1
    passed: dict = field(default_factory=dict)

    @property
    def horizon(self):
        return 0 if self.clock is None else self.clock + self.freeze

    def active(self, callsign):
        return next((f for f in self.flights if f.callsign == callsign), None)

    def waiting(self):
        """The waiting flights in first-come order."""
        return sorted((f for f in self.flights if f.callsign not in self.frozen), key=lambda f: (f.estimate, f.callsign))

    def apart(self, leader, follower):
        return self.table[leader.category, follower.category]

    def is_open(self, flight, second):
        return any(a <= second <= b for a, b in flight.windows) and not any(a <= second < b for a, b in self.closures)

    def first_open(self, flight, second):
        while second <= LAST_SECOND:
            if self.is_open(flight, second):
                return second
            later = [a for a, _ in flight.windows if a > second] + [b for a, b in self.closures if a <= second < b]
            if not later:
                return None
            second = min(later)
        return None

    def value(self, seconds):
        """The objective of a schedule."""
        if self.objective == 'makespan':
            return max(seconds.values(), default=0)
        return sum(f.weight * max(0, seconds[f.callsign] - f.estimate) for f in self.flights)

    def broken(self, seconds):
        """The first rule that a schedule breaks, in words, or None."""
        if sorted(seconds) != sorted(f.callsign for f in self.flights):
            return 'not every active flight lands once'
        for f in self.flights:
            if not self.is_open(f, seconds[f.callsign]):
                return f'{f.callsign} lands at a second that is not open'
            if seconds[f.callsign] < self.horizon and f.callsign not in self.frozen:
                return f'{f.callsign} lands before the horizon'
        if any(seconds[c] != t for c, t in self.frozen.items()):
            return 'a frozen flight is moved'
        for f in self.flights:
            for g in self.flights:
                if f is not g and seconds[f.callsign] <= seconds[g.callsign]:
                    if seconds[g.callsign] - seconds[f.callsign] < self.apart(f, g):
                        return f'{f.callsign} and {g.callsign} are not apart'
                if f.callsign in g.after and seconds[f.callsign] >= seconds[g.callsign]:
                    return f'{g.callsign} lands before {f.callsign}'
        waiting = self.waiting()
        for rank, f in enumerate(waiting, 1):
            if not self.keeps_shift(f, rank, self.place(f, seconds)):
                return f'{f.callsign} is shifted too far'
        return None

    def place(self, flight, seconds):
        return 1 + sum(seconds[g.callsign] < seconds[flight.callsign] for g in self.waiting())

    def keeps_shift(self, flight, rank, place):
        return rank - place <= self.k and place - rank <= self.k - self.passed.get(flight.callsign, 0)

    def earliest(self, order):
        """Each waiting flight of this order at its earliest second beside the frozen ones, or None."""
        seconds = dict(self.frozen)
        for f in order:
            landed = [(self.active(c), t) for c, t in seconds.items()]
            second = self.first_open(f, max([self.horizon] + [t + self.apart(g, f) for g, t in landed]))
            if second is None:
                return None
            seconds[f.callsign] = second
        return seconds

    def plans(self):
        """Each lawful order of ranks with its schedule at the earliest seconds, in rising order."""
        waiting = self.waiting()
        for order in permutations(range(1, len(waiting) + 1)):
            if all(self.keeps_shift(waiting[rank - 1], rank, place) for place, rank in enumerate(order, 1)):
                seconds = self.earliest([waiting[rank - 1] for rank in order])
                if seconds is not None and self.broken(seconds) is None:
                    yield order, seconds

    def least(self):
        """The least objective of a feasible schedule, or None where there is none."""
        return min((self.value(seconds) for _, seconds in self.plans()), default=None)

    def first(self):
        """The best schedule whose order of ranks is least, or None."""
        least = self.least()
        return next((seconds for _, seconds in self.plans() if self.value(seconds) == least), None)

    def is_tight(self, seconds):
        """Whether no flight lands earlier in the same order: it is the order at its earliest seconds."""
        return self.earliest(sorted(self.waiting(), key=lambda f: seconds[f.callsign])) == seconds

    def refusal(self, event):
        """The first refusal of an event, with its value, or None."""
        kind = event['kind']
        flight = self.active(event.get('callsign'))
        if kind in ('estimate', 'cancel'):
            if flight is None:
                return f'unknown-flight {event["callsign"]}'
            if flight.callsign in self.frozen:
                return f'frozen {self.frozen[flight.callsign]}'
        if kind == 'add':
            if flight is not None:
                return f'duplicate {flight.callsign}'
            if len(self.flights) >= MOST_ACTIVE:
                return 'too-many-flights'
            if len(self.waiting()) >= MOST_WAITING:
                return 'too-many-waiting'
            for f in self.flights:
                if f.callsign in self.frozen and event['callsign'] in f.after:
                    return f'predecessor-of-frozen {f.callsign}'
        if kind == 'close':
            inside = [(t, c) for c, t in self.frozen.items() if event['from'] <= t < event['to']]
            if inside:
                return 'covers-frozen %s %d' % min(inside)[::-1]
            if len(self.closures) >= MOST_CLOSURES:
                return 'too-many-closures'
        if kind == 'reopen' and (event['from'], event['to']) not in self.closures:
            return 'unknown-closure'
        if kind == 'clock' and self.clock is not None and event['now'] < self.clock:
            return f'clock-back {self.clock}'
        return None

    def accept(self, event, plan):
        """The situation after an accepted event, with the plan that is shown before it."""
        kind = event['kind']
        flights, closures = list(self.flights), list(self.closures)
        clock, frozen, passed = self.clock, dict(self.frozen), dict(self.passed)
        if kind == 'estimate':
            flights = [Flight(f.callsign, f.category, event['estimate'], f.weight, event['windows'], f.after)
                       if f.callsign == event['callsign'] else f for f in flights]
        elif kind == 'cancel':
            flights = [f for f in flights if f.callsign != event['callsign']]
        elif kind == 'add':
            flights.append(event['flight'])
        elif kind == 'close':
            closures.append((event['from'], event['to']))
        elif kind == 'reopen':
            closures.remove((event['from'], event['to']))
        else:
            clock = event['now']
            frozen.update({c: t for c, t in (plan or {}).items() if t < clock + self.freeze and c not in frozen})
            passed = self.passed_after(frozen)
        return Situation(self.table, self.k, self.freeze, self.objective, flights, closures, clock, frozen, self.version, passed)

    def passed_after(self, frozen):
        """The counts when these are frozen: with the carry each flight that stays was passed by those behind it that froze."""
        if self.version < 3:
            return {}
        order = [f.callsign for f in self.waiting()]
        return {c: min(self.k, self.passed.get(c, 0) + sum(d in frozen for d in order[rank:]))
                for rank, c in enumerate(order, 1) if c not in frozen}

    def opening_fault(self):
        """The first refusal of an opening, with its values, or None. Frozen landings and counts stand in the order of the file."""
        entries = list(self.frozen.items())
        for number, (callsign, _) in enumerate(entries, 1):
            if self.active(callsign) is None:
                return f'opening: unknown-frozen {number}'
        for number, callsign in enumerate(self.passed, 1):
            if self.active(callsign) is None or callsign in self.frozen:
                return f'opening: unknown-passed {number}'
        if len(self.waiting()) > MOST_WAITING:
            return f'too many waiting {len(self.waiting())}'
        landed = [(self.active(callsign), second) for callsign, second in entries]
        for number, (flight, second) in enumerate(landed, 1):
            if not self.is_open(flight, second):
                return f'opening: frozen-closed {number}'
        for i, first in enumerate(landed, 1):
            for j, other in enumerate(landed[i:], i + 1):
                (f, t), (g, u) = sorted((first, other), key=lambda landing: landing[1])
                if u - t < self.apart(f, g):
                    return f'opening: frozen-separation {i} {j}'
        for number, (flight, second) in enumerate(landed, 1):
            for callsign in flight.after:
                if self.active(callsign) is not None and self.frozen.get(callsign, LAST_SECOND + 1) >= second:
                    return f'opening: frozen-precedence {number} {callsign}'
        return None

    def trial(self, kind, value):
        """What a trial comes to: its refusal, the least objective with this one change, or infeasible."""
        changed = Situation(**vars(self))
        if kind == 'k':
            if self.objective == 'delay' and value > (1 if self.version == 1 else 2):
                return f'refused delay-shift {value}'
            above = next((i for i, count in enumerate(self.passed.values(), 1) if count > value), None)
            if above is not None:
                return f'refused passed-above {above}'
            changed.k = value
        else:
            refusal = self.refusal({'kind': 'close', 'from': value[0], 'to': value[1]})
            if refusal:
                return f'refused {refusal}'
            changed.closures = self.closures + [value]
        least = changed.least()
        return 'infeasible' if least is None else str(least)
