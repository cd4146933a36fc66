"""Every rule that a plan block breaks, in the order of docs/FORMATS.md, for a situation of rules.py."""


def by_name(s, lines):
    names = [callsign for callsign, _, _ in lines]
    found = [f'missing {f.callsign}' for f in s.flights if f.callsign not in names]
    found += [f'unknown {c}' for c in names if s.active(c) is None]
    return found + [f'twice {c}' for i, c in enumerate(names) if c in names[:i]]


def by_line(s, word, value, lines):
    landed = [(s.active(callsign), second) for callsign, second, _ in lines]
    seconds = {f.callsign: second for f, second in landed}
    waiting = [f.callsign for f in s.waiting()]
    found = [f'order {i}' for i in range(2, len(lines) + 1) if lines[i - 1][1] <= lines[i - 2][1]]
    found += [f'mark {c}' for c, _, mark in lines if mark != ('frozen' if c in s.frozen else 'waiting')]
    found += [f'closed {f.callsign} {t}' for f, t in landed if not s.is_open(f, t)]
    for i, (f, t) in enumerate(landed):
        for g, u in landed[i + 1:]:
            if (t <= u and u - t < s.apart(f, g)) or (u <= t and t - u < s.apart(g, f)):
                found.append(f'separation {f.callsign} {g.callsign}')
    found += [f'precedence {c} {g.callsign}' for g, u in landed for c in g.after if c in seconds and seconds[c] >= u]
    found += [f'moved {f.callsign} {s.frozen[f.callsign]}' for f, t in landed if s.frozen.get(f.callsign, t) != t]
    found += [f'early {f.callsign}' for f, t in landed if f.callsign in waiting and t < s.horizon]
    for f, _ in landed:
        if f.callsign in waiting:
            place, rank = s.place(f, seconds), waiting.index(f.callsign) + 1
            if not s.keeps_shift(f, rank, place):
                found.append(f'shift {f.callsign} {place} {rank}')
    found += ['objective'] if word != s.objective else []
    return found + ([f'value {s.value(seconds)}'] if s.value(seconds) != value else [])


def findings(s, word, value, lines):
    """The findings of a block: its word, its number, and its lines of callsign, second and mark."""
    return by_name(s, lines) or by_line(s, word, value, lines)
