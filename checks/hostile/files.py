"""Hostile files of 16 MiB: what is in each, the command that reads it, and how it must end."""
import sys
from pathlib import Path

sys.path.append(str(Path(__file__).resolve().parents[1]))
from draw import LETTERS

SIZE = 16 * 2 ** 20
DEEP = 100_000

FLIGHTS = b'callsign,category,eta,weight,windows,after\n'
EVENTS = b'kind,callsign,category,eta,weight,windows,after\n'
TRIALS = b'kind,value\n'
FLIGHT = b'A1,A,1000,1,1000-2000,\n'
CERTIFICATE = b'certificate 1\nclaim optimal 1000\n'
AERODROME = b'''version = 1
k = 0
freeze = 0
objective = "makespan"

[table]
''' + ''.join(f'{letter} = {[60] * len(LETTERS)}\n' for letter in LETTERS).encode()


def filled(begin, part, end=b''):
    """A text of SIZE bytes: its begin, then a part over and over, and its end."""
    block = part * (2 ** 16 // len(part))
    left = SIZE - len(begin) - len(end)
    yield begin
    while left >= len(block):
        yield block
        left -= len(block)
    yield part * (left // len(part)) + part[:left % len(part)]
    yield end


def numbered(begin, form, count=None):
    """A text of at most SIZE bytes: its begin, and then a line for each number from 0."""
    size, lines, number = len(begin), [begin], 0
    while count is None or number < count:
        line = form % number
        size += len(line)
        if count is None and size > SIZE:
            break
        lines.append(line)
        number += 1
        if len(lines) == 4096:
            yield b''.join(lines)
            lines = []
    yield b''.join(lines)


def pairs(begin, stages, most):
    """States with `most` pairs each, of which the seconds rise and the costs fall."""
    yield begin
    for stage in range(1, stages + 1):
        yield b'state %d - 1' % stage
        for first in range(0, most, 1000):
            yield b''.join(b' %d:%d' % (second, most - second) for second in range(first, first + 1000))
        yield b'\n'


def deep(begin, opening, inner, closing, turns=DEEP):
    """Something nested `turns` deep."""
    yield begin + opening * turns + inner + closing * turns


def records(header, line, record):
    """The hostile files of a kind of records: name, text, the record and its cause."""
    return [
        ('commas alone', filled(b'', b','), (1, 'header')),
        ('the header and then commas', filled(header, b','), (2, 'fields')),
        ('a record and then commas', filled(header + line, b','), (3, 'fields')),
        ('the header and then quoted empty fields', filled(header, b'"",'), (2, 'fields')),
        ('quoted empty fields', filled(b'', b'"",'), (1, 'header')),
        ('a quote that never ends', filled(b'"', b'a'), (1, 'header')),
        ('the header and then a quote that never ends', filled(header + b'"', b'a,\n'), (2, 'fields')),
        ('quotes alone', filled(b'', b'"'), (1, 'header')),
        ('blank lines', filled(b'', b'\n'), (1, 'header')),
        ('one line of letters', filled(b'', b'a'), (1, 'header')),
        ('lines of one comma', filled(header, b',\n'), record),
    ]


def all_files():
    """Name, the words of the command with {} for the file, its text, the status and the line."""
    def refused(what, number, cause):
        return 3, f'cps: {what}: record {number}: {cause}'

    for name, text, (number, cause) in records(FLIGHTS, FLIGHT, (2, 'fields')):
        yield 'flights', name, text, *refused('flights', number, cause)
    for name, text, (number, cause) in records(EVENTS, b'cancel,A1,,,,,\n', (2, 'fields')):
        yield 'events', name, text, *refused('events', number, cause)
    for name, text, (number, cause) in records(TRIALS, b'k,0\n', (2, 'kind')):
        yield 'trials', name, text, *refused('trials', number, cause)

    yield 'flights', 'the header and then blank lines', filled(FLIGHTS, b'\n'), 0, ''
    many = numbered(FLIGHTS, b'C%07d,A,1000,1,1000-2000,\n')
    yield 'flights', 'far more than 500 flights', many, *refused('flights', 502, 'too-many')
    yield 'flights', 'digits', filled(FLIGHTS + b'A1,A,', b'9', b',1,1000-2000,\n'), *refused('flights', 2, 'eta above')
    marks = filled(FLIGHTS + b'A1,A,1000,1,', b';', b',\n')
    yield 'flights', 'windows of marks', marks, *refused('flights', 2, 'windows too-many')
    marks = filled(FLIGHTS + b'A1,A,1000,1,1000-2000,', b';', b'\n')
    yield 'flights', 'predecessors of marks', marks, *refused('flights', 2, 'after too-many')
    many = filled(EVENTS, b'cancel,A1,,,,,\n')
    yield 'events', 'far more than 2,000 events', many, *refused('events', 2002, 'too-many')
    many = filled(TRIALS, b'k,0\n')
    yield 'trials', 'far more than 16 trials', many, *refused('trials', 18, 'too-many')

    not_toml = 3, 'cps: aerodrome: not toml'
    yield 'aerodrome', 'commas alone', filled(b'', b','), *not_toml
    yield 'aerodrome', 'a string that never ends', filled(b'a = "', b'a'), *not_toml
    yield 'aerodrome', 'one line of letters', filled(b'', b'a'), *not_toml
    yield 'aerodrome', 'blank lines', filled(b'', b'\n'), 3, 'cps: aerodrome: missing version'
    yield 'aerodrome', 'tables 100,000 deep', deep(b'[a', b'.a', b']\n', b''), *not_toml
    yield 'aerodrome', 'tables as deep as may be', filled(b'[a', b'.a', b']\n'), *not_toml
    yield 'aerodrome', 'arrays 100,000 deep', deep(b'a = ', b'[', b'', b']'), *not_toml
    yield 'aerodrome', 'arrays as deep as may be', filled(b'a = ', b'['), *not_toml
    yield 'aerodrome', 'inline tables 100,000 deep', deep(b'a = ', b'{ a = ', b'1', b' }'), *not_toml
    yield 'aerodrome', 'dotted keys 100,000 deep', deep(b'a', b'.a', b' = 1\n', b''), *not_toml
    million = numbered(b'', b'k%06d = 1\n', 1_000_000)
    yield 'aerodrome', 'a million keys', million, 3, 'cps: aerodrome: unknown key k000000'
    yield 'aerodrome', 'keys to the end', numbered(b'', b'%d=1\n'), 3, 'cps: aerodrome: unknown key 0'
    yield 'aerodrome', 'an array of numbers', filled(b'a = [', b'1,', b']\n'), 3, 'cps: aerodrome: unknown key a'
    yield 'aerodrome', 'tables of an array', filled(b'\n' * 4, b'[[a]]\n'), 3, 'cps: aerodrome: unknown key a'

    yield 'certificate', 'ten million pairs', pairs(CERTIFICATE, 60, 167_000), 6, 'cps: file 3: too long'
    yield 'certificate', 'a million pairs', pairs(CERTIFICATE, 10, 100_000), 7, ''
    yield 'certificate', 'the same pair', filled(CERTIFICATE + b'state 1 - 1', b' 0:0'), 3, 'cps: certificate: line 3'
    landing = b'land A1 1000\n'
    cut = f'cps: certificate: line {(SIZE - len(CERTIFICATE)) // len(landing) + 3}'
    yield 'certificate', 'landings', filled(CERTIFICATE, landing), 3, cut
    yield 'certificate', 'blank lines', filled(b'', b'\n'), 3, 'cps: certificate: line 1'
    yield 'certificate', 'one line of letters', filled(b'', b'a'), 3, 'cps: certificate: line 1'

    yield 'plan', 'landings', filled(b'makespan 1000\n', b'land A1 1000 waiting\n'), 3, 'cps: plan: line 502'
    yield 'plan', 'blank lines', filled(b'', b'\n'), 3, 'cps: plan: line 1'
    yield 'plan', 'one line of letters', filled(b'', b'a'), 3, 'cps: plan: line 1'
    yield 'plan', 'digits', filled(b'makespan ', b'9', b'\n'), 3, 'cps: plan: line 1'


# Documents that `toml` takes to their end. It holds every key and value, and has no limit but that of 80 levels.
# Which key is named depends on all of them.
HELD_WHOLE = ('a million keys', 'keys to the end', 'an array of numbers', 'tables of an array')

COMMANDS = {
    'aerodrome': ('plan', 'hostile', 'flights'),
    'flights': ('plan', 'aerodrome', 'hostile'),
    'events': ('replay', 'aerodrome', 'flights', 'hostile'),
    'trials': ('whatif', 'aerodrome', 'flights', 'hostile'),
    'certificate': ('check', 'aerodrome', 'flights', 'hostile'),
    'plan': ('audit', 'aerodrome', 'flights', 'hostile'),
}
