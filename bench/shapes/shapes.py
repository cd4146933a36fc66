#!/usr/bin/env python3
"""Files of a size, for measuring: shapes.py KIND SIZE FOLDER writes aerodrome.toml and flights.csv (and more where KIND says so).

  pairs SIZE    60 flights, delay, k = 2, windows of SIZE seconds: weights and separations that keep very many pairs a window
  frozen SIZE   500 flights of which SIZE are frozen and the others wait, k = 1
  trials SIZE   60 flights five seconds apart, k = 3, makespan, and trials.csv with SIZE trials of k = 3
  moves RANK    the same flights, and events.csv with 40 events that each change the estimate of the flight of that rank
"""
import random
import sys
from pathlib import Path

sys.path.insert(0, str(Path(__file__).resolve().parents[1]))
sys.dont_write_bytecode = True
from traffic import LETTERS, TABLE

HEADER = 'callsign,category,eta,weight,windows,after\n'


def aerodrome(version, k, objective, table=TABLE.values(), more=''):
    rows = ''.join(f'{letter} = {row}\n' for letter, row in zip(LETTERS, table))
    return f'version = {version}\nk = {k}\nfreeze = 150\nobjective = "{objective}"\n{more}\n[table]\n{rows}'


def fine_table(draw):
    """Separations of every second from 60 to 119: any such table keeps the triangle inequality."""
    return [[draw.randint(60, 119) for _ in LETTERS] for _ in LETTERS]


def pairs(size):
    draw = random.Random(size)
    rows = ''
    for i in range(60):
        eta = 3600 + 20 * i
        rows += f'T{i:03},{draw.choice(LETTERS)},{eta},{draw.randint(1, 100)},{eta}-{eta + size - 1},\n'
    return {'aerodrome.toml': aerodrome(2, 2, 'delay', fine_table(draw)), 'flights.csv': HEADER + rows}


def frozen(size):
    rows, entries = '', ''
    for i in range(500):
        second = 1000 + 60 * i
        rows += f'T{i:03},F,{second},1,{second}-{second + 1800},\n'
        if i < size:
            entries += f'\n[[frozen]]\ncallsign = "T{i:03}"\nsecond = {second}\n'
    clock = f'clock = {1000 + 60 * size - 150}\n'
    return {'aerodrome.toml': aerodrome(2, 1, 'makespan', more=clock) + entries, 'flights.csv': HEADER + rows}


def bank():
    draw = random.Random(60)
    rows = ''
    for i in range(60):
        eta = 3600 + 5 * i
        rows += f'T{i:03},{draw.choice(LETTERS)},{eta},1,{eta}-{eta + 7199},\n'
    return {'aerodrome.toml': aerodrome(1, 3, 'makespan'), 'flights.csv': HEADER + rows}


def trials(size):
    return {**bank(), 'trials.csv': 'kind,value\n' + 'k,3\n' * size}


def moves(rank):
    callsign, eta = f'T{rank - 1:03}', 3600 + 5 * (rank - 1)
    rows = ''.join(f'estimate,{callsign},,{eta + 1 + i % 2},,{eta}-{eta + 7199},\n' for i in range(40))
    return {**bank(), 'events.csv': 'kind,callsign,category,eta,weight,windows,after\n' + rows}


def main(kind, size, folder):
    Path(folder).mkdir(parents=True, exist_ok=True)
    for name, text in {'pairs': pairs, 'frozen': frozen, 'trials': trials, 'moves': moves}[kind](int(size)).items():
        (Path(folder) / name).write_text(text)


if __name__ == '__main__':
    main(*sys.argv[1:])
