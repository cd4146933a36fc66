#!/usr/bin/env python3
"""Counts the definitions that somebody has to believe who wants to trust a command.

    definitions.py [NAME ..]        counts, by file: for each command, or for the definitions of these names
    definitions.py --print NAME     prints them, each behind what it uses, with its comment, its file and its line

NAME is a command, such as replay, or a definition, such as IsPlanShown. From what the command admits every name is followed to the
definitions of this repository in crates/*/specs, and to the types that its Rust files declare. Words and lines are those without comments
and attributes. Two definitions of one name in one file are one, as are the clauses of one."""
import argparse
import os
import re
import sys
from pathlib import Path

CRATES = Path(__file__).resolve().parent.parent / 'crates'
HEAD = re.compile(r'(?:abbrev |unfoldable )?(?:pub )?(?:record |data )?([A-Za-z_][\w\'-]*|>>=)[ :]')
DATA = re.compile(r'(?:pub )?data ')
VARIANTS = re.compile(r"\s+((?:[A-Z][\w']* )+):")
WORD = re.compile(r'[A-Za-z_][\w\'-]*(?:\.[A-Za-z_][\w\'-]*)*|>>=')
TYPE = re.compile(r'(?:pub(?:\(\w+\))? )?(?:struct|enum) (\w+)')
USE = re.compile(r"(pub )?use (\S+?)(?:\.\{(.*)\})?(?: as ([\w']+))?$")
NO_NAMES = 'use', 'pub', 'mod', 'module', 'infixl', 'infixr', 'infix', 'unfolding'
OTHERS = (('a plan shown', 'IsPlanShown'), ('a run', 'Run'), ('a replay and its text', 'replay_text'),
          ('a run of a program, each', 'RunsTo'))
SHOWN = {}  # the modules that a crate shows under a name of its own


class Definition:
    """A definition: where it begins, its lines as they stand, and the comment before it."""

    def __init__(self, path, line, comment):
        self.path, self.line, self.comment, self.text = path, line, comment, []

    def lines(self):
        """Its lines without comments and attributes."""
        return [line for line in self.text if not line.lstrip().startswith(('--', '//', '#['))]

    def words(self):
        return sum(len(line.split()) for line in self.lines())

    def place(self):
        return f'{self.path.relative_to(CRATES.parent)}:{self.line}'


def module(path):
    crate, _, *rest = path.relative_to(CRATES).with_suffix('').parts
    return '.'.join(['Rattle', crate, 'specs', *rest])


def read_use(where, line, imports):
    """Notes what a line imports. True where it is such a line."""
    use = USE.match(line)
    if use is None:
        return False
    for item in filter(None, map(str.strip, (use[3] or '').split(','))):
        imports[item.split(' as ')[-1]] = (use[2], item.split(' as ')[0])
    if use[4]:
        imports[use[4]] = (use[2], None)
    elif use[1] and use[3] is None:
        SHOWN['.'.join([*where.split('.')[:-1], use[2].split('.')[-1]])] = use[2]
    return True


def read(path):
    """The names that a file imports, and its definitions by name; a variant's name is that of its type. What an inner module holds stands
    deeper by two."""
    imports, names, current, depth, comment = {}, {}, None, 0, []
    for number, line in enumerate(path.read_text().split('\n'), 1):
        plain = line.replace('◌', '')
        text = plain.lstrip()
        indent = len(plain) - len(text)
        if text.startswith('--') and indent <= depth:
            comment = [] if text.startswith('-- ----') else [*comment, line]
            continue
        if text == '' or read_use(module(path), plain, imports):
            comment = []
            continue
        if indent < depth and text[0] not in ')]}':
            depth = indent
        head = HEAD.match(text) if indent == depth else None
        if text.startswith('module ') and indent == depth:
            depth, current = depth + 2, None
        elif head and head[1] not in NO_NAMES:
            current = names.setdefault(head[1], Definition(path, number, comment))
            current.text.append(line)
        elif current:
            current.text.append(line)
            variants = VARIANTS.match(plain) if DATA.match(current.text[0].lstrip()) else None
            for name in variants[1].split() if variants else ():
                names.setdefault(name, current)
        comment = []
    return imports, names


def read_types(path):
    """The types that a Rust file declares, by name."""
    types, current, comment = {}, None, []
    for number, line in enumerate(path.read_text().split('\n'), 1):
        head = TYPE.match(line)
        if head:
            current = types[head[1]] = Definition(path, number, comment)
        if current:
            current.text.append(line)
            current = None if line.startswith('}') or line.endswith(';') or line.endswith('}') and head else current
        comment = [*comment, line] if line.startswith('///') else comment if line.startswith('#[') else []
    return types


FILES = {module(path): read(path) for path in CRATES.glob('*/specs/**/*.antt')}
TYPES = {(path.relative_to(CRATES).parts[0], name): it
         for path in CRATES.glob('*/src/**/*.rt') for name, it in read_types(path).items()}


def declared(target, name):
    """The type that a name of `specs.declared` is or belongs to, if it is of this repository."""
    _, crate, _, _, *parts = target.split('.')
    return next((TYPES[crate, it] for it in [*reversed(parts), name] if (crate, it) in TYPES), None)


def find(where, word):
    """The definition that a word stands for there, if it is of this repository."""
    imports, names = FILES[where]
    first, _, rest = word.partition('.')
    if first in names:
        return names[first]
    if first in imports:
        target, name = imports[first]
        if '.specs.declared.' in target:
            return declared(target, name)
        if name is None:
            name = rest.split('.')[0]
        target = SHOWN.get(target, target)
        return FILES[target][1].get(name) if target in FILES else None
    return None


def uses(definition):
    """The definitions that one uses, in the order of its words."""
    words = [word for line in definition.lines() for word in WORD.findall(line.replace('◌', ''))]
    if definition.path.suffix == '.antt':
        found = (find(module(definition.path), word) for word in words)
    else:
        found = (TYPES.get((crate, word)) for word in words for crate in crates_of(definition.path, word))
    return list(dict.fromkeys(it for it in found if it and it is not definition))


def crates_of(path, word):
    """The crates in which a Rust file may mean a type of this name: its own, and those that it takes the name from."""
    taken = re.findall(r'^(?:pub )?use (\w+)::(?:.*\b)?' + word + r'\b', path.read_text(), re.M)
    return [path.relative_to(CRATES).parts[0], *taken]


def reach(start):
    """The definitions that one reaches, each behind those that it uses, as far as they do not use one another."""
    order, seen, todo = [], {start}, [(start, iter(uses(start)))]
    while todo:
        definition, left = todo[-1]
        below = next((it for it in left if it not in seen), None)
        if below:
            seen.add(below)
            todo.append((below, iter(uses(below))))
        else:
            order.append(definition)
            todo.pop()
    return order


def commands():
    """The name of what each command admits, by its row of `Admits`."""
    rows = '\n'.join(FILES['Rattle.cps_top.specs.Commands'][1]['Admits'].text)
    return {name.lower(): admits for name, admits in re.findall(r'^Admits \(?([A-Z]\w+).* = (\w+)', rows, re.M)}


def starts(name):
    """The definitions of this name, or of what a command of this name admits; without one the script ends."""
    name = commands().get(name, name)
    found = list(dict.fromkeys(names[name] for _, names in FILES.values() if name in names))
    found += [it for (_, type_name), it in TYPES.items() if type_name == name]
    if not found:
        print(f'definitions.py: no command and no definition {name}', file=sys.stderr)
        sys.exit(2)
    return found


def total(definitions):
    lines, words = sum(len(it.lines()) for it in definitions), sum(it.words() for it in definitions)
    return f'{len(definitions)} definitions, {lines} lines, {words} words'


def report(title, name):
    for start in starts(name):
        by_file = {}
        for it in reach(start):
            by_file.setdefault(it.path, []).append(it)
        everything = [it for some in by_file.values() for it in some]
        shown = commands().get(name, name)
        print(f'{title}{f" ({shown})" if shown != title else ""}: {total(everything)}, {len(by_file)} files')
        for path, some in sorted(by_file.items(), key=lambda item: (-sum(it.words() for it in item[1]), item[0])):
            print(f'    {path.relative_to(CRATES)}: {total(some)}')


def print_all(name):
    for start in starts(name):
        for it in reach(start):
            print('\n'.join([f'{it.place()}', *it.comment, *it.text]).rstrip() + '\n')


def main():
    words = argparse.ArgumentParser(description=__doc__, formatter_class=argparse.RawDescriptionHelpFormatter)
    words.add_argument('names', nargs='*', metavar='NAME')
    words.add_argument('--print', action='store_true', help='print the definitions')
    asked = words.parse_args()
    if asked.print and not asked.names:
        words.error('--print wants a command or a definition')
    if asked.print:
        for name in asked.names:
            print_all(name)
    else:
        for title, name in [(it, it) for it in asked.names] or [*((it, it) for it in commands()), *OTHERS]:
            report(title, name)


if __name__ == '__main__':
    try:
        main()
        sys.stdout.flush()
    except BrokenPipeError:
        os.dup2(os.open(os.devnull, os.O_WRONLY), sys.stdout.fileno())
        sys.exit(1)
