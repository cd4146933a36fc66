#!/usr/bin/env python3
"""Lists what FORMATS says is printed and no worked run shows: words.py, and with --all what one does show too.

Each text of the lists of causes, findings, reasons and lines in docs/FORMATS.md and docs/CERTIFICATES.md is a form, in which a word in
capitals stands for what changes. A form is shown where a whole line of an output, or of the standard error, of a case of
crates/worked_cases/data has it. `cps: no memory` is left: checks/refused_memory shows it. Python 3.11 or later."""
import re
import sys
import tomllib
from pathlib import Path

TOP = Path(__file__).resolve().parent.parent
NUMBER = '(not-number|below|above)'
# What a word in capitals stands for, where it is not one word without a blank.
PARTS = {'TEXT': '[!-~]{0,32}', 'NUMBER': NUMBER, 'CAUSE': '.+', 'REASON': '.+', 'WINDOWS': '.+', 'AFTER': '.+', 'FIELD': '.+'}
FLIGHTS, EVENTS, TRIALS = 'cps: flights: record N: ', 'cps: events: record N: ', 'cps: trials: record N: '
# The lists: the section, which of its lists, whether the texts stand ahead of an item's colon or behind it, and what stands before
# each of them in a line.
LISTS = (('The aerodrome file', 0, False, 'cps: aerodrome: '), ('The flight file', 0, True, FLIGHTS),
         ('The flight file', 1, True, FLIGHTS + 'windows '), ('The flight file', 2, True, FLIGHTS + 'after '),
         ('The event log', 1, True, EVENTS), ('The output', 0, True, 'trial I refused '), ('The output', 1, True, ''),
         ('Lines on the standard error and statuses', 0, False, ''), ('When it holds', 0, True, 'rejected '))
# What stands in sentences: the section, what stands before it, and the texts.
SENTENCES = (
    ('The flight file', FLIGHTS, ['header']),
    ('The flight file', FLIGHTS + 'weight ', ['not-number', 'below', 'above']),
    ('The flight file', FLIGHTS + 'eta ', ['not-number', 'above']),
    ('The flight file', EVENTS, ['header']),
    ('The flight file', TRIALS, ['header']),
    ('The event log', EVENTS + 'COLUMN ', ['not-empty', 'bad']),
    ('The event log', EVENTS + 'windows ', ['shape 1', 'number 1 NUMBER', 'empty']),
    ('The trial file', TRIALS, ['fields', 'kind', 'value CAUSE', 'too-many']),
    ('The output', '', ['makespan V', 'delay V', 'land CALLSIGN SECOND waiting', 'land CALLSIGN SECOND frozen', 'infeasible',
                        'makespan 0', 'delay 0', 'event 0 begun', 'event I accepted', 'event I refused CAUSE', 'event 0 begun steps N',
                        'event I accepted steps N', 'total T', 'flights N', 'k K', 'nodes M', 'base V', 'base infeasible', 'trial I V',
                        'trial I infeasible', 'trial I refused CAUSE', 'ok', 'infeasible claimed', 'optimal V', 'rejected REASON']),
    ('The output', 'event I refused ', ['unknown-flight CALLSIGN', 'frozen SECOND', 'duplicate CALLSIGN', 'too-many-flights',
                                        'too-many-waiting', 'predecessor-of-frozen CALLSIGN', 'covers-frozen CALLSIGN SECOND',
                                        'too-many-closures', 'unknown-closure', 'clock-back SECOND']),
    ('The text', '', ['certificate 1', 'claim optimal V', 'claim infeasible', 'land CALLSIGN SECOND',
                      'state STAGE PATTERN LAST PAIR PAIR ..']))


def sections():
    """The text of each section by its heading."""
    text = ''.join((TOP / 'docs' / name).read_text() for name in ('FORMATS.md', 'CERTIFICATES.md'))
    heads = re.split(r'^## (.*)$', text, flags=re.M)
    return dict(zip(heads[1::2], heads[2::2]))


def lists(section):
    """The lists of a section, each as its items."""
    found, is_open = [], False
    for line in section.split('\n'):
        item = re.match(r'(?:-|\d+\.) (.*)', line)
        if item and not is_open:
            found.append([])
        if item:
            found[-1].append(item[1])
        elif is_open and line.startswith('  '):
            found[-1][-1] += ' ' + line.strip()
        is_open = bool(item) or is_open and line.startswith('  ')
    return found


def texts_of(item, is_ahead):
    """The texts ahead of the colon of an item, or behind it."""
    parts = re.split('`([^`]*)`', item.replace('**', '`'))
    colon = next((at for at in range(0, len(parts), 2) if ':' in parts[at]), len(parts))
    return parts[1:colon:2] if is_ahead else parts[colon + 1::2]


def forms():
    """Each form of a line, in the order of the documents; a form that no longer stands in its section ends the script."""
    texts = sections()
    for section, number, is_ahead, front in LISTS:
        there = lists(texts[section])[number:number + 1]
        if not there:
            sys.exit(f'words.py: {section} has no list {number}')
        yield from (front + it for item in there[0] if 'no line' not in item for it in texts_of(item, is_ahead))
    for section, front, words in SENTENCES:
        for word in words:
            if f'`{word}`' not in ' '.join(texts[section].split()):
                sys.exit(f'words.py: {section} does not say `{word}`')
            yield front + word


def pattern(form):
    """What a line of this form matches."""
    if form.endswith(' PAIR PAIR ..'):
        form = form.removesuffix(' PAIR ..')
        return pattern(form)[:-1] + r'( \S+)*$'
    return '^' + re.sub(r'\b[A-Z]+\b', lambda it: PARTS.get(it[0], r'\S+'), re.escape(form).replace(r'\ ', ' ')) + '$'


def lines():
    """Each whole line that a worked run prints."""
    for path in sorted((TOP / 'crates/worked_cases/data').glob('*.toml')):
        for case in tomllib.loads(path.read_text()).get('cases', ()):
            for key in 'out', 'begins', 'ends', 'err':
                yield from case.get(key, '').split('\n')[:-1]


def main():
    shown = sorted(set(lines()))
    missing = 0
    for form in dict.fromkeys(forms()):
        example = next((line for line in shown if re.match(pattern(form), line)), None)
        if example is None and form != 'cps: no memory':
            missing += 1
            print(f'no run shows: {form}')
        elif '--all' in sys.argv[1:]:
            print(f'{form}    {example}')
    print(f'words: {missing} of {len(set(forms()))} forms are in no worked run')
    return missing


if __name__ == '__main__':
    sys.exit(main() > 0)
