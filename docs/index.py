#!/usr/bin/env python3
"""Writes docs/INDEX.md: each public function with the first sentence of its comment and the names of its clauses.

    python3 docs/index.py            writes the index, and mends the line numbers of links into the sources
    python3 docs/index.py --check    says what it would change, and what a document links or quotes that is not there

A link into the sources with a line number names the definition, function or clause that the line says. A block of code marked
`rattle` quotes lines of the sources. Ends with 1 where something is missing or would change."""
import re
import sys
from dataclasses import dataclass, field
from pathlib import Path

TOP = Path(__file__).resolve().parent.parent
INDEX = TOP / 'docs/INDEX.md'
LINK = re.compile(r'\[([^\]]*)\]\(([^)\s]+)\)')
FENCE = re.compile(r'^```(\w*)\n(.*?)^```$', re.M | re.S)
HEAD = '''# Index

Each public function, by rooms and crates: the first sentence of its comment, and in brackets what it ensures and requires,
by the names of the clauses. A clause without a name is not listed further. [CLAIMS.md](CLAIMS.md) says which functions carry
the whole. This page is written by `python3 docs/index.py`, and the gate compares it.
'''


@dataclass
class Function:
    """A public function: what its comment says first, and the names of its clauses, by their kind."""
    name: str
    says: str
    clauses: dict[str, list[str]] = field(default_factory=dict)

    def row(self) -> str:
        told = '; '.join(' '.join(filter(None, [kind, ', '.join(f'`{name}`' for name in names)]))
                         for kind, names in sorted(self.clauses.items()))
        return f'- `{self.name}`: {self.says}' + (f' ({told})' if told else '')


def first_sentence(comment: list[str]) -> str:
    """The first sentence of a comment."""
    text = ' '.join(comment).split('  ')[0]
    end = re.search(r'[.:](?= [A-Z|]|$)', text)
    return text[:end.start()].rstrip() + '.' if end else text


def add_clauses(function: Function, line: str) -> None:
    """Notes the clauses that a line of a head begins."""
    for kind, name in re.findall(r'(?:^|\s)(requires|ensures)(?: (\w+))? \{', line):
        names = function.clauses.setdefault(kind, [])
        if name and name not in names:
            names.append(name)


def functions(path: Path) -> list[Function]:
    """The public functions of a file, and those of its public traits."""
    found, comment, owner, is_trait, head, depth = [], [], '', False, None, 0
    for line in path.read_text().splitlines():
        text = line.strip()
        block = re.match(r'(?:pub )?(?:unsafe )?(impl|trait)\b(?:<[^{]*?>)? ?(?:\S+(?:<.*?>)? for )?(\w+)', line)
        start = re.match(r'( *)(pub )?(?:final |const |unsafe )*fn (\w+)', line)
        if head is None and block:
            owner, is_trait = block[2] + '::', block[1] == 'trait' and line.startswith('pub ')
        elif line == '}' and head is None:
            owner, is_trait = '', False
        if head is None and start and (start[2] or is_trait):
            head, depth = Function((owner if start[1] else '') + start[3], first_sentence(comment)), len(start[1])
        if head:
            add_clauses(head, text)
            if text.endswith(';') or line in (' ' * depth + '{', ' ' * depth + '{}') or start and text.endswith(('{', '{}')):
                found.append(head)
                head = None
        comment = comment + [text[3:].strip()] if text.startswith('///') else comment if text.startswith('#[') else []
    return found


def crate_part(crate: str) -> str:
    """What the index says of a crate."""
    sources = TOP / 'crates' / crate / 'src'
    root = next(sources / name for name in ('lib.rt', 'main.rt') if (sources / name).exists())
    about = [line[3:].strip() for line in root.read_text().splitlines() if line.startswith('//!')]
    parts = [f'\n### [{crate}](../{root.relative_to(TOP)})\n\n{first_sentence(about)}\n']
    for path in sorted(sources.glob('**/*.rt')):
        rows = [function.row() for function in functions(path)]
        if rows:
            parts.append('\n'.join([f'\n[{path.relative_to(sources)}](../{path.relative_to(TOP)})\n', *rows, '']))
    return ''.join(parts)


def index() -> str:
    """The text of the index, in the order of crates.txt."""
    parts = [HEAD]
    for line in (TOP / 'crates.txt').read_text().splitlines()[1:]:
        if line.startswith('# '):
            parts.append(f'\n## {line[2:]}\n')
        elif line:
            parts.append(crate_part(line.split(':')[0].split()[0]))
    return ''.join(parts)


def line_of(path: Path, name: str) -> int | None:
    """The line of a source that says a definition, a function or a clause of this name."""
    says = re.compile(r'\s*(?:(?:pub|abbrev|unfoldable|final|record|data|fn|struct|enum|trait|const|ensures) )*'
                      rf'{re.escape(name)}\b ?[:(<{{=]')
    return next((i for i, line in enumerate(path.read_text().splitlines(), 1) if says.match(line)), None)


def documents() -> list[Path]:
    """The pages that people write."""
    return [TOP / 'README.md', TOP / 'checks/README.md', *sorted({*(TOP / 'docs').glob('*.md')} - {INDEX})]


def anchors(path: Path) -> set[str]:
    """What a link may name in a document."""
    heads = re.findall(r'^#+ (.*)$', path.read_text(), re.M)
    return {re.sub(r'[^\w\- ]', '', head.lower()).replace(' ', '-') for head in heads}


def mended(document: Path, faults: list[str]) -> str:
    """The text of a document with the line numbers of its links mended. Notes what is not there."""
    def mend(match: re.Match) -> str:
        words, target = match[1], match[2]
        if '://' in target:
            return match[0]
        name, _, place = target.partition('#')
        path = (document.parent / name).resolve() if name else document
        if not path.exists():
            faults.append(f'{document.relative_to(TOP)}: no file {target}')
        elif re.fullmatch(r'L\d+', place):
            line = line_of(path, words.strip('`').split('::')[-1])
            if line:
                return f'[{words}]({name}#L{line})'
            faults.append(f'{document.relative_to(TOP)}: {name} says no {words}')
        elif place and place not in anchors(path):
            faults.append(f'{document.relative_to(TOP)}: no heading {target}')
        return match[0]

    return LINK.sub(mend, document.read_text())


def check_quotes(document: Path, lines: set[str], faults: list[str]) -> None:
    """Notes the lines that a document quotes and no source has."""
    for kind, block in FENCE.findall(document.read_text()):
        for line in filter(None, map(str.strip, block.splitlines() if kind == 'rattle' else ())):
            if line not in lines:
                faults.append(f'{document.relative_to(TOP)}: no source says: {line}')


def main(words: list[str]) -> int:
    faults: list[str] = []
    texts = {INDEX: index()} | {document: mended(document, faults) for document in documents()}
    sources = [*TOP.glob('crates/*/specs/**/*.antt'), *TOP.glob('crates/*/src/**/*.rt')]
    lines = {line.strip() for path in sources for line in path.read_text().splitlines()}
    for document in documents():
        check_quotes(document, lines, faults)
    for path, text in texts.items():
        old = path.read_text() if path.exists() else ''
        if words == ['--check'] and text != old:
            faults.append(f'{path.relative_to(TOP)} is not as python3 docs/index.py writes it')
        elif text != old:
            path.write_text(text)
    print(*faults, sep='\n', end='\n' if faults else '')
    return 1 if faults else 0


if __name__ == '__main__':
    if sys.argv[1:] not in ([], ['--check']):
        sys.exit(__doc__)
    sys.exit(main(sys.argv[1:]))
