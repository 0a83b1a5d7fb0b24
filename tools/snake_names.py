#!/usr/bin/env python3
"""Brings the names of definitions and lemmas to snake case: `tableIn` is `table_in`, `rowKey-less` is `row_key-less`.

Run once at the top of the repository, on sources, definitions, proofs, must-fail edits and documents. Types, modules and constructors (upper camel case), and names
from Rattle source, which are in snake case already, stay. A name of which the new spelling is taken by another definition, or by a variable where both stand in
one file, is listed in OTHER with the spelling that it gets."""
import glob
import re
import sys

OTHER = {
    'dropAt': 'without_at',
    'lastSet': 'last_settings',
    'digitValue': 'value_of_digit',
    'textAt': 'character_at',
    'bestOf': 'best_in',
    'noneSet': 'nothing_set',
    'sourceGroup': 'by_source_group',
    'anySource': 'by_any_source',
}

NAME = re.compile(r"(?<![A-Za-z0-9_'’])[a-z][a-z0-9]*[A-Z][A-Za-z0-9]*")


def snake(name):
    s = re.sub(r'([A-Z]+)([A-Z][a-z])', r'\1_\2', name)
    s = re.sub(r'([a-z0-9])([A-Z])', r'\1_\2', s)
    return s.lower()


def code(text, mark):
    return '\n'.join(line.split(mark)[0] for line in text.split('\n'))


def files(*endings):
    return sorted(f for e in endings for f in glob.glob(e, recursive=True))


def main():
    crates = files('crates/**/*.antt', 'crates/**/*.rt')
    known = set()
    for f in crates:
        text = open(f).read()
        known |= set(NAME.findall(code(text, '--' if f.endswith('.antt') else '//')))
    for f in crates + files('crates/*/must-fail/*.edit', 'crates.txt', 'README.md', 'docs/**/*.md', 'tests/README.md', 'benchmarks/README.md'):
        text = open(f).read()
        new = NAME.sub(lambda m: OTHER.get(m.group(0), snake(m.group(0))) if m.group(0) in known else m.group(0), text)
        if new != text:
            open(f, 'w').write(new)
    for name in sorted(known):
        print(name, OTHER.get(name, snake(name)))


if __name__ == '__main__':
    main()
