#!/usr/bin/env python3
"""Prints functions as they stand, for docs/calling.md: with their comments, attributes and contracts. \
They are those of the crate that the page is about
(docs/calling), and else of the crates of tests.

    checks/shown.py NAME     the function of this name; \
`head` is what stands before the first one of docs/calling, `invariants` its proof"""
import re
import sys

from lib.checks import ROOT, asked

CRATE = ROOT / 'docs/calling/lib.rt.txt'
PROOF = ROOT / 'docs/calling/Invariants.antt.txt'


def functions(path):
    """The functions of a file: each one's name to its lines, with what stands directly above it."""
    lines, found = path.read_text().splitlines(), {}
    for at, line in enumerate(lines):
        name = re.match(r'^(?:pub )?fn (\w+)', line)
        if name:
            begin = at
            while lines[begin - 1].startswith(('///', '#[')):
                begin -= 1
            found.setdefault(name[1], []).append(lines[begin:lines.index('}', at) + 1])
    return found


def head():
    """The lines of the crate before its first function."""
    text = CRATE.read_text()
    return text[:text.index('\n///')].splitlines()


def of_tests(name):
    """The functions of this name in the crates of tests."""
    return [lines for path in sorted(ROOT.glob('crates/test_*/src/*.rt')) for lines in functions(path).get(name, [])]


def main():
    name, = asked(__doc__, 'checks/shown.py NAME', lambda words: len(words) == 1 and not words[0].startswith('-'))
    parts = {'head': head(), 'invariants': PROOF.read_text().splitlines()}
    found = [parts[name]] if name in parts else functions(CRATE).get(name) or of_tests(name)
    if len(found) != 1:
        print(f'{len(found)} functions of the crates of tests are named {name}', file=sys.stderr)
        return 1
    print('\n'.join(f'    {line}'.rstrip() for line in found[0]))
    return 0


if __name__ == '__main__':
    sys.exit(main())
