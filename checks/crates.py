#!/usr/bin/env python3
"""Writes crates.txt and docs/crates.md from docs/crates.list, where each crate is described once.

    ./dev crates           writes the two files where they differ from what the list says
    ./dev crates --check   writes nothing, and fails where they differ
    ./dev crates --count   prints how many crates there are, and on how many the program stands
    ./dev crates --adopt   first takes the lines of crates.txt over into the list, as after a merge that changed them"""
import re
import sys
import textwrap

from lib.checks import ROOT, asked

LIST, TEXT, PAGE = ROOT / 'docs' / 'crates.list', ROOT / 'crates.txt', ROOT / 'docs' / 'crates.md'
PROGRAM = 'kds_cli'
FIELDS = ['group', 'does', 'used for', 'proved']
HEAD = '''# NAME: what it stands on, lower crates first
# made from docs/crates.list by ./dev crates
'''


class Crate:
    def __init__(self, name, below):
        self.name, self.below, self.fields = name, below, {}

    def line(self):
        return f'{self.name}: {" ".join(self.below)}'.rstrip()


def line_of(text):
    """A line `NAME: DEP DEP` as the toolchain reads it."""
    name, _, below = text.partition(':')
    return Crate(name.strip(), below.split())


def read():
    """The comment at the head of the list, and its crates."""
    comment, crates, field = [], [], None
    for number, line in enumerate(LIST.read_text().splitlines(), 1):
        if line.startswith('#'):
            comment.append(line)
        elif line[:1].strip():
            crates.append(line_of(line))
            field = None
        elif line.strip():
            found = re.match(r'^    (\w[\w ]*): (.*)$', line)
            if found and found[1] in FIELDS:
                field = found[1]
                crates[-1].fields[field] = found[2].strip()
            elif field and line.startswith('        '):
                crates[-1].fields[field] += ' ' + line.strip()
            else:
                sys.exit(f'{LIST.name}:{number}: neither a field nor the rest of one')
    for crate in crates:
        for field in FIELDS:
            crate.fields.setdefault(field, '')
    return comment, crates


def adopt(comment, crates):
    """The crates of crates.txt in its order, each with what the list says of it."""
    known = {crate.name: crate.fields for crate in crates}
    lines = [line_of(line) for line in TEXT.read_text().splitlines() if line.strip() and not line.startswith('#')]
    for crate in lines:
        crate.fields = known.get(crate.name, {field: '' for field in FIELDS})
    blocks = []
    for crate in lines:
        fields = [textwrap.fill(f'{field}: {crate.fields[field]}', 118, initial_indent='    ',
                                subsequent_indent='        ', break_long_words=False, break_on_hyphens=False)
                  for field in FIELDS]
        blocks.append('\n'.join([crate.line()] + fields))
    LIST.write_text('\n'.join(comment) + '\n\n' + '\n\n'.join(blocks) + '\n')
    return lines


def of_program(crates):
    """The crates that the program stands on, itself among them."""
    used = {PROGRAM}
    for crate in reversed(crates):
        if crate.name in used:
            used.update(crate.below)
    return [crate for crate in crates if crate.name in used]


def faults(crates):
    """What is wrong with the list by itself."""
    seen, names = set(), {crate.name for crate in crates}
    for crate in crates:
        yield from (f'{crate.name}: {field} is empty' for field in FIELDS if not crate.fields[field])
        yield from (f'{crate.name}: stands on {low}, which comes later' for low in crate.below if low in names - seen)
        if not (ROOT / 'crates' / crate.name / 'src').is_dir():
            yield f'{crate.name}: there is no such crate'
        seen.add(crate.name)
    there = {path.parent.name for path in (ROOT / 'crates').glob('*/src')}
    yield from (f'{name}: is not in the list' for name in sorted(there - names))


def page(crates):
    groups = {}
    for crate in crates:
        groups.setdefault(crate.fields['group'], []).append(crate)
    low = ('kds_base', 'kds_defs')
    program = {crate.name for crate in of_program(crates)}
    out = ['# Crates', '',
           '<!-- made from docs/crates.list by ./dev crates: change that file, and run it again -->', '',
           textwrap.fill(
               f'There are {len(crates)} crates; the program stands on {len(program)} of them, its own among them. '
               'Each is a layer, whose contracts alone the code above relies on. '
               'In each group lower crates come first. '
               '"Stands on" leaves out `kds_base` and `kds_defs`, on which nearly every crate stands. A function is '
               '*exact* if it does exactly what its definition says. The [glossary](glossary.md) has the other words, '
               'and `crates.txt` the order of proof.', 100), '']
    for group, members in groups.items():
        out += [f'## {group}', '', '| Crate | Does | Stands on | The layer above uses |', '|---|---|---|---|']
        for crate in members:
            below = ', '.join(name for name in crate.below if name not in low) or '-'
            out.append(f'| `{crate.name}` | {crate.fields["does"]} | {below} | {crate.fields["used for"]} |')
        out += ['', 'What is proved:', '']
        out += [textwrap.fill(f'- `{crate.name}`: {crate.fields["proved"]}', 120, subsequent_indent='  ',
                              break_long_words=False, break_on_hyphens=False) for crate in members]
        out.append('')
    return '\n'.join(out)


def main():
    words = asked(__doc__, './dev crates [--check | --count | --adopt]',
                  lambda words: words[1:] == [] and set(words) <= {'--check', '--count', '--adopt'})
    comment, crates = read()
    if '--count' in words:
        print(len(crates), len(of_program(crates)))
        return 0
    if '--adopt' in words:
        crates = adopt(comment, crates)
    failed = list(faults(crates))
    wanted = {TEXT: HEAD + ''.join(crate.line() + '\n' for crate in crates), PAGE: page(crates)}
    for path, text in wanted.items():
        if not path.exists() or path.read_text() != text:
            if '--check' in words:
                failed.append(f'{path.relative_to(ROOT)}: differs from docs/crates.list; run ./dev crates')
            else:
                path.write_text(text)
                print(f'written: {path.relative_to(ROOT)}')
    for fault in failed:
        print(f'FAILED {fault}')
    return 1 if failed else 0


if __name__ == '__main__':
    sys.exit(main())
