#!/usr/bin/env python3
"""Breaks the lines of definitions, proofs and clauses that are wider than 120 characters: \
`rt fmt` lays files out, but breaks no line of these.
A line is broken behind `=`, `,`, `;` or `in`, before an operator, or between the arguments of a call, \
wherever the fewest brackets are open. An
import is split over several `use` lines of the same module. Nothing but line breaks, spaces and these imports changes.

    checks/wrap.py [--write] [CRATE ..]      counts the lines that would be broken and those that stay wide; \
--write breaks them

Left alone are comments, code of Rust, and lines in which no break is found, as long texts. \
Run `rt fmt` in the crate afterwards, and this once more:
`rt fmt` may indent a line over the edge."""
import re
import sys

from lib.checks import ROOT, asked

WIDTH = 120
OPENING, CLOSING = '([{', ')]}'
# how dear a break before these is; a break at less dear places is taken first
OPERATORS = {'→': 1, '⊎': 2, '×': 2, '↔': 2, '|': 2, '∙': 3, '≡': 4, '≢': 4, '++': 4, '||': 4, '&&': 4, '==': 4, '∷': 5,
             '≤': 5, '<': 5, '+': 5}
# how much dearer a break is within a binder
BINDER = 8
# words and signs after which a line can't end, and before which it can't begin
HOLDS = {'λ', 'let', 'elim', 'as', '∀', 'rw', 'simp', 'at', 'unfolding', 'ensures', 'requires', 'ghost', 'pub',
         'abbrev', 'unfoldable', '¬', '-'}
HELD = {'=', ':', 'in', '↦', '}', 'as', 'at', 'where', 'then', 'else', '{', '['}
TEXT = re.compile(r'"(?:[^"\\]|\\.)*"')
IMPORT = re.compile(r'^(\s*(?:pub |ghost )*use [^{}]*\{)([^{}]*)(\};?)$')
CLAUSE = re.compile(r'^\s*(ensures|requires|ghost \w+:? )')
LATER_LINE = ('→', '×', '⊎', '(λ', '(around', 'IfOk', 'IfSome', '(record')
UNTOUCHED = ('--', '//', 'use ', 'pub use ', 'ghost use ', 'mod ', 'pub mod ', 'open ', 'infix')


def cost_of(before, token, depth, in_lambda):
    """How dear a break between two neighbouring words is, or None where there can be none."""
    if before == '=':
        return 8 if depth else 0
    if before.endswith(';') or before == 'in' and token != 'in':
        return 0
    if before.endswith(','):
        return 1
    if token in OPERATORS:
        return OPERATORS[token]
    if in_lambda or before in HOLDS or before in OPERATORS or token in HELD:
        return None
    if before in ('↦', ':', '{', '['):
        return 5
    if before.endswith('.'):
        return 4  # after the binders of a λ
    return 9 if token == '(' or before == ')' else 10


def binders(text):
    """The places of a text that stand in a binder, as `(name : type)`."""
    for match in re.finditer(r"[({](?:[\w'-]+ )+: ", text):
        depth, at = 1, match.end()
        while depth and at < len(text):
            depth += (text[at] in OPENING) - (text[at] in CLOSING)
            at += 1
        yield match.start(), at


def breaks(text):
    """The places where a line may be broken: the position of the space, the number of open brackets, and the
    cost. A text in quotes is one word."""
    depth, in_lambda, end, before, found = 0, False, 0, None, []
    bound = list(binders(text))
    for match in re.finditer(r'[()\[\]{}]|[^\s(){}]+', TEXT.sub(lambda found: 'x' * len(found.group()), text)):
        token = match.group()
        # a bracket at the end of a line opens what the next lines have, and stays
        if before is not None and match.start() > end and (token not in OPENING or match.end() < len(text)):
            cost = cost_of(before, token, depth, in_lambda)
            if cost is not None:
                found.append((end, depth, cost + BINDER * any(first < end < last for first, last in bound)))
        in_lambda = (in_lambda or token.startswith('λ')) and not token.endswith('.')
        depth += (token in OPENING) - (token in CLOSING)
        before, end = token, match.end()
    return found


def broken(line, is_rust):
    """The lines that stand for a wide line, or None where no break is found."""
    indent = len(line) - len(line.lstrip())
    inner = 1 if is_rust else 0  # the brace of a clause is no reason to indent further
    text, base, out = line.rstrip(), 0, []
    while len(text) > WIDTH:
        least = len(text) - len(text.lstrip()) + 20
        places = [(place, depth + base, cost) for place, depth, cost in breaks(text) if least < place <= WIDTH]
        if not places:
            return out + [text] if out else None
        place, base, _ = min(places, key=lambda it: it[1] * 6 + it[2] + (WIDTH - it[0]) / 16)
        out.append(text[:place])
        text = ' ' * (indent + 4 + 2 * min(max(base - inner, 0), 3)) + text[place:].lstrip()
    return out + [text]


def split_import(match):
    """The imports that stand for a wide one: of the same module, each as full as the width allows."""
    head, names, tail = match.groups()
    rows = [[]]
    for name in names.split(', '):
        if rows[-1] and len(head + ', '.join(rows[-1] + [name]) + tail) > WIDTH:
            rows.append([])
        rows[-1].append(name)
    return [head + ', '.join(row) + tail for row in rows]


def is_breakable(line, is_rust):
    """Whether a line is one of a definition, a proof or a clause, without a comment and without a part of a text in
    it."""
    start = line.lstrip()
    if not start or start.startswith(UNTOUCHED) or ' -- ' in start or '"' in TEXT.sub('', start):
        return False
    return not is_rust or bool(CLAUSE.match(line)) or start.startswith(LATER_LINE)


def wrapped(line, is_rust):
    """The lines that stand for a line."""
    if len(line) <= WIDTH:
        return [line]
    found = IMPORT.match(line)
    if found:
        return split_import(found)
    return (broken(line, is_rust) if is_breakable(line, is_rust) else None) or [line]


def words_of(text):
    """The words of a file without its imports, which no break may change."""
    return [word for line in text.split('\n') if not IMPORT.match(line) for word in line.split()]


def wrap(path, write):
    """How many lines of a file are broken, and how many stay wide."""
    text = path.read_text()
    lines = [wrapped(line, path.suffix == '.rt') for line in text.split('\n')]
    made = '\n'.join(line for group in lines for line in group)
    assert words_of(made) == words_of(text), path
    if write and made != text:
        path.write_text(made)
    return sum(len(group) > 1 for group in lines), sum(len(line) > WIDTH for group in lines for line in group)


def files_of(crates):
    """The files of code, definitions and proofs of these crates, or of all."""
    for name in crates or sorted(path.name for path in (ROOT / 'crates').iterdir()):
        for part in ('src', 'specs', 'proofs'):
            folder = ROOT / 'crates' / name / part
            yield from sorted(path for path in folder.rglob('*') if path.suffix in ('.rt', '.antt'))


def is_asked(words):
    return all((ROOT / 'crates' / name / 'src').is_dir() for name in words if name != '--write')


def main():
    words = asked(__doc__, 'checks/wrap.py [--write] [CRATE ..], crates as docs/crates.md lists them', is_asked)
    write, crates = '--write' in words, [word for word in words if word != '--write']
    counts = [wrap(path, write) for path in files_of(crates)]
    print(f'{sum(one for one, _ in counts)} lines broken, {sum(other for _, other in counts)} left wider than {WIDTH}')


if __name__ == '__main__':
    sys.exit(main())
