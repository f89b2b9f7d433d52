#!/usr/bin/env python3
"""The definitions that the contract of `run` reaches, in an order to read: \
file by file, lowest first, each file's in its own order. It
starts at the names in the clauses of `run`, and follows the imports of the specs (`use`) down, \
definition by definition. It prints the
table that docs/reading-list.md has; `checks/names.py` compares the two.

    checks/reached.py              the table
    checks/reached.py contract     the contract itself, as a block of Markdown"""
import re

from lib.checks import ROOT, asked

TOP = 'crates/kds_cli_runs/src/program.rt'
TOP_FUNCTION = 'run'
# a definition begins at the head of a line, or in a module with parameters by two spaces
HEAD = re.compile(r'^(?:(?:abbrev|unfoldable) (?:pub )?|pub (?:record|data) |(?:record|data) )([\w◌-]+)')
INNER_HEAD = re.compile(r'^  (?:(?:abbrev|unfoldable) (?:pub )?|pub (?:record|data) )([\w◌-]+)')
USE = re.compile(r'^\s*(?:ghost )?use Rattle\.(\w+)\.specs\.([\w.]+?)(?:\.\{([^}]*)\}| as (\w+))?;?$')
WORD = re.compile(r"[\w◌'-]+(?:\.[\w◌'-]+)*")


def crate_order():
    lines = (ROOT / 'crates.txt').read_text().splitlines()
    return [line.split(':')[0] for line in lines if line.strip() and not line.startswith('#')]


class File:
    """The definitions of a text, each with its words, and what the text imports: a word, or a prefix, to a place and a
    name."""

    def __init__(self, text):
        self.bodies, self.names, self.prefixes = {}, {}, {}
        current = None
        for line in text.splitlines():
            use, head = USE.match(line), HEAD.match(line) or INNER_HEAD.match(line)
            if use:
                self.add_use(*use.groups())
            elif head:
                current = head[1]
                self.bodies[current] = line
            elif line.startswith('--') or line.startswith('module '):
                current = None
            elif current:
                self.bodies[current] += '\n' + line
        self.makers = {}
        for name, body in self.bodies.items():
            if re.match(r'^\s*pub data|^data', body):
                for left in re.findall(r'^ +([\w -]+?) :', body, re.M):
                    self.makers.update((maker, name) for maker in left.split())

    def add_use(self, crate, module, names, prefix):
        if prefix:
            self.prefixes[prefix] = (crate, module)
        for name in (names or '').split(','):
            if name.strip():
                self.names[name.strip()] = (crate, module)

    def meant(self, body):
        """The places and names that a text's words mean: (crate, module, name), of this file with no crate."""
        words = set()
        for word in WORD.findall(re.sub(r'--.*', '', body)):
            words.update([word, *word.split('.')])
        for name in list(self.names) + list(self.bodies) + list(self.makers):
            parts = [part for part in name.split('◌') if part] if '◌' in name else [name]
            if parts and all(part in words for part in parts):
                yield (*self.names.get(name, (None, None)), name)
        for prefix, (crate, module) in self.prefixes.items():
            for name in set(re.findall(rf'(?<![\w.]){prefix}\.([\w-]+)', body)):
                yield crate, module, name


def contract():
    """The head of the top function, from its name to its body."""
    text = (ROOT / TOP).read_text()
    head = text[text.index(f'pub fn {TOP_FUNCTION}<'):]
    return head[:head.index('\n{')]


class Reached:
    def __init__(self):
        self.crates = crate_order()
        self.files, self.definitions, self.types, self.below = {}, {}, {}, {}

    def file(self, crate, module):
        path = ROOT / 'crates' / crate / 'specs' / (module.replace('.', '/') + '.antt')
        if path not in self.files:
            self.files[path] = File(path.read_text())
        return self.files[path]

    def reach(self, crate, module, name):
        if crate == 'std':
            return
        if crate not in self.crates:
            self.below.setdefault(crate, set()).add(name)
            return
        if module.startswith('declared.'):
            parts = module.split('.')
            kind = name if parts[2] == 'TheConstants' else parts[2]
            self.types.setdefault((crate, parts[1]), set()).add(kind)
            return
        file = self.file(crate, module)
        name = file.makers.get(name, name)
        found = self.definitions.setdefault((crate, module), set())
        if name in found or name not in file.bodies:
            return
        found.add(name)
        for low, place, word in file.meant(file.bodies[name]):
            self.reach(low or crate, place or module, word)

    def from_contract(self):
        file = File((ROOT / TOP).read_text())
        for crate, module, name in file.meant(re.sub(r'//.*', '', contract())):
            if crate:
                self.reach(crate, module, name)
        return self

    def places(self):
        """The places, lowest crate first, and in a crate a file after those that it imports."""
        done = []

        def visit(place):
            if place in done or place not in self.definitions:
                return
            file = self.file(*place)
            for low in sorted(set(file.names.values()) | set(file.prefixes.values())):
                if low[0] == place[0]:
                    visit(low)
            done.append(place)

        for place in sorted(self.definitions, key=lambda place: (self.crates.index(place[0]), place[1])):
            visit(place)
        return done


def in_order(file, names):
    return [name for name in file.bodies if name in names]


def lines_of(file, names):
    return sum(len([line for line in file.bodies[name].splitlines() if line.strip()]) for name in names)


def table():
    reached = Reached().from_contract()
    places = [place for place in reached.places() if reached.definitions[place]]
    count = sum(len(reached.definitions[place]) for place in places)
    lines = sum(lines_of(reached.file(*place), reached.definitions[place]) for place in places)
    yield f'{count} definitions in {len(places)} files, {lines} lines.'
    yield ''
    yield '| Place | Definitions |'
    yield '|---|---|'
    for crate, module in places:
        names = in_order(reached.file(crate, module), reached.definitions[crate, module])
        yield f'| `{crate}/specs/{module.replace(".", "/")}` | {", ".join(f"`{name}`" for name in names)} |'
    yield ''
    yield 'The types and constants of the code that they speak of:'
    yield ''
    yield '| Place | Types and constants |'
    yield '|---|---|'
    for crate, file in sorted(reached.types, key=lambda place: (reached.crates.index(place[0]), place[1])):
        yield (f'| `crates/{crate}/src/{file}.rt` | '
               f'{", ".join(f"`{name}`" for name in sorted(reached.types[crate, file]))} |')
    yield ''
    yield 'Besides the standard library, these definitions of the toolchain\'s crates:'
    yield ''
    for crate in sorted(reached.below):
        yield f'- {crate}: {", ".join(f"`{name}`" for name in sorted(reached.below[crate]))}'


if __name__ == '__main__':
    wanted = asked(__doc__, 'checks/reached.py [contract]', lambda words: words in ([], ['contract']))
    print('\n'.join('    ' + line for line in contract().splitlines()) if wanted else '\n'.join(table()))
