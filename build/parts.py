#!/usr/bin/env python3
"""Splits a module of LLVM, as text, so that build/quick can have its parts compiled side by side:
`build/parts.py MODULE.ll PARTS` writes part0.ll, part1.ll and so on beside it.

A function of more than SHORT lines stands in one part, and is known to the others by its head. A shorter one is copied
to each part that calls it, so that the compiler can put its body in the place of the call. Constants are copied too.
What nothing uses is left out. A module with a line of a form that isn't among these is refused: the status is 1, and
nothing is written."""
import pathlib
import re
import sys

SHORT = 120
FUNCTION = re.compile(r'define (internal )?((?:(?:noundef|zeroext|signext) )*'
                      r'(?:void|ptr|double|i\d+|\{[^@]*\}|<[^@]*>) '
                      r'(@(?:"[^"]*"|[-\w.$]+))\([^@]*\)(?: #\d+)?) \{\n')
VALUE = re.compile(r'(@[-\w.$]+) = private (unnamed_addr constant|constant|global) .*\n')
# What each part has too: the lines before all functions, and those after them.
FRONT = re.compile(r'source_filename = .*|target (datalayout|triple) = .*')
BEHIND = re.compile(r'declare .*|attributes #\d+ = .*|!(\d+|llvm\.ident) = !\{[^@]*\}')
NAME = re.compile(r'@(?:"[^"]*"|[-\w.$]+)')
TEXT = re.compile(r'c"[^"]*"')  # what looks like a name in the text of a value is none


class Module:
    """What stands in a module, by name: the functions' lines and heads, and the values. `ends` has the lines around
    them."""

    def __init__(self, lines):
        self.functions, self.heads, self.values, self.ends = {}, {}, {}, ([], [])
        self.open = set()  # the functions that may be called from outside the module
        for line in lines:
            if found := FUNCTION.fullmatch(line):
                self.functions[found[3]] = [line, *self.body(lines)]
                self.heads[found[3]] = found[2]
                if not found[1]:
                    self.open.add(found[3])
            elif found := VALUE.fullmatch(line):
                self.values[found[1]] = found[2], line
            elif FRONT.match(line) or BEHIND.match(line):
                self.ends[bool(BEHIND.match(line))].append(line)
            elif not line.startswith((';', '\n')):
                sys.exit(f'a line of the module is of no known form: {line.rstrip()[:100]}')
        self.uses = {name: used(name, ''.join(lines)) for name, lines in self.functions.items()}
        self.uses.update((name, used(name, TEXT.sub('', line))) for name, (_, line) in self.values.items())

    @staticmethod
    def body(lines):
        for line in lines:
            yield line
            if line == '}\n':
                return

    def is_copied(self, name):
        return len(self.functions[name]) <= SHORT and name not in self.open

    def reached(self, names, passes=lambda name: True):
        """These names and all that they use, through values and through those functions for which `passes` holds."""
        seen, left = set(names), list(names)
        while left:
            found = (self.uses[left.pop()] & self.uses.keys()) - seen
            seen |= found
            left += (name for name in found if name in self.values or passes(name))
        return seen


def used(name, text):
    return {*NAME.findall(text)} - {name}


def shared(module, parts):
    """The functions that stand in one part alone, by part: the parts are about as long, and keep the module's order."""
    reached = module.reached(module.open)
    ours = [name for name in module.functions if name in reached and not module.is_copied(name)]
    whole, before, owned = sum(len(module.functions[name]) for name in ours), 0, [set() for _ in range(parts)]
    for name in ours:
        owned[before * parts // whole].add(name)
        before += len(module.functions[name])
    return owned


def values_of(module, seen, is_first):
    """The values of a part that sees these names. One whose address may count stands in the first part alone."""
    for name in sorted(seen & module.values.keys()):
        kind, line = module.values[name]
        if kind == 'unnamed_addr constant':
            yield line
        else:
            yield line.replace(' private ', ' hidden ', 1) if is_first else f'{name} = external hidden {kind} i8\n'


def functions_of(module, own, seen, known):
    """The functions of a part that has these of its own, of which the others know some, and sees these names."""
    for name, (first, *rest) in module.functions.items():
        if name in own or name in seen and module.is_copied(name):
            yield f'define hidden {module.heads[name]} {{\n' if name in known else first
            yield from rest
        elif name in seen:
            yield f'declare hidden {module.heads[name]}\n'


def main():
    source, parts = pathlib.Path(sys.argv[1]), int(sys.argv[2])
    with source.open(errors='surrogateescape') as text:
        module = Module(text)
    owned = shared(module, parts)
    owned[0].update(name for name, (kind, _) in module.values.items() if kind != 'unnamed_addr constant')
    seen = [module.reached(own, module.is_copied) for own in owned]
    for number, own in enumerate(owned):
        known = own.intersection(set().union(*(names for names in seen if names is not seen[number]))) - module.open
        with source.with_name(f'part{number}.ll').open('w', errors='surrogateescape') as part:
            part.writelines(module.ends[0])
            part.writelines(values_of(module, seen[number], number == 0))
            part.writelines(functions_of(module, own, seen[number], known))
            part.writelines(module.ends[1])


if __name__ == '__main__':
    main()
