#!/usr/bin/env python3
"""Lists the lemmas that are stated twice: two lemmas with one type, where the one's crate names the other's, or a
lemma of std stated again. Types are equal up to names of variables, layout, the order of arguments, and whether an
argument is named, explicit or implicit. A lemma on one type repeats the same lemma on any type.

    checks/repeats.py         prints each pair, and ends with 1 if there is any"""
import collections
import itertools
import pathlib
import re
import shutil
import subprocess
import sys

import idle
from lib.checks import ROOT, asked

# Of two the order of arguments lets later ones have their types; the other two repeat a lemma on another subject.
LEFT = {('kcl_sim/proofs/Running.antt', name) for name in ('on_any', 'on_ok_so', 'err_so', 'on_any_err')}
# a lemma's marks, name and arguments before the colon, and its type: the lines up to its first equation
STATED = re.compile(r'^((?:\w+ )*?)([^\s(){}.;,@"«»]+)((?: \{[^}]*\})*) : (.*\n(?:[ \t]+.*\n|--.*\n)*)(?=\2\s)', re.M)
HANDED = re.compile(r'^pub use Rattle\.(core[\w.]*?)\.\{([^}]*)\}', re.M)  # what std hands on
TOKEN = re.compile(r'\.[^\s(){}.,;]+|[(){},.]|[^\s(){}.,;]+')
ITEM = re.compile(r'([^\s,{}]+)(?: as ([^\s,{}]+))?')
KIT = ('std', 'core')


def binds(tokens, at):
    """The variables that a bracket or a λ at this place binds."""
    names = list(itertools.takewhile(lambda word: word not in '(){},→.:', tokens[at + 1:]))
    return names if tokens[at] + ''.join(tokens[at + 1 + len(names):][:1]) in ('(:', '{:', 'λ.') else []


def arguments(tokens):
    """The arguments of a type and its result, each its name, if it has one, and its tokens."""
    found, part, depth, start = [], [], 0, 0
    for at, token in enumerate([*tokens, '→']):
        start = at if depth == 0 else start
        depth += (token in '({') - (token in ')}')
        names = binds(tokens, start) if token in ')}' and depth == 0 and not part else []
        found += [(name, tokens[start + len(names) + 2:at]) for name in names]
        if depth == 0 and token == '→':
            found, part = found + [(None, part)] * bool(part), []
        elif depth == 0 and not names:
            part += tokens[start:at + 1]
    return found


def plain(part, bound):
    """The tokens with names as `bound` has them, and the variables that they bind by number."""
    bound, said, numbers = dict(bound), [], itertools.count()
    for at, token in enumerate(part):
        bound |= {name: f'${next(numbers)}' for name in binds(part, at)}
        said.append(bound.get(token, token))
    return said


def key_of(parts, names):
    """What types that say the same have in common: the result and the sorted arguments, variables numbered."""
    number, bound = {}, names | {name: f'?{name}' for name, _ in parts if name}

    def told(part, numbers):
        words = plain(part, bound)
        new = [word for word in dict.fromkeys(words) if numbers and word[0] == '?' and word not in number]
        number.update({word: f'#{len(number) + k:02}' for k, word in enumerate(new)})
        return ' '.join(number.get(word, '?' if word[0] == '?' else word) for word in words)

    said = [told(parts[-1][1], True)]
    for name, part in sorted(parts[:-1], key=lambda part: (number.get(f'?{part[0]}', '~'), told(part[1], False))):
        said.append(f'{told(part, True)} : {number.get(f"?{name}", "")}')
    return tuple(said)


def lemmas(module, text):
    """Each lemma of a file: whether others can name it, its name, its key, and the keys of what it says on any type."""
    names = {} if module.startswith(KIT) else {name: f'{module}: {name}' for name in idle.declarations(text)}
    for of, items in idle.IMPORTS.findall(text):
        names |= {new or name: name if of.startswith(KIT) else f'{of}: {name}' for name, new in ITEM.findall(items)}
    for marks, name, implicit, says in STATED.findall(text):
        parts = arguments(TOKEN.findall(implicit + ' ' + re.sub('--.*', '', says)))
        words = {word for _, part in parts for word in part}
        if {name for name, _ in parts} & words and parts[-1][1][0] != 'Type' and marks in ('', 'pub '):
            types = {word for _, part in parts[:-1] for word in part if word[0].isupper() and word != 'Type'}
            put = [[(name, ['@' if word == each else word for word in part]) for name, part in parts] for each in types]
            wider = [key_of([('@', ['Type', '0']), *each], names) for each in put]
            yield marks == 'pub ', name, key_of(parts, names), wider


def pairs():
    """A line for each lemma that is stated twice, with the other one."""
    lines = re.findall(r'^(\w+).*:(.*)', (ROOT / 'crates.txt').read_text(), re.M)
    below = {crate: {'std', crate, *deps.split()} for crate, deps in lines}
    stated, found, handed, files = collections.defaultdict(list), [], {}, []
    if shutil.which('rt'):  # std's come first, then those of core that std hands on
        kit = pathlib.Path(subprocess.check_output(['rt', 'doc'], text=True)).parent / 'rattle'
        paths = [path for part in ('std/proofs/lemmas', 'core/proofs') for path in kit.glob(f'{part}/**/*.antt')]
        files = [(str(path.relative_to(kit)), path.read_text()) for path in paths]
        lists = [(where, *each) for where, text in files for each in HANDED.findall(text) if where[:3] == 'std']
        given = [(where, of, *item) for where, of, items in lists for item in ITEM.findall(items)]
        handed = {(of, name): [('std', where, new or name)] for where, of, name, new in given}
    files += [(where, text) for where, text in idle.texts() if '/proofs/' in where and where.endswith('.antt')]
    for where, text in files:
        module, crate = where[:-len('.antt')].replace('/', '.'), where.split('/')[0]
        for is_public, name, key, wider in [] if idle.is_for_rattle(where) else lemmas(module, text):
            is_named = crate in below or (crate == 'std' and is_public)
            stated[key] += [(crate, where, name)] if is_named else handed.get((module, name), [])
            found += [(crate, where, name, key, wider)] if crate in below else []
    for crate, where, name, key, wider in found:
        kept = [at for at in stated[key] if at[0] != crate or at < (crate, where, name)]
        kept = [at[1:] for at in sum((stated.get(each, []) for each in wider), kept) if at[0] in below[crate]]
        if kept and (where, name) not in LEFT:
            yield f'crates/{where}: {name} is {kept[0][1]} of {kept[0][0]}'


if __name__ == '__main__':
    asked(__doc__, 'checks/repeats.py')
    found = list(pairs())
    print(*found, sep='\n', end='\n' * bool(found))
    sys.exit(bool(found))
