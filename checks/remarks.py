#!/usr/bin/env python3
"""\
Comments, arguments and variables of the definitions and proofs: how many words the comments have, which have more than
one line, which definitions leave an argument without a name, and which variables are English function words.

    checks/remarks.py"""
import re
import sys

from lib.checks import ROOT, asked

# English function words, which say nothing of what a variable stands for
FUNCTION_WORDS = ('by', 'at', 'before', 'what', 'from', 'since', 'on', 'told', 'given', 'to', 'of')
DECLARED = re.compile(r'^( *)(?:(?:abbrev|unfoldable) )(?:pub )?(\S+) :\s(.*(?:\n\1 +.*)*)', re.M)
TOKEN = re.compile(r"\"(?:[^\"\\]|\\.)*\"|[A-Za-z_][\w'-]*(?:\.\w[\w'-]*)*|[^\s]")


def files(parts=('specs', 'proofs')):
    for part in parts:
        yield from sorted(ROOT.glob(f'crates/*/{part}/**/*.antt'))


def comments(text):
    """The comments of a text, each a list of its lines."""
    found, last = [], None
    for at, line in enumerate(text.split('\n')):
        if not line.lstrip().startswith('--'):
            continue
        if last == at - 1:
            found[-1].append(line)
        else:
            found.append([line])
        last = at
    return found


def bare(text):
    return re.sub(r'^\s*--[^\n]*', '', text, flags=re.M)


def arguments(kind):
    """The parts of a type before its last arrow, brackets aside."""
    depth, parts = 0, ['']
    for sign in ' '.join(kind.split()):
        depth += (sign in '({[⟦') - (sign in ')}]⟧')
        if sign == '→' and depth == 0:
            parts.append('')
        else:
            parts[-1] += sign
    return [part.strip() for part in parts[:-1]]


def nameless():
    """Each definition with an argument that has no name in its type."""
    for path in files(['specs']):
        for _, name, kind in DECLARED.findall(bare(path.read_text())):
            if any(not re.match(r'[({][^:()]* : ', part) for part in arguments(kind)):
                yield f'{path.relative_to(ROOT)}: {name}'


def blocks(text):
    """The parts of a text that begin at the edge of the line."""
    return re.split(r'\n\n+(?=\S)', text)


def own_names(text):
    """Names that a file imports or declares: they aren't variables."""
    found = {part.split(' as ')[-1].strip() for names in re.findall(r'^(?:pub )?use .*\{(.*)\}', text, re.M)
             for part in names.split(',')}
    found |= set(re.findall(r' as (\w+)$', text, re.M))
    found |= set(re.findall(r'^(?:(?:abbrev|unfoldable|pub) )*(\w+) :', text, re.M))
    modules = [block for block in blocks(text) if re.match(r'(?:pub )?module ', block)]
    return found | {name for block in modules
                    for name in re.findall(r'^  (?:(?:abbrev|unfoldable|pub) )*(\w+) :', block, re.M)}


def variables(text):
    """The function words that a text binds or uses as variables."""
    skipped = own_names(bare(text))
    for block in blocks(bare(re.sub(r'^(?:pub )?use .*$', '', text, flags=re.M))):
        is_record = re.match(r'(?:pub )?record ', block)
        fields = {name for names in re.findall(rf"^ +{'(?:pub )?' if is_record else 'pub '}([\w' ]+) :", block, re.M)
                  for name in names.split()}
        tokens = TOKEN.findall(block)
        for at, token in enumerate(tokens):
            word = token.split('.')[0].rstrip("'")
            if word not in FUNCTION_WORDS or word in skipped | fields:
                continue
            before, after = tokens[at - 1] if at else '', tokens[at + 1] if at + 1 < len(tokens) else ''
            is_field = before in ('{', ';', '.', 'pub') and after in ('=', ':')
            is_place = word == 'at' and 'rw' in tokens[max(at - 12, 0):at]
            if not is_field and not is_place and before != '.':
                yield word


def function_words():
    """Each file with a variable that is a function word."""
    for path in files():
        found = sorted(set(variables(path.read_text())))
        if found:
            yield f'{path.relative_to(ROOT)}: {", ".join(found)}'


def counted():
    """The words of all comments, and how many comments have more than one line."""
    all_of = [lines for path in files() for lines in comments(path.read_text())]
    words = sum(len(line.lstrip().removeprefix('--').split()) for lines in all_of for line in lines)
    return words, sum(len(lines) > 1 for lines in all_of)


def main():
    asked(__doc__, 'checks/remarks.py')
    words, long = counted()
    print(f'{words:,} words of comments, {long} of more than one line')
    found = [*nameless(), *function_words()]
    print(*found, sep='\n')
    return 1 if found else 0


if __name__ == '__main__':
    sys.exit(main())
