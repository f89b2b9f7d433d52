#!/usr/bin/env python3
"""The definitions in docs/definitions.md, each with the comment above it in its file of specs/. \
The page's names and sections are by hand,
its words are made of the comments. To add a definition, write a line "- `NAME`: x" below its file on the page, \
and then write the page.

    checks/defined.py            the page as it would be with these words
    checks/defined.py apart      the names whose words on the page are other ones: the place, the name, and both
    checks/defined.py --write    writes the page with these words, as ./dev names --write does"""
import re
import textwrap

from lib.checks import ROOT, Tally, asked

PAGE = ROOT / 'docs' / 'definitions.md'
# A line with a place, or with two of which the second is named by its file; and one with names and their words.
PLACES = re.compile(r'^`k\w+/specs(?:/\w+)?`(?:, `[\w/]+`)*$')
ITEM = re.compile(r'^- ((?:`[^`]+`(?:, )?)+): (.*)$')
COLUMNS = 100


def joined(text):
    """The lines of the page, each item on one."""
    return re.sub(r'\n  (?=\S)', ' ', text).splitlines()


def listed(text):
    """The lines of places of the page, each with the names below it and their words."""
    found = []
    for line in joined(text):
        item = ITEM.match(line)
        if PLACES.match(line):
            found.append((line, []))
        elif line.startswith('#'):
            found.append((line, []))  # what a table of this section names has its place in its row
        elif item and found and PLACES.match(found[-1][0]):
            found[-1][1].append((re.findall(r'`([^`]+)`', item[1]), item[2]))
    return [(places, items) for places, items in found if PLACES.match(places)]


def files(places):
    """The files of a line of places."""
    first, *others = re.findall(r'`([^`]+)`', places)
    for place in (first, *(name if '/' in name else f'{first.rsplit("/", 1)[0]}/{name}' for name in others)):
        path = ROOT / 'crates' / place
        yield from sorted(path.glob('*.antt')) if path.is_dir() else [path.with_suffix('.antt')]


def comment(name, places):
    """The comment above a definition, as one text, or None."""
    head = re.compile(rf'^\s*(?:(?:abbrev|unfoldable|pub|record|data) )+{re.escape(name)}(?![\w◌-])')
    for path in files(places):
        lines = path.read_text().splitlines()
        at = next((at for at, line in enumerate(lines) if head.match(line)), 0)
        begin = at
        while begin > 0 and lines[begin - 1].lstrip().startswith('--'):
            begin -= 1
        if begin < at:
            return ' '.join(line.strip().removeprefix('--').strip() for line in lines[begin:at]).rstrip('.')
    return None


def items(names, words, places):
    """The items of names that stood in one with these words: an item for each text, with its names. A name
    without a comment keeps the words."""
    texts = {}
    for name in names:
        texts.setdefault(comment(name, places) or words, []).append(f'`{name}`')
    for text, said in texts.items():
        yield textwrap.fill(f'- {", ".join(said)}: {text}', COLUMNS, subsequent_indent='  ', break_long_words=False,
                            break_on_hyphens=False)


def made():
    """The page, with the comments in place of its words."""
    places, lines = '', []
    for line in joined(PAGE.read_text()):
        item = ITEM.match(line)
        if PLACES.match(line) or line.startswith('#'):
            places = line if PLACES.match(line) else ''
        lines.extend(items(re.findall(r'`([^`]+)`', item[1]), item[2], places) if item and places else [line])
    return '\n'.join(lines) + '\n'


def check(tally, write):
    """The page is the one that is made, and is written if that is asked for."""
    page, wanted = PAGE.relative_to(ROOT), made()
    same = PAGE.read_text() == wanted
    tally.holds(same or write, f'{page}: the comments above the definitions say other words; run ./dev names --write')
    if write and not same:
        PAGE.write_text(wanted)
        print(f'written: {page}')


def apart():
    for places, items in listed(PAGE.read_text()):
        for names, words in items:
            for name in names:
                above = comment(name, places)
                if above != words:
                    yield f'{places}: {name}\n    page     {words}\n    comment  {above}'


if __name__ == '__main__':
    wanted = asked(__doc__, 'checks/defined.py [apart|--write]', lambda words: words in ([], ['apart'], ['--write']))
    if wanted == ['--write']:
        check(Tally(), True)
    elif wanted:
        for found in apart():
            print(found)
    else:
        print(made(), end='')
