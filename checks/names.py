#!/usr/bin/env python3
"""What the documents state is so: each name, place, link and count, each output that is stored among the examples, \
the parts that
scripts make, and the lists of files for each kind of change. \
And the rules of the code hold that CONTRIBUTING.md gives in numbers. It needs
no built program. Which edit of the gate breaks which clause stands in checks/refusals.txt. `checks/clauses.py --write
LOG` writes that file from a log of the gate.

    ./dev names            checks, and counts what passed and what failed
    ./dev names --write    first writes the parts that scripts make (between `<!-- begin SCRIPT -->` \
and `<!-- end -->`), the words of
                           docs/definitions.md, the counts, and the sums of the viewer's script and style"""
import ast
import base64
import functools
import hashlib
import io
import itertools
import os
import pathlib
import re
import shlex
import subprocess
import sys
import tokenize

import clauses
import defined
import idle
import reached
import remarks
import repeats
import shown
import together
import wrap
from lib.checks import ROOT, Tally, asked
from lib.drilled import drilled

PAGES = [ROOT / 'README.md', ROOT / 'CONTRIBUTING.md', ROOT / 'examples/README.md',
         *sorted((ROOT / 'docs').glob('*.md'))]
PLACE = re.compile(r'^k[a-z]+_[a-z_]+/specs(/\w+)?$')
# at the head of a line; or below a module with parameters, where a plain `pub` would be a record's field
DEFINED = re.compile(r'^(?:(?:[a-z]+ )?pub (?:record |data )?|  (?:[a-z]+ pub |pub record |pub data ))([\w◌-]+)', re.M)
FUNCTION = re.compile(r'^\s*pub fn (\w+)', re.M)
MADE = re.compile(r'(<!-- begin (\S+(?: \w+)?) -->\n)(.*?)(<!-- end -->)', re.S)
# How many lines of code and clauses, of definitions and of proofs are wider than wrap.WIDTH: imports of one name,
# attributes and texts, which can't be broken. Each number may only fall.
WIDE = {'src': 59, 'specs': 0, 'proofs': 1}
# The folders of scripts.
SCRIPTS = ('.ci', 'bench', 'build', 'checks', 'hints', 'tests', 'tools')
# Turns of phrase that have a word in the field, each with it. No page has one, and no comment of a script;
# what comments of the crates' code have is counted, and may only fall.
TURNS = {
    'out of memory': r'\bwants? of memory\b',
    'the name of the number: `size` bytes': r'\bso many\b',
    'one more of it': r'\b(?:an?|one) (?!takes|has|is|says|does|little|lot|few)[a-z]+ more\b',
    'returns ..': r'\bThe answer is\b',
    'if there is one, or the noun': r'\bwhere (?:there|it|that|this) (?:is|are|was|were) (?:one|none)\b',
    'the noun again': r'\b(?:that|which) (?:is|are) (?:one|none)\b(?! of\b)',
    'applies to, states': r'\b(?:is|are) said of\b',
}
# What messages and texts of help have no more: each with what to write. Comments aren't asked.
MESSAGES = {
    'after': r'(?<!clock )\bbehind\b',  # but a clock that is behind
    'not "..", or what the replay does': r'\band here (?:it|is|are)\b',
    "isn't": r'\bit is no\b',
}
SPEAKING = ('hints/slips', 'hints/line.awk', 'hints/kds.txt', 'dev', 'tools/schedule', 'tools/incident/story.py',
            'tools/dump')
TURNED = {
    'out of memory': 0,
    'the name of the number: `size` bytes': 0,
    'one more of it': 1,
    'returns ..': 1,
    'if there is one, or the noun': 0,
    'the noun again': 1,
    'applies to, states': 0,
}
# The functions that more than three crates of the product have by one name: those of Rust, those that the specification
# names, and those that ask one question at each layer. Any other name means one thing in three crates at most.
SHARED = {
    'new': 'of Rust', 'copy': 'of Rust, with an allocator', 'next': 'of Rust: what comes next', 'as_slice': 'of Rust',
    'index_of': 'the index in a sorted list', 'read': 'of a source; of a tenure', 'take': 'a lease; a line (Taker)',
    'put': 'a record; a row', 'split': 'a shard, and its range', 'apply': 'a turn (Machine)',
    'absorb': 'the answer to what next gave', 'due': 'what must come next',
    'advance': 'go on: a clock, a worker, an output',
    'is_listed': 'of a shard, at each layer', 'position': 'of a shard, at each layer',
    'shard': 'of a key, at each layer', 'lease_lines': 'laws on lines of leases',
}
# the most lines of a function, its contract included, each clause counted as one
LINES = 44
# The words of each page that its reader needs. A page may exceed them by a tenth, and all of them together TOTAL.
WORDS = {
    'README.md': 1_200,
    'CONTRIBUTING.md': 3_450,
    'CHANGELOG.md': 500,
    'docs/DECISIONS.md': 6_300,
    'docs/architecture.md': 2_250,
    'docs/calling.md': 1_800,
    'docs/clients.md': 2_400,
    'docs/crates.md': 3_550,
    'docs/definitions.md': 8_500,
    'docs/differences.md': 3_450,
    'docs/formats.md': 4_700,
    'docs/gate.md': 850,
    'docs/glossary.md': 1_500,
    'docs/incidents.md': 2_700,
    'docs/leases.md': 1_500,
    'docs/performance.md': 3_900,
    'docs/proved.md': 4_450,
    'docs/reading-list.md': 2_000,
    'docs/recording.md': 650,
    'docs/workers.md': 1_500,
    'docs/wrong-bodies.md': 2_350,
    'examples/README.md': 700,
}
TOTAL = 64_000
# The words that comments of definitions and proofs may have, and how many of these comments have more than
# one line. The number may only fall.
REMARKS, LONG_REMARKS = 63_000, 13
# How often pages other than these explain a word of the glossary. The number may only fall.
EXPLAINING, EXPLAINED = {'README.md', 'docs/glossary.md', 'docs/leases.md'}, 2
# Facts that have one home: no more than two pages tell each.
FACTS = {
    'when idle connections are closed': r'10 seconds[^.|]*(?:2\.2|2 to 3)\b|\b2\.2 seconds',
    'the bytes of a record': r'10,485,760',
    'how long a build takes': r'15\s+to\s+60\s+minutes',
    'what the quick program is': r'run-time\s+checks?\b',
}
# A page tells nothing of how it, or the program, was before.
HISTORY = re.compile(r'\b(?:[Ee]arlier (?:versions?|forms?) of|[Ii]n an earlier form|'
                     r'(?:[Bb]efore|[Ss]ince) (?:this|that) (?:decision|gate|change)|'
                     r'(?:was|were|is|are) replaced by|used to be|not any longer|[Aa]t first,? (?:there|it|the))\b')
# The widest line of a page's prose, tables and blocks aside. A terminal of 80 columns breaks no word of README.
COLUMNS, COLUMNS_OF_README = 100, 80
# the kinds of change whose files CONTRIBUTING.md lists, each in a section of its own with the search that finds them
KINDS = ['A command', 'An entry of the journal', 'A state of a stream', 'A refusal', 'A changed refusal',
         'A reply with a body', 'A command that only reads', 'Add a kind of schedule line']
SEARCH = re.compile(r"^    git grep -lwE '([^']+)' -- 'crates/k\*\.rt' 'crates/k\*\.antt'$", re.M)
# words that are no name of this repository: of the toolchain, of Rust, of Kinesis and of other clients
FOREIGN = set('''
AWS_ENDPOINT_URL AWS_ENDPOINT_URL_KINESIS AWS_CBOR_DISABLE MaxRecordSizeInKiB StreamId Authorization Builder
EndpointConfiguration endpointOverride endpoint_url WAITING_ON_PARENT_SHARDS LEASE_LOST ZOMBIE Do
EndpointConnectionError HTTPClient https maxSockets Deserializer from_value NoRegionError NoCredentialsError
'''.split())


def defined_in(files):
    return {name for file in files for name in DEFINED.findall(file.read_text())}


def files_of(place):
    """`kds_base/specs/Hashes` is a file, `kds_base/specs` a folder."""
    path = ROOT / 'crates' / place
    return list(path.glob('*.antt')) if path.is_dir() else [path.with_suffix('.antt')]


# ---- docs/definitions.md: each name stands in the file below whose place it is

def rows(text):
    for line in text.splitlines():
        if line.startswith('| `'):
            yield [cell.strip() for cell in line.strip('|').split('|')]


def places_of(cell):
    """The places of a row. A second one may be named by its file alone."""
    found = []
    for name in re.findall(r'`([^`]+)`', cell):
        if PLACE.match(name):
            found.append(name)
        elif found and re.match(r'^\w+$', name):
            found.append(found[0].rsplit('/', 1)[0] + '/' + name)
    return found


def check_definitions(tally):
    everywhere = defined_in(ROOT.glob('crates/*/specs/*.antt'))
    laws = {name for file in ROOT.glob('crates/*/src/*.rt') for name in FUNCTION.findall(file.read_text())}
    for named, below in defined.listed((ROOT / 'docs/definitions.md').read_text()):
        places = places_of(named)
        missing = [place for place in places if not all(file.exists() for file in files_of(place))]
        known = everywhere | laws if not places or missing else defined_in(f for p in places for f in files_of(p))
        for name in (name for names, _ in below for name in names):
            tally.holds(name in known and not missing,
                        f'docs/definitions.md: {name} is not in {", ".join(places) or "the crates"}')


# ---- names, places and links of every page

def sources():
    """What has names: everything but the documents and what is built."""
    for folder in ('crates', 'bench', 'build', 'checks', 'examples', 'hints', 'tests', 'tools', '.ci', '.githooks'):
        for place, below, files in os.walk(ROOT / folder):
            below[:] = [name for name in below if name not in ('out', '__pycache__')]
            yield from (pathlib.Path(place) / name for name in files)
    yield from (ROOT / name for name in ('kds', 'dev', 'crates.txt', 'HANDLES'))


def words():
    found = set(FOREIGN)
    for path in sources():
        found.update(re.findall(r'\w+', path.read_text(errors='ignore')))
        found.update(re.findall(r'\w+', path.stem))
    return found


def prose(text):
    """A page without its fenced and indented blocks, and without what scripts make, which is checked as it is made."""
    text = MADE.sub('', text)
    text = re.sub(r'^```.*?^```', '', text, flags=re.S | re.M)
    # an indented line after another line goes on with it
    return re.sub(r'(?<=\n\n)(?:    .*\n)+', '', text)


def is_path(name):
    return '/' in name and re.match(r'^[\w./*-]+$', name) and name != '/'


def stands(name, page):
    """Whether a path, a place of specs, an edit or a glob is there."""
    if '/out/' in f'/{name}':
        return True  # what is built
    if re.match(r'^(src|specs|proofs|must-fail|more-edits)/', name):
        return any(any(ROOT.glob(f'crates/*/{name}{suffix}')) for suffix in ('', '.antt'))  # of some crate
    if '*' in name:
        return any(ROOT.glob(name))
    crate, _, rest = name.partition('/')
    edits = [ROOT / 'crates' / crate / folder / f'{rest}.edit' for folder in ('must-fail', 'more-edits')]
    return any(path.exists() for path in (ROOT / name, page.parent / name, ROOT / 'crates' / name, *edits,
                                          ROOT / 'crates' / f'{name}.antt', ROOT / 'crates' / f'{name}.rt'))


def of_crate(name, known):
    """`crate::function`, `Type::function`: with a crate before it the last part is a word of that crate's own files."""
    parts = name.removesuffix('()').split('::')
    crate = ROOT / 'crates' / parts[0]
    if len(parts) > 1 and crate.is_dir():
        own = {word for folder in ('src', 'specs') for path in (crate / folder).glob('*.*')
               for word in re.findall(r'\w+', path.read_text())}
        return all(part in own for part in parts[1:])
    return all(part in known for part in parts)


def check_names(tally, page, known):
    where = page.relative_to(ROOT)
    text = prose(page.read_text())
    for name in sorted(set(re.findall(r'`([^`\n]+)`', text))):
        name = name.removeprefix('./')
        if re.search(r'[A-Z]{2,}', name) and '/' in name:
            continue  # a form, as crates/NAME/must-fail
        if is_path(name) and not re.match(r'^\d|^application/|^1/|^arn', name):
            tally.holds(stands(name, page), f'{where}: there is no {name}')
        elif re.match(r'^[A-Za-z_]\w*(::\w+)*(\(\))?$', name):
            tally.holds(of_crate(name, known), f'{where}: nothing is named {name}')
    for target in re.findall(r'\]\(([^)#\s]+)\)', text):
        if '://' not in target:
            tally.holds((page.parent / target).exists(), f'{where}: there is no {target}')


def check_listed(tally):
    """README names each page, so that none is lost."""
    readme = (ROOT / 'README.md').read_text()
    for page in PAGES[1:]:
        tally.holds(str(page.relative_to(ROOT)) in readme, f'README.md: it names no {page.relative_to(ROOT)}')


def check_words(tally):
    """Each page has the words that its reader needs, and all of them together no more than TOTAL."""
    pages = {str(page.relative_to(ROOT)): len(page.read_text().split()) for page in [*PAGES, ROOT / 'CHANGELOG.md']}
    for name, count in pages.items():
        tally.holds(name in WORDS, f'{name}: WORDS in checks/names.py has no number for it')
        most = WORDS.get(name, 0) * 11 // 10
        tally.holds(count <= most, f'{name}: {count:,} words, and {most:,} are allowed')
    gone = sorted(set(WORDS) - set(pages))
    tally.holds(not gone, f'WORDS in checks/names.py has pages that are gone: {gone}')
    tally.holds(sum(pages.values()) <= TOTAL, f'all pages: {sum(pages.values()):,} words, and {TOTAL:,} are allowed')


def glossary():
    """The words in the first column of the glossary's tables."""
    lines = (ROOT / 'docs/glossary.md').read_text().splitlines()
    cells = [line.split('|')[1].replace('`', '') for line in lines if line.startswith('| ')]
    found = {word.strip(' )') for cell in cells for word in re.split(r', | \(', cell)}
    return {word for word in found if re.match(r'^[a-z][a-z -]*$', word)}


def check_explained(tally):
    """A word of the glossary is explained there alone: `*word*`, or the word with what it is in parentheses."""
    words = '|'.join(sorted(map(re.escape, glossary()), key=len, reverse=True))
    forms = [rf'(?<!\*)\*(?:{words})s?\*(?!\*)', rf'\b(?:{words})s? \((?:the|a|an|one|each|every) [^)]{{12,}}\)']
    found = [f'{page.relative_to(ROOT)}: {text}' for page in PAGES if str(page.relative_to(ROOT)) not in EXPLAINING
             for form in forms for text in re.findall(form, re.sub(r'\s+', ' ', page.read_text()))]
    says = f'words of the glossary that pages explain once more: {len(found)} now, {EXPLAINED} allowed'
    tally.holds(len(found) <= EXPLAINED, f'{says}: link the glossary in place of the new ones, of {"; ".join(found)}')
    tally.holds(len(found) >= EXPLAINED, f'{says}: set EXPLAINED in checks/names.py to {len(found)}')


def check_homes(tally):
    """A fact of FACTS stands on two pages at most, and no page tells what was before."""
    for fact, form in FACTS.items():
        found = [str(page.relative_to(ROOT)) for page in PAGES if re.search(form, page.read_text())]
        tally.holds(len(found) <= 2, f'{fact}: {", ".join(found)} tell it; name its home, and link it from the others')
    for page in PAGES:
        for found in HISTORY.finditer(page.read_text()):
            at = page.read_text().count('\n', 0, found.start()) + 1
            tally.holds(False, f'{page.relative_to(ROOT)}, about line {at}: "{found[0]}": say what is so today')


def check_columns(tally, page):
    """Prose is wrapped, except for a word, such as a link, that is wider than the page."""
    most = COLUMNS_OF_README if page == ROOT / 'README.md' else COLUMNS
    for line in prose(page.read_text()).splitlines():
        if len(line) > most and not line.lstrip().startswith('|'):
            words = re.sub(r'`[^`]+`', 'code', line).strip().removeprefix('- ')
            tally.holds(' ' not in words, f'{page.relative_to(ROOT)}: wrap at {most} columns: {line[:60]}')


def check_examples(tally, page):
    """The page has each file of the examples, and no other."""
    listed = {cells[0].strip('`') + kind for cells in rows(page.read_text())
              for kind in re.findall(r'`(\.\w+)`', cells[2])}
    there = {path.name for path in page.parent.iterdir() if path != page}
    tally.holds(listed == there, f'{page.relative_to(ROOT)}: the page or the folder has what the other has not: '
                f'{sorted(listed ^ there)}')


def check_sections(tally):
    """Sections that are named: `docs/formats.md`, "Journal"; or "Journal" below, "Journal" above, of the same page."""
    for path in [*PAGES, ROOT / 'kds', ROOT / 'dev']:
        where, text = path.relative_to(ROOT), re.sub(r'\s+', ' ', path.read_text())
        named = [(ROOT / page, title)
                 for page, title in re.findall(r'`?((?:docs/)?\w+\.md)`?, ["\']([^"\']+)["\']', text)]
        named += [(path, title) for title in re.findall(r'"([^"]+)"\)?,? (?:below|above)', text)]
        for page, title in named:
            titles = re.findall(r'^#+ (.*)$', page.read_text(), re.M) if page.exists() else []
            tally.holds(title in [found.replace('`', '') for found in titles] or title in titles,
                        f'{where}: {page.name} has no section {title}')


def check_members(tally):
    """Each name that a reply's definitions write stands in docs/formats.md, and each word of a
    schedule in what explains a bad line."""
    replies = (ROOT / 'docs/formats.md').read_text().partition('\n## Replies\n')[2]
    for path in sorted(ROOT.glob('crates/kds_reply*/specs/*.antt')):
        for name in sorted(set(re.findall(r'codes "([A-Z]\w*)"', path.read_text()))):
            tally.holds(re.search(rf'\b{name}\b', replies),
                        f'docs/formats.md: its replies have no {name}, which {path.relative_to(ROOT)} writes')
    explained = (ROOT / 'hints/line.awk').read_text()
    for place in ('kcl_script/src/read.rt', 'kcl_script/src/workers.rt', 'kcl_script_fields/src/raw.rt'):
        for word in sorted(set(re.findall(r'b"([a-z]+)"', (ROOT / 'crates' / place).read_text()))):
            tally.holds(re.search(rf'\b{word}\b', explained),
                        f'hints/line.awk: it has no {word}, which crates/{place} reads')


def check_calling(tally, page):
    """The page shows each function of its crate; each but `request` is one that the gate proves and runs; and the
    proof is the same but for its place."""
    text = page.read_text()
    for name, found in shown.functions(shown.CRATE).items():
        tally.holds(f'<!-- begin checks/shown.py {name} -->' in text,
                    f'{page.relative_to(ROOT)}: it does not show {name} of docs/calling')
        tally.holds(name == 'request' or found[0] in shown.of_tests(name),
                    f'docs/calling: {name} is not the function of the crates of tests')
    proof = ROOT / 'crates/test_workers/proofs/handoffs/a_lease_is_handed_off/Invariants.antt'
    moved = proof.read_text().replace('Rattle.test_workers.proofs.handoffs.', 'Rattle.mine.proofs.')
    tally.holds(moved == shown.PROOF.read_text(), f'docs/calling: its proof is not {proof.relative_to(ROOT)}')


# ---- outputs that are stored

def filtered(text, commands):
    """What `head -n N` and `tail -n N` leave."""
    lines = text.splitlines()
    for name, _, count in commands:
        lines = lines[:int(count)] if name == 'head' else lines[-int(count):]
    return lines


def output_of(command):
    """The text that a command `./kds ..` of a page writes: what is stored among the examples, or what a plain reading
    gives. None where there is neither, and '' where nothing is to be compared."""
    stored = {'replay': '.out', 'replay --journal': '.journal', 'audit': '.audit'}
    drill = re.match(r'^drill (\d+) \d+ (\d+)$', command)
    if drill:
        return drilled(int(drill[1]), int(drill[2]))
    if command == 'answer < examples/requests.http':
        return (ROOT / 'examples' / 'responses.http').read_text()
    found = re.match(r'^(replay|replay --journal|audit) < (examples/[\w-]+)\.\w+$', command)
    if not found:
        return ''
    path = ROOT / (found[2] + stored[found[1]])
    return path.read_text() if path.exists() else None


def twice():
    """How often records are delivered twice, by the name of an example: the counts that
    `tests/program.sh` compares with the program's."""
    line = re.search(r'^for name in ((?:[\w-]+:\d+ ?)+); do\n.*--journal',
                     (ROOT / 'tests' / 'program.sh').read_text(), re.M)
    return dict(word.split(':') for word in line[1].split())


def named_lines(line):
    """What a line of a page writes that makes, or reads, the files of the incident, which are stored."""
    if line == '$ tools/schedule --to answer examples/incident-session.txt examples/incident-story.txt':
        made_of = (ROOT / f'examples/incident.{kind}' for kind in ('txt', 'journal'))
        lines, entries = (len(path.read_text().splitlines()) for path in made_of)
        return [f'answer: {lines} lines, {entries - 2} entries; drop its files on tools/journal.html, or call '
                'awk -f tools/held.awk answer/names.txt answer/incident.journal']
    found = re.match(r'^\$ (awk -f tools/[\w-]+\.awk) answer/names\.txt answer/incident\.journal'
                     r'( \| sed -n \'[\dp;]+\')?$', line)
    if not found:
        return None
    command = f'{found[1]} examples/incident.names examples/incident.journal{found[2] or ""}'
    done = subprocess.run(['bash', '-c', command], cwd=ROOT, stdout=subprocess.PIPE, text=True, check=True)
    return done.stdout.splitlines()


def check_outputs(tally, page):
    """Each command `./kds ..` of a page shows its stored output, and one that reads an example has one."""
    where = page.relative_to(ROOT)
    blocks = re.findall(r'((?:^    .*\n|^\n(?=    ))+)', page.read_text(), flags=re.M)
    for name in sorted(set(re.findall(r'\b(?:examples|bench|checks|tests|tools|docs)/[\w./-]*\w', ''.join(blocks)))):
        tally.holds((ROOT / name).exists(), f'{where}: there is no {name}')
    for block in blocks:
        lines = [line[4:].rstrip() for line in block.splitlines()]
        starts = [at for at, line in enumerate(lines) if line.startswith('$ ')] + [len(lines)]
        for at, end in itertools.pairwise(starts):
            shown = [line for line in lines[at + 1:end] if line]
            counted = re.match(r'^\$ \./kds replay --journal < examples/([\w-]+)\.txt '
                               r'\| awk -f tools/delivered-twice\.awk$', lines[at])
            if counted:
                told = (ROOT / 'examples' / f'{counted[1]}.twice').read_text().splitlines()
                tally.holds(shown == told and told[-1] == twice().get(counted[1]),
                            f'{where}: {lines[at][2:]} writes something else')
            dumped = re.match(r'^\$ tools/dump (?:examples/\S+ )?examples/([\w-]+)\.\w+$', lines[at])
            if dumped:
                told = (ROOT / 'examples' / f'{dumped[1]}.out').read_text().splitlines()
                tally.holds(shown == [line for line in told if line], f'{where}: {lines[at][2:]} writes something else')
            told = named_lines(lines[at])
            tally.holds(not shown or told in (None, shown), f'{where}: {lines[at][2:]} writes something else')
            found = re.match(r'^\$ \./kds ([^|&]+?)((?: \| (?:head|tail) -n \d+)*)$', lines[at])
            if not found or not shown:
                continue
            text = output_of(found[1])
            tally.holds(text is not None, f'{where}: {lines[at][2:]} has no stored output')
            if text:
                commands = [shlex.split(part) for part in found[2].split(' | ') if part]
                tally.holds([line for line in filtered(text, commands) if line] == shown,
                            f'{where}: {lines[at][2:]} writes something else')


def check_steps(tally, page):
    """Each step `COMMAND = ANSWER` of the page on workers is one of an example's output, and so is each line of
    its blocks that show no command."""
    examples = {line.strip() for path in (ROOT / 'examples').glob('*.*')
                for line in path.read_text(errors='replace').splitlines()}
    text = page.read_text()
    steps = re.findall(r'`([a-z]+ [^`]* = [^`]*|survey = [^`]*)`', text)
    blocks = re.findall(r'((?:^    .*\n)+)', text, re.M)
    shown = [line.strip() for block in blocks if not block.startswith('    $ ') for line in block.splitlines()]
    for step in steps + [line for line in shown if line != '..']:
        tally.holds(any(line.startswith(step) for line in examples),
                    f'{page.relative_to(ROOT)}: no example has the line {step}')


def check_differences(tally):
    """Each row of docs/differences.md has a case that `tools/differences` runs, or a reason why not."""
    from differing import catalogue, page
    faults = list(page.faults(catalogue.scenes()))
    for fault in faults:
        tally.holds(False, fault)
    tally.holds(not faults, 'docs/differences.md and its cases')


def check_decisions(tally, page):
    """The table of subjects names each decision once, and other pages cite decisions that are there."""
    text = page.read_text()
    listed = [int(n) for cell in re.findall(r'^\| [A-Z][^|]*\| ([\d, ]+) \|$', text, re.M) for n in cell.split(', ')]
    numbered = [int(n) for n in re.findall(r'^(\d+)\. \*\*', text, re.M)]
    tally.holds(sorted(listed) == numbered,
                f'{page.relative_to(ROOT)}: by subject or by number: {sorted(set(listed) ^ set(numbered))}')
    decided = {number: ' '.join(said.split())
               for number, said in re.findall(r'^(\d+)\. (.*?)(?=^\d+\. |\Z)', text, re.S | re.M)}
    later = {(old, new) for old, decision in decided.items() for new in re.findall(r'\bsee (\d+)\)', decision)}
    earlier = {(old, new) for new, decision in decided.items()
               for said in re.findall(r'\(Goes on from ([^)]*)\.\)', decision) for old in re.findall(r'\d+', said)}
    tally.holds(later == earlier,
                f'{page.relative_to(ROOT)}: "(see N)" at a decision and "(Goes on from N.)" at the later one: '
                f'{sorted(later ^ earlier)}')
    citing = {str(other.relative_to(ROOT)): other.read_text() for other in PAGES}
    citing |= {name: '\n'.join(lines) for name, lines in product().items()}
    for name, words in citing.items():
        for number in re.findall(r'\bdecision (\d+)', words):
            tally.holds(int(number) in numbered, f'{name}: there is no decision {number}')


def check_walks(tally, page):
    """In a table of crates and functions, each function of a row is one of a crate of this row."""
    for table in re.findall(r'^\| Crate \| Functions \|\n\|[-|]+\|\n((?:\|.*\n)+)', page.read_text(), re.M):
        for crates, functions in rows(table):
            code = ''.join(path.read_text() for name in re.findall(r'`(\w+)`', crates)
                           for path in sorted((ROOT / 'crates' / name / 'src').rglob('*.rt')))
            for name in re.findall(r'`([\w:]+)`', functions):
                stands = re.search(rf'\bfn {name.rsplit("::", 1)[-1]}\b', code)
                tally.holds(stands, f'{page.relative_to(ROOT)}: {name} is no function of {crates}')


def check_operations(tally):
    """README and docs/formats.md have each operation in a row."""
    known = set(re.findall(r'== b"(\w+)"', (ROOT / 'crates/kds_json/src/operation.rt').read_text()))
    for page in ('README.md', 'docs/formats.md'):
        text = (ROOT / page).read_text()
        table = '\n'.join(re.findall(r'^\| ([A-Z][\w, ]*) \|', text, re.M))
        for name in sorted(known):
            tally.holds(name in re.findall(r'\w+', table), f'{page}: no row has the operation {name}')


# ---- the lists of CONTRIBUTING.md: which files each kind of change touches

@functools.cache
def product():
    """The code, definitions and proofs of all crates but those of tests: each file's place and its lines."""
    named = ((str(path.relative_to(ROOT)), path) for path in sources() if path.suffix in ('.rt', '.antt'))
    return {name: path.read_text().splitlines() for name, path in named if not name.startswith('crates/test_')}


def found_by(pattern):
    """The files that `git grep -lwE` finds."""
    word = re.compile(rf'(?<!\w)(?:{pattern})(?!\w)')
    return {name for name, lines in product().items() if any(word.search(line) for line in lines)}


def listed_in(section):
    """The files of the first column. A name without a folder is in that of the name before it;
    `.rt` is code, the others are .antt."""
    found, folder = set(), ''
    for row in rows(section):
        for name in re.findall(r'`([^`]+)`', row[0]):
            folder, last = name.rsplit('/', 1) if '/' in name else (folder, name)
            found.add(f'crates/{folder}/{last}' + ('' if last.endswith('.rt') else '.antt'))
    return found


def check_recipes(tally, page):
    """The list of each kind of change names exactly the files that its search finds."""
    where = page.relative_to(ROOT)
    sections = dict(re.findall(r'^##+ (.*?)\n(.*?)(?=^#|\Z)', page.read_text(), re.S | re.M))
    for kind in KINDS:
        search = SEARCH.findall(sections.get(kind, ''))
        tally.holds(len(search) == 1, f'{where}: there is no section "{kind}" with one search')
        if len(search) != 1:
            continue
        found, listed = found_by(search[0]), listed_in(sections[kind])
        for name in sorted(found | listed):
            tally.holds(name in listed, f'{where}, "{kind}": the list leaves out {name}')
            tally.holds(name in found, f'{where}, "{kind}": the list has {name}, which the search does not find')


# ---- the rules of the code

LITERAL = re.compile(r'"(?:\\.|[^"\\])*"|\'(?:\\.|[^\'\\])\'|//.*')
BEGINS = re.compile(r'^(\s*)(?:pub(?:\(\w+\))? )?(?:const |unsafe )*fn (\w+)')
PUBLIC = re.compile(r'^\s*pub (?:const |unsafe )*(?:fn|struct|enum|trait|const|static|type) \w+')


def opened(line):
    """How many braces a line opens and doesn't close."""
    bare = LITERAL.sub('', line)
    return bare.count('{') - bare.count('}')


def end_of(lines, start, margin):
    """The line on which the function ends that begins at `start`; None where it has no body, as a method of a trait."""
    depth = 0
    for at in range(start, len(lines)):
        depth += opened(lines[at])
        if depth == 0 and lines[at].endswith(';'):
            return None
        if depth == 0 and (lines[at].startswith((margin + '}', margin + '{}'))
                           or (at == start and lines[at].endswith('}'))):
            return at
    return len(lines) - 1


def clause_lines(lines):
    """The lines that go on with a clause: those after its first one, up to where its braces close."""
    depth, found = 0, set()
    for at, line in enumerate(lines):
        if depth > 0:
            found.add(at)
        elif not re.match(r'^\s*(requires|ensures|ghost|invariant)\b', line):
            continue
        depth += opened(line)
    return found


def check_lengths(tally, where, lines):
    """No function has more than LINES lines, its contract included, each clause counted as one."""
    going_on = clause_lines(lines)
    for start, line in enumerate(lines):
        begins = BEGINS.match(line)
        end = end_of(lines, start, begins[1]) if begins else None
        if end is not None:
            count = len(set(range(start, end + 1)) - going_on)
            tally.holds(count <= LINES,
                        f'{where}:{start + 1}: {begins[2]} has {count} lines, contract included; {LINES} are allowed')


def is_told(lines, at):
    """Whether a sentence stands above this line, with attributes alone between."""
    at -= 1
    while at >= 0 and not lines[at].lstrip().startswith('///') and lines[at].rstrip().endswith(']'):
        while at > 0 and not lines[at].lstrip().startswith('#['):
            at -= 1  # an attribute of several lines
        at -= 1
    return at >= 0 and lines[at].lstrip().startswith('///')


def check_sentences(tally, where, lines):
    """Each public item has a sentence."""
    for at, line in enumerate(lines):
        item = PUBLIC.match(line)
        if item:
            tally.holds(is_told(lines, at), f'{where}:{at + 1}: {item[0].strip()} has no sentence above it')


def check_rules(tally):
    for where, lines in product().items():
        if where.endswith('.rt'):
            check_lengths(tally, where, lines)
            check_sentences(tally, where, lines)


def check_shared(tally):
    """A function's name that more than three crates of the product have is one of SHARED, and SHARED has no other."""
    crates = {}
    for path in ROOT.glob('crates/k*/src/**/*.rt'):
        for name in re.findall(r'^\s*(?:pub(?:\(\w+\))? )?(?:const )?fn (\w+)', path.read_text(), re.M):
            crates.setdefault(name, set()).add(path.relative_to(ROOT / 'crates').parts[0])
    many = {name for name, found in crates.items() if len(found) > 3}
    for name in sorted(many - set(SHARED)):
        tally.holds(False, f'{len(crates[name])} crates have a function {name}: {", ".join(sorted(crates[name]))}')
    tally.holds(not set(SHARED) - many,
                f'SHARED in checks/names.py has names of three crates or fewer: {sorted(set(SHARED) - many)}')


def check_width(tally):
    """There are as many wide lines as WIDE says, and none that checks/wrap.py would break."""
    found = {part: [] for part in WIDE}
    for path in wrap.files_of([]):
        for at, line in enumerate(path.read_text().splitlines(), 1):
            if len(line) > wrap.WIDTH:
                found[path.relative_to(ROOT).parts[2]].append((f'{path.relative_to(ROOT)}:{at}', line))
                tally.holds(wrap.wrapped(line, path.suffix == '.rt') == [line],
                            f'{path.relative_to(ROOT)}:{at}: checks/wrap.py --write breaks this line')
    for part, allowed in WIDE.items():
        says = f'lines of {part} above {wrap.WIDTH} characters: {len(found[part])} now, {allowed} allowed'
        tally.holds(len(found[part]) <= allowed, f'{says}: break the new ones')
        tally.holds(len(found[part]) >= allowed,
                    f'{says}: set WIDE in checks/names.py to {len(found[part])}, so that it can only fall')


def scripts():
    """The scripts by their places, in each of their languages, and the files that they read."""
    for path in sources():
        name = str(path.relative_to(ROOT))
        if name in ('kds', 'dev') or name.split('/')[0] in SCRIPTS:
            yield name, path


def check_width_of_scripts(tally):
    """No line of a script is wide."""
    for name, path in scripts():
        found = [at for at, line in enumerate(path.read_text().split('\n'), 1) if len(line) > wrap.WIDTH]
        if name != 'checks/refusals.txt':  # checks/clauses.py makes it
            tally.holds(not found, f'{name}: lines above {wrap.WIDTH} characters: {", ".join(map(str, found))}')


def check_remarks(tally):
    """Comments are few and of one line, arguments have names, and no variable is a function word."""
    words, long = remarks.counted()
    tally.holds(words <= REMARKS,
                f'comments of definitions and proofs have {words:,} words, and {REMARKS:,} are allowed')
    says = f'comments of more than one line: {long} now, {LONG_REMARKS} allowed'
    tally.holds(long <= LONG_REMARKS, f'{says}: say it in one')
    tally.holds(long >= LONG_REMARKS,
                f'{says}: set LONG_REMARKS in checks/names.py to {long}, so that it can only fall')
    for where in remarks.nameless():
        tally.holds(False, f'{where}: name each argument in the type')
    for where in remarks.function_words():
        tally.holds(False, f'{where}: variables that are function words')


def check_idle(tally):
    """No proof lists what omega reads anyway, and no lemma or definition is named by nothing."""
    for where, entries in idle.idle_entries():
        tally.holds(False, f'{where}: omega reads these variables without being given them: {", ".join(entries)}')
    for where, name in idle.unnamed():
        tally.holds(False, f'{where}: nothing names {name}')


def check_repeats(tally):
    """No lemma is stated twice."""
    found = list(repeats.pairs())
    tally.holds(not found, f'no lemma is stated twice, but {"; ".join(found)}')


def check_edits(tally):
    """Each text that an edit replaces stands once in its file."""
    for folder in ('must-fail', 'more-edits'):
        for path in sorted(ROOT.glob(f'crates/*/{folder}/*.edit')):
            _, changes = together.read(path)
            stands = changes and together.applied(path.parts[-3], changes, {}) is not None
            tally.holds(stands, f'{path.relative_to(ROOT)}: what it replaces does not stand once in its file')


def check_messages(tally):
    """What users read of the scripts has no turn of MESSAGES: all but comments and what a function says of itself."""
    for name in SPEAKING:
        text = (ROOT / name).read_text()
        if name.startswith('tools/'):
            text = re.sub(r'^ +"""[^"]*"""', '', text, flags=re.M)
        said = '\n'.join(line for line in text.splitlines() if not line.lstrip().startswith('#'))
        for better, turn in MESSAGES.items():
            found = re.search(rf'.*{turn}.*', said)
            tally.holds(not found, f'{name}: "{found and found[0].strip()[:80]}"; write: {better}')


def said_in(path):
    """The comments of a script, and what its functions say of themselves, each with the number of its line."""
    text = path.read_text()
    if path.suffix in ('.c', '.h'):
        for found in re.finditer(r'/\*.*?\*/', text, re.S):
            yield text.count('\n', 0, found.start()) + 1, found[0]
    elif path.suffix == '.py' or text.startswith('#!/usr/bin/env python3\n'):
        for token in tokenize.generate_tokens(io.StringIO(text).readline):
            if token.type == tokenize.COMMENT:
                yield token.start[0], token.string
        for node in ast.walk(ast.parse(text)):
            if isinstance(node, (ast.Module, ast.ClassDef, ast.FunctionDef)) and ast.get_docstring(node, clean=False):
                yield node.body[0].lineno, ast.get_docstring(node, clean=False)
    else:
        for at, line in enumerate(text.split('\n'), 1):
            for found in re.findall(r'(?:^|\s)# .*', line):
                yield at, found


def check_turns_of_scripts(tally):
    """No comment of a script has a turn of phrase of TURNS."""
    for name, path in scripts():
        if name == 'checks/refusals.txt':
            continue
        for at, said in said_in(path):
            for better, turn in TURNS.items():
                for found in re.finditer(turn, said):
                    line = at + said.count('\n', 0, found.start())
                    tally.holds(False, f'{name}:{line}: "{found[0]}"; write: {better}')


def check_turns(tally):
    """No page has a turn of phrase of TURNS, and comments of the code have as many as TURNED says."""
    pages = [*PAGES, ROOT / 'CHANGELOG.md', ROOT / 'kds', ROOT / 'dev',
             *sorted((ROOT / 'build').iterdir()), *sorted((ROOT / 'hints').iterdir())]
    comments = [line.partition('//')[2] for path in ROOT.glob('crates/*/src/**/*.rt')
                for line in path.read_text().splitlines() if '//' in line]
    for better, turn in TURNS.items():
        for page in pages:
            text = MADE.sub('', page.read_text()) if page.suffix == '.md' else page.read_text()
            for found in re.finditer(turn, text):
                at = text.count('\n', 0, found.start()) + 1
                tally.holds(False, f'{page.relative_to(ROOT)}, about line {at}: "{found[0]}"; write: {better}')
        now, allowed = sum(len(re.findall(turn, line)) for line in comments), TURNED[better]
        says = f'comments of the code with {turn} (write: {better}): {now} now, {allowed} allowed'
        tally.holds(now <= allowed, f'{says}: reword the new ones')
        tally.holds(now >= allowed, f'{says}: set TURNED in checks/names.py to {now}, so that it can only fall')


# ---- counts

def counts():
    """What is counted: its name to its number."""
    edits = list(ROOT.glob('crates/*/must-fail/*.edit'))
    bodies = edits + list(ROOT.glob('crates/*/more-edits/*.edit'))
    listed = subprocess.run([ROOT / 'checks' / 'crates.py', '--count'], stdout=subprocess.PIPE, text=True,
                            check=True).stdout.split()
    # a folder may be left where the edits of a crate went
    of_one = [count for count in (len(list(folder.glob('*.edit'))) for folder in ROOT.glob('crates/*/must-fail'))
              if count]
    operation = (ROOT / 'crates/kds_json/src/operation.rt').read_text()
    operations = re.search(r'pub enum Operation \{(.*?)\n\}', operation, re.S)[1]
    table = '\n'.join(reached.table())
    definitions, lines = re.search(r'(\d+) definitions in \d+ files, (\d+) lines', table).groups()
    ends = ('crates/kds_cli/src/main.rt', 'crates/kds_cli_runs/src/host.rt')
    return {
        'crates': int(listed[0]), 'program': int(listed[1]), 'edits': len(edits), 'bodies': len(bodies),
        'edited': len(of_one), 'least': min(of_one), 'most': max(of_one),
        'operations': len(re.findall(r'^    (\w+),', operations, re.M)),
        'definitions': int(definitions), 'definition_lines': int(lines),
        'clauses': len(re.findall(r'\bensures ', reached.contract())),
        'end_lines': sum(len((ROOT / path).read_text().splitlines()) for path in ends),
    }


# a page, a sentence of it, and what each of its numbers counts
CLAIMS = [
    ('README.md', r'(\d+) of the (\d+) crates', ('program', 'crates')),
    ('README.md', r'(\d+) wrong bodies', ('bodies',)),
    ('README.md', r'the gate tries (\d+) of them', ('edits',)),
    ('docs/proved.md', r'has (\d+) small edits in (\d+) crates', ('edits', 'edited')),
    ('docs/proved.md', r'A crate has (\d+) to (\d+)\.', ('least', 'most')),
    ('docs/proved.md', r'all ([\d,]+) definitions \(([\d,]+) lines\)', ('definitions', 'definition_lines')),
    ('docs/proved.md', r'the (\d+) clauses of `run`, the (\d+) lines', ('clauses', 'end_lines')),
    ('docs/proved.md', r'(\d+) lines that hand the real', ('end_lines',)),
    ('docs/gate.md', r'there are (\d+) crates and (\d+) edits', ('crates', 'edits')),
    ('docs/wrong-bodies.md', r'The gate tries (\d+) of them', ('edits',)),
    ('docs/gate.md', r'proved the (\d+) crates of the program', ('program',)),
    ('docs/crates.md', r'There are (\d+) crates; the program stands on (\d+)', ('crates', 'program')),
    ('README.md', r'That is (\d+) operations', ('operations',)),
    ('CONTRIBUTING.md', r'a crate has (\d+) to (\d+) edits', ('least', 'most')),
]


def check_counts(tally, write):
    numbers = counts()
    for page, sentence, names in CLAIMS:
        text = (ROOT / page).read_text()
        found = re.search(sentence.replace(' ', r'\s+'), text)  # a line may end anywhere
        if not found:
            tally.holds(False, f'{page}: nothing reads "{sentence}"')
            continue
        new = text
        for place, name in reversed(list(enumerate(names, 1))):
            same = int(found[place].replace(',', '')) == numbers[name]
            tally.holds(same or write, f'{page}: {found[0]}: {name} are {numbers[name]}')
            new = new[:found.start(place)] + f'{numbers[name]:,}' + new[found.end(place):]
        if write and new != text:
            (ROOT / page).write_text(new)
            print(f'written: {page}')


# ---- what scripts make

def made(page, write, tally):
    text = page.read_text()

    def part(found):
        script, *rest = found[2].split()
        wanted = subprocess.run([ROOT / script, *rest], stdout=subprocess.PIPE, text=True, check=True).stdout
        same = found[3].strip() == wanted.strip()
        tally.holds(same or write,
                    f'{page.relative_to(ROOT)}: the part by {found[2]} is another; run ./dev names --write')
        return f'{found[1]}\n{wanted}\n{found[4]}' if write and not same else found[0]

    new = MADE.sub(part, text)
    if write and new != text:
        page.write_text(new)
        print(f'written: {page.relative_to(ROOT)}')


def check_policy(tally, page, write):
    """The page lets run only the script, and count only the style, whose sums its policy has: they are its own."""
    text = page.read_text()
    for name in ('script', 'style'):
        parts = re.findall(rf'<{name}>(.*?)</{name}>', text, re.S)
        sums = [base64.b64encode(hashlib.sha256(part.encode()).digest()).decode() for part in parts]
        wanted = f"{name}-src 'sha256-{sums[0]}'" if len(sums) == 1 else None
        found = re.findall(rf"{name}-src '[^;]*", text)
        if write and wanted and len(found) == 1:
            text = text.replace(found[0], wanted)
        else:
            tally.holds(found == [wanted],
                        f'{page.relative_to(ROOT)}: the policy has {found}, and the one {name} has {wanted}; '
                        f'run ./dev names --write')
    sinks = re.findall(r'innerHTML|outerHTML|insertAdjacentHTML|document\.write|DOMParser|srcdoc|'
                       r'createContextualFragment|\beval\b|unsafe-', text)
    tally.holds(not sinks,
                f'{page.relative_to(ROOT)}: words of a file come into the page as text alone, and there is {sinks}')
    if write and text != page.read_text():
        page.write_text(text)
        print(f'written: {page.relative_to(ROOT)}')


def main():
    write = asked(__doc__, './dev names [--write]', lambda words: words in ([], ['--write'])) != []
    tally = Tally()
    tally.holds(subprocess.run([ROOT / 'checks' / 'crates.py', '--check']).returncode == 0,
                'crates.txt and docs/crates.md by docs/crates.list')
    known = words()
    defined.check(tally, write)
    check_definitions(tally)
    for page in PAGES:
        made(page, write, tally)
        check_names(tally, page, known)
        check_outputs(tally, page)
        if page.name != 'crates.md':  # ./dev crates makes it
            check_columns(tally, page)
    check_listed(tally)
    check_words(tally)
    check_explained(tally)
    check_homes(tally)
    check_calling(tally, ROOT / 'docs/calling.md')
    check_examples(tally, ROOT / 'examples/README.md')
    check_sections(tally)
    check_members(tally)
    check_steps(tally, ROOT / 'docs' / 'workers.md')
    check_operations(tally)
    check_walks(tally, ROOT / 'docs' / 'architecture.md')
    check_recipes(tally, ROOT / 'CONTRIBUTING.md')
    check_differences(tally)
    check_decisions(tally, ROOT / 'docs' / 'DECISIONS.md')
    check_counts(tally, write)
    check_policy(tally, ROOT / 'tools' / 'journal.html', write)
    check_rules(tally)
    check_width(tally)
    check_width_of_scripts(tally)
    check_edits(tally)
    check_idle(tally)
    check_remarks(tally)
    check_repeats(tally)
    check_turns(tally)
    check_turns_of_scripts(tally)
    check_messages(tally)
    check_shared(tally)
    clauses.check(tally)
    return tally.end()


if __name__ == '__main__':
    sys.exit(main())
