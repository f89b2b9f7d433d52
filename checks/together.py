#!/usr/bin/env python3
"""Tries the wrong bodies of one crate together, those that the gate tries (must-fail/) and those that it leaves out \
(more-edits/): each in a function of its own, in one check of a copy that names these functions, so that a
crate's edits take a third of the time that they take one by one. \
The check must say of each edited function that goals of its own are left. An
edit whose function isn't known, of a definition or in a generic implementation, is tried alone, \
by a check of the whole copy; so is one that edits
several functions, one after another. An edit that is refused only since a proof file names what the edit took away \
shows nothing of the contract:
it is reported as STALE, and fails. Below each edit stand the goals that it leaves, which checks/clauses.py reads. \
`rt ci` tries the edits of
must-fail/ one by one, and it decides; this is for the work on a crate.

    checks/together.py CRATE [EDIT..]     these edits, or all of the crate"""
import os, pathlib, re, shutil, subprocess, sys, tempfile

from lib.checks import asked

root = os.path.dirname(os.path.dirname(os.path.realpath(__file__)))


def read(path):
    """Returns an edit: its name, and the changes, each a file, its old line and its new one."""
    changes, file, old = [], None, None
    for line in open(path, encoding='utf-8').read().split('\n'):
        word, _, text = line.partition(': ')
        if word == 'file':
            file = text
        elif word == 'old':
            old = text
        elif word == 'new':
            changes.append((file, old, text))
    return os.path.basename(path)[:-5], changes


def edited(crate, file, old):
    """Returns the function that has this line, as a check names it by its end, and its lines, or
    None where it is no function's."""
    if not file.startswith('src/'):
        return None, range(0)
    owner, name, first, space, words = None, None, 0, '', file[len('src/'):-len('.rt')].split('/')
    lines = open(f'{root}/crates/{crate}/{file}', encoding='utf-8').read().split('\n')
    for number, line in enumerate(lines, 1):
        impl = re.match(r'impl(?:<.*?>)? (?:(\w+)(?:<.*?>)? for )?(\w+)', line)
        if impl:
            owner = impl.group(2) + (impl.group(1) or '')
        elif line == '}':
            owner = None
        function = re.match(r'(\s*)(?:pub(?:\(\w+\))? )?(?:const )?(?:ghost )?fn (\w+)', line)
        if function:
            # (a method's name begins with the module of its type, wherever it stands)
            name = '::'.join(([owner] if owner else [it for it in words if it != 'lib']) + [function.group(2)])
            first, space = number, function.group(1)
        if old in line:
            return name, range(first, end_of(lines, number, space) + 1)
    return None, range(0)


def end_of(lines, number, space):
    """The line that ends the function that this line stands in, which is indented by this space."""
    for place in range(number, len(lines)):
        if lines[place] in (f'{space}}}', f'{space}{{}}'):
            return place + 1
    return len(lines)


def of_edit(crate, changes):
    """Returns the function of an edit and where it stands, or None where it edits none, or several."""
    found = [(file, *edited(crate, file, old)) for file, old, _ in changes]
    if len({(file, function) for file, function, _ in found}) != 1:
        return None, None, range(0)
    file, function, lines = found[0]
    return function, file, lines


def applied(crate, changes, texts):
    """Returns the texts with these changes too, or None where one doesn't stand once."""
    texts = dict(texts)
    for file, old, new in changes:
        text = texts.get(file) or open(f'{root}/crates/{crate}/{file}', encoding='utf-8').read()
        if text.count(old) != 1:
            return None
        texts[file] = text.replace(old, new)
    return texts


def check(crate, functions, texts, room):
    """Checks a copy with these texts. Returns the status, what it says of each function, and all that it printed."""
    to = f'{room}/crates/{crate}'
    for part in ('src', 'specs', 'proofs'):
        shutil.rmtree(f'{to}/{part}', ignore_errors=True)
        if os.path.isdir(f'{root}/crates/{crate}/{part}'):
            shutil.copytree(f'{root}/crates/{crate}/{part}', f'{to}/{part}')
    for file, text in texts.items():
        with open(f'{to}/{file}', 'w', encoding='utf-8') as out:
            out.write(text)
    only = [word for it in functions for word in ('--only', it)]
    ran = subprocess.run(['rt', 'check', '--jobs', '1', *only], cwd=to, stdin=subprocess.DEVNULL,
                         stdout=subprocess.PIPE, stderr=subprocess.STDOUT, text=True, errors='replace')
    return ran.returncode, dict(re.findall(rf'^fn {crate}::(\S+): (.*)$', ran.stdout, re.M)), ran.stdout


def is_refused(line):
    """Whether goals of the function's own are left, and not only its callee's."""
    return line.startswith('not proved') or 'did not prove' in line


# what a proof says where it names what isn't there any more
GONE = re.compile(r'has no field|is not in scope|has no `|was not admitted|expected type `Unit ')


def told_against(printed, function, file, lines):
    """What a check says against a function, or against any where none is given: the file, the text, and the whole
    line."""
    folder = f'proofs/{file[len("src/"):-len(".rt")]}/' if file and file != 'src/lib.rt' else 'proofs/'
    name = function.split('::')[-1] if function else ''
    for line in printed.split('\n'):
        place = re.match(r'(?:note: )?(?:\./)?((?:src|proofs)/[^:\s]+):(\d+):\d+: (.*)', line)
        if place and (not function or (place[1] == file and int(place[2]) in lines)
                      or (place[1].startswith(folder) and re.search(rf'[/+]{name}/', place[1]))):
            if ' error' in line or line.startswith('note: '):
                yield place[1], place[3], line


def is_stale(printed, function, file, lines):
    """Whether all that a check says against a function is that its proof names what is gone."""
    told = [bool(place.startswith('proofs/') and GONE.search(text))
            for place, text, _ in told_against(printed, function, file, lines)]
    return bool(told) and all(told)


def goals(printed, function, file, lines):
    """The lines of a check that name a goal that is left: each at its place, as checks/clauses.py reads them."""
    for place, text, line in told_against(printed, function, file, lines):
        if '`' in text and not (place.startswith('proofs/') and GONE.search(text)):
            yield line


def main():
    crate, *wanted = asked(__doc__, 'checks/together.py CRATE [EDIT..]',
                           lambda words: words and not words[0].startswith('-'))
    if not os.path.isdir(f'{root}/crates/{crate}/src'):
        print(f'there is no crate {crate}', file=sys.stderr)
        return 2
    edits = {path.stem: path for folder in ('must-fail', 'more-edits')
             for path in pathlib.Path(f'{root}/crates/{crate}/{folder}').glob('*.edit')}
    if not edits:
        print(f'{crate} has no wrong bodies')
        return 0
    unknown = [it for it in wanted if it not in edits]
    if unknown:
        print(f'{crate} has no edit {", ".join(unknown)}', file=sys.stderr)
        return 2
    left = [read(edits[it]) for it in sorted(edits) if not wanted or it in wanted]
    # What lies below is proved in the checkout, where it stays, and not in the copy.
    whole = subprocess.run(['rt', 'check'], cwd=f'{root}/crates/{crate}', stdin=subprocess.DEVNULL,
                           stdout=subprocess.PIPE, stderr=subprocess.STDOUT, text=True, errors='replace')
    if whole.returncode != 0:
        print(f'{whole.stdout[-2000:]}\n{crate} is not proved as it stands')
        return 1
    failed, unnamed = [], set()
    with tempfile.TemporaryDirectory(prefix='kds-edits-') as room:
        # Proved libraries come along by links; a check writes files anew and never into one.
        subprocess.run(['cp', '-al', f'{root}/crates', f'{room}/crates'], check=True)
        for file in ('crates.txt', 'HANDLES'):
            shutil.copy(f'{root}/{file}', room)
        os.mkdir(f'{room}/.git')
        alone = False
        while left:
            texts, batch = {}, []
            for name, changes in left:
                function, file, lines = (None, None, range(0)) if name in unnamed else of_edit(crate, changes)
                if batch and (alone or function is None or batch[0][1] is None or function in [it[1] for it in batch]):
                    continue
                more = applied(crate, changes, texts)
                if more is not None:
                    texts, batch = more, [*batch, (name, function, file, lines)]
            if not batch:
                failed.append(f'{left[0][0]}: it cannot be applied')
                left = left[1:]
                continue
            status, said, printed = check(crate, [it[1] for it in batch if it[1]], texts, room)
            missing = re.search(r'has no function `([^`]+)`', printed)
            if missing:
                unnamed |= {it[0] for it in batch if it[1] == missing.group(1)}
                continue
            done = []
            for name, function, file, lines in batch:
                line = next((text for path, text in said.items() if function
                             and (path == function or path.endswith('::' + function))), '')
                if is_refused(line) or (function is None and status != 0 and 'not proved' in printed):
                    if is_stale(printed, function, file, lines):
                        failed.append(f'{name}: STALE: only its proof names what the edit took away')
                    else:
                        print(f'{crate}/{name}: refused: {function}: {line[:300]}', flush=True)
                        for goal in goals(printed, function, file, lines):
                            print(f'{crate}/{name}: goal: {goal}', flush=True)
                    done.append(name)
                elif len(batch) == 1:
                    failed.append(f'{name}: {"NOT REFUSED" if status == 0 else "not tried"}: {line or printed[-600:]}')
                    done.append(name)
            alone = not done
            left = [it for it in left if it[0] not in done]
    print('\n'.join(failed) or f'ok: {crate}: each edit is refused')
    return 1 if failed else 0


if __name__ == "__main__":
    sys.exit(main())
