#!/usr/bin/env python3
"""Runs the rows of "Falsify it in an hour" (docs/proved.md) in a copy of this repository, \
by the commands of that page, and
looks at what each prints. This script makes the table and the commands of the page, so the page has no other.

    checks/falsify.py [ROW]     all rows, or the one of this number; the fifth runs the commands of the fourth first
    checks/falsify.py page      prints the part of the page"""
import collections
import os
import pathlib
import re
import shutil
import subprocess
import sys
import tempfile
import time

from lib.checks import ROOT, Tally, asked, heed_signals

# The edits, by their letters, and the command that undoes them.
EDITS = {
    'A': r"sed -i 's/is_too_much(&taken, bytes)$/is_too_much(\&taken, 0)/' crates/kds_rate/src/window.rt",
    'B': "sed -i 's/^                records: 0,/                records: self.records,/' "
         "crates/kds_rate/src/window.rt",
    'C': "sed -i '/not (is_throttled puts clock bytes)/d' crates/kds_rate/src/window.rt",
}
UNDO = 'git checkout crates'
RATE, LOGS, WRONG = './dev check kds_rate', './dev check kds_stream_logs', './dev edits kds_rate'
# What is changed and how the page says it; the edits, and whether those before are undone first; the command; what
# comes; what it took in a whole run of a fresh clone, and again on a busy machine that had checked all crates before;
# and what it must print: the function that isn't proved, or how many wrong bodies are refused.
Row = collections.namedtuple('Row', 'what edits undone command how result first again refused', defaults=(None,))
ROWS = (
    Row('Nothing is changed.', '', True, RATE, f'`{RATE}`', 'proved', '138 s', '12 s'),
    Row("The bytes of a record don't count: `admits` calls `is_too_much` with 0 bytes.", 'A', True, RATE,
        'A, then the same command', 'not proved, `Window::admits`', '11 s', '26 s', 'Window::admits'),
    Row('The records of the previous second still count.', 'B', True, RATE,
        'B, then the same command', 'not proved, `Window::taken`', '7 s', '30 s', 'Window::taken'),
    Row('`admits` is edited as in the second row, and the `ensures` clause of its contract is deleted too.', 'AC', True,
        RATE, 'A and C, then the same command', '**proved**: without this clause, nothing refuses the wrong body',
        '7 s', '23 s'),
    Row('After these two edits, the crate that calls `kds_rate` is checked.', '', False, LOGS, f'then `{LOGS}`',
        'not proved, `windows::admits_at`: the weakened contract makes the proof of a caller fail',
        '272 s', '45 s', 'windows::admits_at'),
    Row('The wrong bodies that are stored with `kds_rate` are tried.', '', True, WRONG, f'`{WRONG}`',
        'all 7 refused', '55 s', '150 s', 7),
)


def page():
    """The table, and the edits below it."""
    yield from ('| What | Command | Result | First | Again |', '|---|---|---|---|---|')
    for row in ROWS:
        yield f'| {row.what} | {row.how} | {row.result} | {row.first} | {row.again} |'
    yield ''
    commands = [(EDITS[letter], letter) for letter in EDITS] + [(UNDO, 'between two rows, but for the fifth')]
    width = max(len(command) for command, _ in commands) + 2
    for command, note in commands:
        yield f'    {command:{width}}# {note}'


def holds(row, status, printed):
    """Whether a row's command printed what it must."""
    if row.command == WRONG:
        return status == 0 and len(re.findall(r'^kds_rate/\w+: refused: ', printed, re.M)) == row.refused
    told = dict(re.findall(r'^fn \w+::(\S+): (.*)$', printed, re.M))
    left = [name for name, line in told.items() if line.startswith('not proved') or 'did not prove' in line]
    if row.refused is None:
        return status == 0 and bool(re.search(r'^logic=proved ', printed, re.M)) and not left
    return status == 1 and any(name == row.refused or name.endswith('::' + row.refused) for name in left)


# how often a command that still runs is told, in seconds
OFTEN = 60


def run(room, command, tell=lambda *_: None):
    """Runs a command. While it runs, `tell` gets the minutes that have passed, and the last line that was printed."""
    with tempfile.TemporaryFile() as out:
        words, begin = ['bash', '-c', command], time.monotonic()
        process = subprocess.Popen(words, cwd=room, stdin=subprocess.DEVNULL, stdout=out, stderr=subprocess.STDOUT)
        while True:
            try:
                status = process.wait(OFTEN)
                break
            except subprocess.TimeoutExpired:
                tell(round((time.monotonic() - begin) / 60), (printed(out).splitlines() or [''])[-1])
            except BaseException:
                process.kill()
                process.wait()
                raise
        return subprocess.CompletedProcess(words, status, printed(out))


def printed(file):
    """What a command has written so far, by another place in the file than its own."""
    return os.pread(file.fileno(), os.fstat(file.fileno()).st_size, 0).decode(errors='replace')


def must(room, command):
    """Runs a command that has to succeed: an edit that changes nothing is one that the page has wrong."""
    done = run(room, command)
    if done.returncode != 0:
        sys.exit(f'{command}: {done.stdout}')


def copy(to):
    """The repository as it stands, without what was built. It is a git repository, so that `git checkout` undoes the
    edits."""
    shutil.copytree(ROOT, to, ignore=shutil.ignore_patterns('.git', 'out', '__pycache__'), symlinks=True)
    must(to, 'git init -q && git add -A && git -c user.name=x -c user.email=x commit -qnm x')


def edit(room, row):
    if row.undone:
        must(room, UNDO + ' 2>&1')
    for letter in row.edits:
        before = (room / 'crates/kds_rate/src/window.rt').read_bytes()
        must(room, EDITS[letter])
        if before == (room / 'crates/kds_rate/src/window.rt').read_bytes():
            sys.exit(f'the edit {letter} changes nothing')


def is_row(words):
    return words in ([], ['page']) or len(words) == 1 and words[0] in map(str, range(1, len(ROWS) + 1))


def main():
    words = asked(__doc__, 'checks/falsify.py [ROW | page], a row from 1 to 6', is_row)
    if words == ['page']:
        print('\n'.join(page()))
        return 0
    heed_signals()
    tally, first = Tally(), int(words[0]) - 1 if words else 0
    with tempfile.TemporaryDirectory(prefix='kds-falsify-') as folder:
        room = pathlib.Path(folder) / 'kds'
        copy(room)
        for number, row in enumerate(ROWS[first:first + 1] if words else ROWS, first + 1):
            if words and not row.undone:
                edit(room, ROWS[first - 1])
            edit(room, row)
            begin = time.monotonic()
            print(f'row {number}: {row.how}: running; the first check of a copy proves the crates below too',
                  flush=True)
            done = run(room, row.command, lambda *now: print(f'row {number}: {now[0]} min: {now[1][:90]}', flush=True))
            passed = holds(row, done.returncode, done.stdout)
            told = 'as the page says' if passed else 'NOT as the page says'
            print(f'row {number}: {row.how}: {time.monotonic() - begin:.0f} s: {told}, {row.result}', flush=True)
            tally.holds(passed, f'row {number}: status {done.returncode}, and it printed:\n{done.stdout[-2000:]}')
    return tally.end()


if __name__ == '__main__':
    sys.exit(main())
