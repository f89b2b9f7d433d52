#!/usr/bin/env python3
"""The work of a replay or an audit grows as its length does (tests/growing.py has what is run): \
twice as many rounds take at most 2.3 times the
instructions, but for the kinds of BY_DECISION there. \
A turn that goes over all closed shards, or an audit that goes over all records, makes it more. \
Instructions are counted by valgrind. Where
that isn't installed, processor time is measured over ten times as many rounds, and may be 3 times as much: \
it also grows where the data no longer fit the
processor's caches. Each time is the least of three runs, the lengths in turn; \
where that isn't enough, since the machine does other things, of six.

    tests/growth.py [WORD]     WORD: only the kinds whose names have it"""
import concurrent.futures
import os
import re
import shutil
import subprocess
import sys
import tempfile
import threading

from growing import BY_DECISION, FEW_ROUNDS, KINDS
from lib.checks import SECONDS, Tally, asked, fail, program

COUNTED = shutil.which('valgrind')
ROUNDS, MOST = (1_000, 2.3) if COUNTED else (10_000, 3)
RUNS = 3
REFS = re.compile(r'I\s+refs:\s+([\d,]+)')


def ended(command, source, out=subprocess.DEVNULL):
    """Runs a command on a file to its end, and returns what it wrote on standard error, and its processor
    time, that of the kernel among it."""
    with open(source, 'rb') as given, tempfile.TemporaryFile() as told:
        child = subprocess.Popen(command, stdin=given, stdout=out, stderr=told)
        limit = threading.Timer(SECONDS, child.kill)
        limit.start()
        _, status, usage = os.wait4(child.pid, 0)
        limit.cancel()
        child.returncode = os.waitstatus_to_exitcode(status)
        told.seek(0)
        text = told.read().decode(errors='replace')
    if child.returncode != 0:
        fail(f'{" ".join(command)}: status {child.returncode}: {text[-200:]}')
    return text, usage.ru_utime + usage.ru_stime


def cost(word, source):
    """What a run of the program takes: its instructions in millions, or its time in seconds."""
    if COUNTED:
        text, _ = ended([COUNTED, '--tool=cachegrind', '--cache-sim=no', '--cachegrind-out-file=/dev/null', KDS, word],
                        source)
        return int(REFS.search(text)[1].replace(',', '')) / 1e6
    return ended([KDS, word], source)[1]


def check_answered(schedule, lines):
    """Each line of a schedule has its answer, and no request or raw command was refused. A worker's may be."""
    with tempfile.TemporaryFile() as out:
        ended([KDS, 'replay'], schedule, out)
        out.seek(0)
        answers = out.read().splitlines()
    bad = [line for line in answers if line.startswith((b'refused', b'none', b'4', b'5'))]
    if bad or len(answers) != lines:
        fail(f'{schedule}: {len(answers)} answers to {lines} lines, of which {len(bad)} are refusals, as {bad[:1]}')


def written(folder, name, kind, count, audited):
    """The file of `count` rounds of a kind: a schedule, or the journal of one."""
    schedule = f'{folder}/{name} {count}'.replace(',', '')
    lines = list(kind(count))
    with open(schedule, 'w') as text:
        text.writelines(line + '\n' for line in lines)
    check_answered(schedule, len(lines))
    if not audited:
        return schedule
    with open(f'{schedule} journal', 'wb') as journal:
        ended([KDS, 'replay', '--journal'], schedule, journal)
    return f'{schedule} journal'


def rounds(name):
    return min(ROUNDS, FEW_ROUNDS.get(name, ROUNDS))


def measured(folder, name, kind, audited):
    """The least costs of both lengths."""
    word = 'audit' if audited else 'replay'
    files = [written(folder, name, kind, count, audited) for count in (rounds(name), 2 * rounds(name))]
    costs = [], []
    while (len(costs[0]) < (1 if COUNTED else RUNS)
           or not COUNTED and len(costs[0]) < 2 * RUNS and min(costs[1]) > MOST * min(costs[0])):
        for file, found in zip(files, costs):
            found.append(cost(word, file))
    for file in files:
        os.remove(file)
    return min(costs[0]), min(costs[1])


def main():
    global KDS  # the program to be checked
    words = asked(__doc__, 'tests/growth.py [WORD], a part of a name in tests/growing.py',
                  lambda words: not words or len(words) == 1 and any(words[0] in kind[0] for kind in KINDS))
    kinds = [kind for kind in KINDS if not words or words[0] in kind[0]]
    KDS = program()
    tally, unit = Tally(), 'million instructions' if COUNTED else 'seconds'
    lanes = os.cpu_count() if COUNTED else 1
    with tempfile.TemporaryDirectory() as folder, concurrent.futures.ThreadPoolExecutor(lanes) as pool:
        found = list(pool.map(lambda kind: measured(folder, *kind), kinds))
    for (name, _, _), (one, two) in zip(kinds, found):
        says = (f'{name}: {one:.2f} {unit} for {rounds(name):,} rounds, and {two:.2f}, {two / one:.2f} times as much, '
                f'for {2 * rounds(name):,}')
        tally.holds(two <= max(MOST, BY_DECISION.get(name, 0)) * one, says)
        if words:
            print(says)
    worst = max((two / one for one, two in found), default=0)
    return tally.end(f'growth of {unit} when rounds double, at most {worst:.2f}: ')


if __name__ == '__main__':
    sys.exit(main())
