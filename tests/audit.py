#!/usr/bin/env python3
"""The journal of a long schedule of workers, and lies in it. \
A schedule of some 20,000 lines has three workers, a restart, a
split, a merge and leases that are taken away. Its journal must be sound; \
and each lie must be found at its line, by the rule
that a person would name. The schedule is made along the program's own answers, the lies along the journal."""
import random
import subprocess
import sys
import threading

from lib.checks import SECONDS, Tally, asked, fail, program, run as limited
from lib.lines import KEYS, create, merge, put, split

ROUNDS = 6_500
MIDDLE = KEYS // 2

tally = Tally()
check = tally.check


class Schedule:
    """A replay under way: each line is answered before the next one is chosen."""

    def __init__(self):
        self.lines = []
        self.program = subprocess.Popen([KDS, 'replay'], stdin=subprocess.PIPE, stdout=subprocess.PIPE,
                                        stderr=subprocess.PIPE, text=True)
        # A program that holds an answer back is ended, and then gives the end of its output in place of a line.
        self.limit = threading.Timer(3 * SECONDS, self.program.kill)
        self.limit.daemon = True
        self.limit.start()

    def ask(self, line):
        self.lines.append(line)
        self.program.stdin.write(line + '\n')
        self.program.stdin.flush()
        answer = self.program.stdout.readline()
        if not answer.endswith('\n'):
            self.program.kill()
            fail(f'the schedule: no answer to line {len(self.lines)}: {line}')
        return answer.rstrip('\n')

    def end(self):
        """The status, and what stands after the answers and on the error output."""
        out, err = self.program.communicate(timeout=SECONDS)
        self.limit.cancel()
        return self.program.returncode, out, err


def rob(schedule, at):
    """Actor 9 takes a row from its owner, at its present counter, and reads once."""
    rows = [row.split(' ') for row in schedule.ask(f'{at} raw 9 rows').split(' ', 2)[2].split('; ')]
    key, _, counter, _, _ = next(row for row in rows if row[1] not in ('-', 'w9') and row[3] != 'SHARD_END')
    taken = schedule.ask(f'{at} raw 9 take {key} {counter} w9').split(' ')
    tenure, start = taken[2], taken[6]
    schedule.ask(f'{at} raw 9 open {tenure}')
    schedule.ask(f'{at} raw 9 read {tenure} {0 if start == "TRIM_HORIZON" else int(start) + 1} 10')
    schedule.ask(f'{at} raw 9 give {tenure}')


def made():
    """The lines of the schedule."""
    chance = random.Random(1)
    schedule = Schedule()
    schedule.ask(create(2))
    actors = [schedule.ask(f'1000 worker {name} {kind}').split(' ')[1] for name, kind in
              (('w1', 'tally'), ('w2', 'lines'), ('w3', 'tally'))]
    for number in range(ROUNDS):
        at = 1000 + 5 * number
        if number == 1500:
            schedule.ask(split(at, 0, MIDDLE // 2))
        if number == 3000:
            actors[0] = schedule.ask(f'{at} worker w1 tally').split(' ')[1]
        if number == 4500:
            schedule.ask(merge(at, 2))
        if number in (1200, 2400, 3600, 5400):
            rob(schedule, at)
        schedule.ask(put(at, f'key-{number}'))
        for _ in range(2):
            schedule.ask(f'{at} step {chance.choice(actors)}')
    check('the schedule: status, more output, errors', (0, '', ''), schedule.end())
    return schedule.lines


def run(words, lines):
    """The status, the output and the error output of the program by these words on these lines."""
    text = ''.join(line + '\n' for line in lines)
    done = limited([KDS, *words], ' '.join(words), input=text, capture_output=True, text=True)
    return done.returncode, done.stdout, done.stderr


class Journal:
    """The entries of a journal, and what a reader of it knows before each of them."""

    def __init__(self, lines):
        self.head, *self.entries, self.end = lines
        self.before = []
        known = {'actor': {}, 'key': {}, 'row': {}, 'counter': {}, 'mark': {}, 'delivered': {}, 'pending': {},
                 'open': set(), 'parents': {}}
        for entry in self.entries:
            self.before.append({name: type(value)(value) for name, value in known.items()})
            self.note(known, entry.split(' '))

    @staticmethod
    def note(known, words):
        by, what, rest = words[1], words[2], words[3:]
        if what == 'made':
            known['open'] = {str(shard) for shard in range(int(rest[2]))}
        elif what == 'split':
            known['open'] = known['open'] - {rest[1]} | {rest[4], rest[5]}
            known['parents'][f'1/{rest[4]}'] = known['parents'][f'1/{rest[5]}'] = [f'1/{rest[1]}']
        elif what == 'merged':
            known['open'] = known['open'] - {rest[1], rest[2]} | {rest[4]}
            known['parents'][f'1/{rest[4]}'] = [f'1/{rest[1]}', f'1/{rest[2]}']
        elif what == 'taken':
            key, tenure, counter, _ = rest
            known['actor'][tenure], known['key'][tenure] = by, key
            known['row'][key], known['counter'][key] = tenure, int(counter)
            known['pending'][tenure] = []
            known['delivered'][tenure] = None
        elif what in ('renewed', 'freed', 'marked'):
            key = known['key'][rest[0]]
            known['counter'][key] = int(rest[1])
            if what == 'marked':
                known['mark'][key] = rest[2]
            if what == 'freed':
                known['row'][key] = None
        elif what == 'read':
            # a copy, since what was known before must stay
            known['pending'][rest[0]] = known['pending'][rest[0]] + [rest[3:]]
        elif what == 'given':
            first, *known['pending'][rest[0]] = known['pending'][rest[0]]
            known['delivered'][rest[0]] = int(first[-1]) + 1 if first else known['delivered'][rest[0]]

    def places(self, what):
        """The entries of this word from the middle on, and then those before."""
        found = [place for place, entry in enumerate(self.entries) if entry.split(' ')[2] == what]
        middle = len(found) // 2
        return found[middle:] + found[:middle]

    def lines(self, place, changed, instead=1):
        """The journal with these lines at a place, in place of `instead` of its own."""
        return [self.head, *self.entries[:place], *changed, *self.entries[place + instead:], self.end]


def changed(entry, place, word):
    words = entry.split(' ')
    words[place] = word
    return ' '.join(words)


# Each lie: what it says, the journal with it, the entry that shows it, counted from 0, and the rule.

def put_elsewhere(j):
    place = next(p for p in j.places('put') if len(j.before[p]['open']) > 1)
    other = min(j.before[place]['open'] - {j.entries[place].split(' ')[4]})
    return j.lines(place, [changed(j.entries[place], 4, other)]), place, 'Entry'


def put_left_out(j):
    place = next(p for p in j.places('put') if j.entries[p + 1].split(' ')[2] == 'put')
    return j.lines(place, []), place, 'Entry'


def clock_falls(j):
    place = j.places('given')[0]
    clock = int(j.entries[place - 1].split(' ')[0])
    return j.lines(place, [changed(j.entries[place], 0, str(clock - 1))]), place, 'Clock'


def stale_mark(j):
    place = next(p for p in j.places('taken') if j.entries[p].split(' ')[1] == '9')
    clock, _, _, key, _, counter, _ = j.entries[place].split(' ')
    old = j.before[place]['row'][key]
    mark = (f'{clock} {j.before[place]["actor"][old]} marked {old} {int(counter) + 1} '
            f'{j.before[place]["delivered"][old] - 1}')
    return j.lines(place + 1, [mark], 0), place + 1, 'Lost'


def mark_beyond(j):
    place = next(p for p in j.places('marked') if j.entries[p].split(' ')[5] != 'end')
    tenure = j.entries[place].split(' ')[3]
    return j.lines(place, [changed(j.entries[place], 5, str(j.before[place]['delivered'][tenure]))]), place, 'Beyond'


def mark_below(j):
    for place in j.places('marked'):
        _, _, _, tenure, _, target = j.entries[place].split(' ')
        mark = j.before[place]['mark'].get(j.before[place]['key'][tenure])
        if mark is not None and target != 'end':
            return j.lines(place, [changed(j.entries[place], 5, str(int(mark) - 1))]), place, 'Below'
    raise LookupError('no second mark')


def given_twice(j):
    place = next(p for p in j.places('given') if len(j.before[p]['pending'][j.entries[p].split(' ')[3]]) == 1)
    return j.lines(place + 1, [j.entries[place]], 0), place + 1, 'NothingPending'


def record_left_out(j):
    place = next(p for p in j.places('read') if len(j.entries[p].split(' ')) > 8)
    words = j.entries[place].split(' ')
    return j.lines(place, [' '.join(words[:6] + words[7:])]), place, 'Entry'


def child_opened_early(j):
    for place in j.places('taken'):
        clock, by, _, key, tenure, _, _ = j.entries[place].split(' ')
        known = j.before[place]
        parents = known['parents'].get(key, [])
        if any(known['mark'].get(parent) != 'end' for parent in parents):
            return j.lines(place + 1, [f'{clock} {by} opened {tenure}'], 0), place + 1, 'ParentsOpen'
    raise LookupError('no child was taken before its parents ended')


def taken_too_late(j):
    place = j.places('taken')[0]
    counter = int(j.entries[place].split(' ')[5])
    return j.lines(place, [changed(j.entries[place], 5, str(counter + 1))]), place, 'Moved'


def renewed_by_another(j):
    place = j.places('renewed')[0]
    return j.lines(place, [changed(j.entries[place], 1, '9')]), place, 'NotYours'


def opening_left_out(j):
    place = j.places('opened')[0]
    tenure = j.entries[place].split(' ')[3]
    shown = next(p for p in range(place, len(j.entries)) if j.entries[p].split(' ')[2:4] == ['read', tenure])
    return j.lines(place, []), shown - 1, 'NotOpened'


LIES = [put_elsewhere, put_left_out, clock_falls, stale_mark, mark_beyond, mark_below, given_twice, record_left_out,
        child_opened_early, taken_too_late, renewed_by_another, opening_left_out]


def main():
    global KDS  # the program to be checked
    asked(__doc__, 'tests/audit.py')
    KDS = program()
    schedule = made()
    status, text, errors = run(['replay', '--journal'], schedule)
    check('the journal: status and errors', (0, ''), (status, errors))
    lines = text.splitlines()
    journal = Journal(lines)
    check('the journal', (0, f'sound {len(journal.entries)}\n', ''), run(['audit'], lines))
    for lie in LIES:
        told, place, rule = lie(journal)
        check(lie.__name__.replace('_', ' '), (1, f'entry {place + 1} {rule}\n', ''), run(['audit'], told))
    without = lines[:-1]
    check('no last line', (1, f'entry {len(journal.entries) + 1} Form\n', ''), run(['audit'], without))
    return tally.end(f'a schedule of {len(schedule):,} lines, a journal of {len(journal.entries):,} entries: ')


if __name__ == '__main__':
    sys.exit(main())
