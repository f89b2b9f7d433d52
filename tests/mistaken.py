#!/usr/bin/env python3
"""Stories of simulated hosts (incidents/simulated.py) with one mistake each, as by a wrong clock or a lost line: what
`tools/schedule` tells of one is true, and if it tells anything, the mistake is in it.

    tests/mistaken.py SEED            the story of a seed, and what is told of it
    tests/mistaken.py SEED COUNT      counts what is told of COUNT stories, from this seed on"""
import collections
import concurrent.futures
import math
import os
import pathlib
import random
import re
import subprocess
import sys
import tempfile
import time
import unittest

from incidents.simulated import Life

ROOT = pathlib.Path(__file__).resolve().parent.parent
STORIES, SECONDS = 400, 120
WORKERS = int(os.environ.get('WORKERS', os.cpu_count()))
HOUR = 3_600_000
KINDS = {'shift': 8, 'zone': 3, 'drift': 3, 'missing': 6, 'doubled': 2, 'swapped': 2, 'none': 1}

BY_CLOCKS = ('shift', 'zone', 'drift')

Entry = collections.namedtuple('Entry', ('at', 'host', 'text', 'said'))
# A story: its files, and the mistake: its kind, the host and by how much its clock is ahead, or the line.
Story = collections.namedtuple('Story', ('files', 'kind', 'host', 'shift', 'line'))


# ---- stories

def text_of(said, is_numbered):
    words = [*([said.host] if said.host else []), *said.words]
    if is_numbered and said.number is not None:
        words += ['to' if {'records', 'process'} & set(words[:2]) else 'at', str(said.number)]
    return ' '.join(words + (['fails'] if said.fails else []))


def lived(chance, days):
    """What happened, from a dump on or from the beginning, and the beginning."""
    life = Life(chance, puts=chance.random() < 0.5)
    if chance.random() < 0.5:
        life.live(chance.randint(40, 150))
        if days:
            life.delete()
        return life.said, None
    life.is_careful = True
    life.live(chance.randint(30, 90))
    life.settle()
    at, before, table = life.now, len(life.said), life.table()
    life.now += chance.randint(1, 10_000)
    life.is_careful = False
    life.live(chance.randint(40, 120))
    return life.said[before:], beginning(table, at)


def beginning(table, at):
    with tempfile.NamedTemporaryFile('w', suffix='.json') as file:
        file.write(table)
        file.flush()
        words = [sys.executable, ROOT / 'tools' / 'dump', '--story', 'orders', '--at', str(at), file.name]
        return subprocess.run(words, capture_output=True, text=True, check=True).stdout


def clock_of(kind, chance, begin, end):
    """By how much a clock is ahead at a moment, and the bounds of that."""
    sign = chance.choice([-1, 1])
    if kind == 'zone':
        by = sign * chance.randint(1, 14) * HOUR
    else:
        by = sign * round(math.exp(chance.uniform(0, math.log(14 * HOUR if kind == 'shift' else 60_000))))
    if kind == 'drift':
        return (lambda at: by * (at - begin) // max(1, end - begin)), (0, by)
    return (lambda _: by), (by, by)


def made(seed, is_right=False):
    """The story of a seed, or the same without its mistake."""
    chance = random.Random(seed)
    kind = chance.choices(list(KINDS), KINDS.values())[0]
    # whether a lease can be deleted depends on the time itself, and not on an order of lines
    said, first = lived(chance, days=kind not in BY_CLOCKS and chance.random() < 0.2)
    is_numbered = chance.random() < 0.6
    entries = [Entry(it.at, it.host, text_of(it, is_numbered), it) for it in said]
    hosts = sorted({it.host for it in entries if it.host})
    if is_right or not entries:
        return Story(files_of(entries, first), 'none', None, None, None)
    if kind in BY_CLOCKS and hosts:
        host = chance.choice(hosts)
        ahead, bounds = clock_of(kind, chance, entries[0].at, entries[-1].at)
        entries = [it._replace(at=it.at + ahead(it.at)) if it.host == host else it for it in entries]
        return Story(files_of(entries, first), kind, host, bounds, None)
    return by_lines(entries, first, kind, chance)


def by_lines(entries, first, kind, chance):
    """A story with a mistake in its lines, or without one, where no line can have it."""
    line = None
    if kind == 'missing':
        verb = chance.choice(sorted({verb_of(it) for it in entries}))
        line = chance.choice([it for it in entries if verb_of(it) == verb])
        entries = [it for it in entries if it is not line]
    if kind == 'doubled':
        line = chance.choice(entries)
        entries = [one for it in entries for one in ([it, it] if it is line else [it])]
    files = files_of(entries, first)
    names = sorted(it for it in files if len(files[it]) > 1 and it != 'beginning.txt')
    if kind == 'swapped' and names:
        name = chance.choice(names)
        place = chance.randrange(len(files[name]) - 1)
        files[name][place:place + 2] = reversed(files[name][place:place + 2])
        line = name, place + 2
    return Story(files, kind if line else 'none', None, None, line)


def verb_of(entry):
    return entry.said.words[0]


def files_of(entries, first):
    """A file for each host, and one for the stream."""
    files = {'beginning.txt': [first]} if first else {}
    for it in entries:
        files.setdefault(f'{it.host or "stream"}.txt', []).append(it)
    return files


def written(story, folder):
    for name, lines in story.files.items():
        text = lines[0] if name == 'beginning.txt' else ''.join(f'{it.at} {it.text}\n' for it in lines)
        (folder / name).write_text(text)
    return list(story.files)


def told_of(story):
    """What is told of a story."""
    with tempfile.TemporaryDirectory() as folder:
        names = written(story, pathlib.Path(folder))
        done = subprocess.run([sys.executable, ROOT / 'tools' / 'schedule', *names], cwd=folder, capture_output=True,
                              text=True, check=False)
    return [line.removeprefix('schedule: ') for line in done.stderr.splitlines()]


# ---- what is told

CLOCK = re.compile(r'all of it (?:but .*)?fits if the clock of (\S+) is (ahead|behind) by (.*?): its times .*')
SINGLE = re.compile(r'more than ([\d.]+) s.*|([\d.]+) to ([\d.]+) s.*')
LINE = re.compile(r'all of it fits with the line (.+?), which may|and if the line (.+?) is missing|'
                  r'is (?:the|a) line (\S+ checkpoint .+?) missing')
EXPECTED = re.compile(r'(\S+): line (\d+): .*expected a line (\S+) (\S+) (\S+) before it')
# What a right story may be told too, where its log has no numbers.
NEUTRAL = re.compile(r'.*(stood in no records line|^nothing checks the clocks|more groups of hosts|'
                     r'nothing says where it begins in the log).*')
CAUSE = re.compile(r'wrong clock|the clock of|is missing|missing before')
DRIFTS = 'a clock that drifts or jumps'
MISSING = re.compile(r'line\b.* missing|a missing line|expected (?:a|one|this) |a records line of it')


def clocks_told(told):
    """The clocks that are told: the host, and the bounds of how much it is ahead, in milliseconds."""
    for line in told:
        found = CLOCK.match(line)
        for one in found[3].split(', or by ') if found else []:
            least, low, high = SINGLE.fullmatch(one).groups()
            bounds = (float(least), math.inf) if least else (float(low), float(high))
            sign = 1 if found[2] == 'ahead' else -1
            yield found[1], tuple(sorted(round(it * 1000, 3) * sign if it != math.inf else sign * it for it in bounds))


def is_in(entry, lines):
    """Whether a checkpoint line that is said to be missing stands in the story. Without its number it may be another
    one."""
    host, verb, shard, *rest = entry.split(' ')
    return any(it.host == host and not it.said.fails and shard in it.said.words and it.said.words[0] == verb
               and str(it.said.number) in rest for it in lines)


def falsely_missing(story, told):
    """A line that is said to be missing, and that the story has."""
    lines = [it for name, some in story.files.items() if name != 'beginning.txt' for it in some]
    for line in told:
        for found in LINE.finditer(line):
            named = next(filter(None, found.groups()))
            if is_in(named, lines):
                return f'the story has the line {named}'
        found = EXPECTED.match(line)
        if found:
            name, number, host, verb, shard = found.groups()
            before = [it.said.words for it in story.files[name][:int(number)] if it.host == host]
            # it has to stand after the last restart, and an open after the last take
            starts = ['restarts'], ['take', shard] if verb == 'open' else None
            begins = [i for i, it in enumerate(before) if it in starts]
            if [verb, shard] in before[max(begins, default=-1) + 1:]:
                return f'the story has the line {host} {verb} {shard}'
    return ''


def is_told(story, told):
    """Whether the mistake is among what is told."""
    if story.kind in BY_CLOCKS:
        low, high = sorted(story.shift)
        near = any(host == story.host and bounds[0] <= high and low <= bounds[1] for host, bounds in clocks_told(told))
        return near or story.kind == 'drift' and any(DRIFTS in line for line in told)
    if story.kind == 'missing':
        # or no cause is named at all
        return any(MISSING.search(line) for line in told) or not any(CAUSE.search(line) for line in told)
    if story.kind == 'doubled':
        return any('is the same as' in line for line in told)
    name, number = story.line
    return any(line.startswith(f'{name}: line {number} is') and 'before the line above it' in line for line in told)


def fault(story, told):
    """What is wrong in what is told, or nothing."""
    said = [line for line in told if not NEUTRAL.match(line)]
    if not said:
        return falsely_missing(story, told)
    if any('Traceback' in line for line in told):
        return 'it ends in a traceback'
    if story.kind == 'none':
        return 'a right story is told something'
    none = any('no wrong clock of one host' in line and 'not all orders' not in line for line in told)
    if none and story.kind in ('shift', 'zone'):
        return 'a clock makes all of it fit, and it is said that none does'
    return falsely_missing(story, told) or ('' if is_told(story, told) else 'the mistake is not among what is told')


def judged(seed):
    """Of the story of a seed: its kind, whether anything is told of it, and what is wrong in that."""
    story = made(seed)
    told = told_of(story)
    right = made(seed, is_right=True)
    wrong = fault(right, told_of(right))
    if wrong:
        return seed, 'right', True, wrong
    is_said = not all(map(NEUTRAL.match, told))
    return seed, story.kind, is_said, fault(story, told)


def all_judged(seed, count, seconds):
    """What is wrong in `count` stories, as far as the time goes."""
    end, found = time.monotonic() + seconds, []
    with concurrent.futures.ProcessPoolExecutor(WORKERS) as pool:
        waiting = iter(range(seed, seed + count))
        running = {pool.submit(judged, it) for _, it in zip(range(2 * WORKERS), waiting)}
        while running:
            done, running = concurrent.futures.wait(running, return_when=concurrent.futures.FIRST_COMPLETED)
            found += [it.result() for it in done]
            more = len(done) if time.monotonic() < end else 0
            running |= {pool.submit(judged, it) for _, it in zip(range(more), waiting)}
    return found


class Mistaken(unittest.TestCase):
    """Each run has stories of its own. A failure tells the seed, by which tests/mistaken.py shows the story."""

    def test_what_is_told_of_a_mistake(self):
        found = all_judged(random.SystemRandom().randrange(10**9), STORIES, SECONDS)
        said = sum(is_said for _, _, is_said, _ in found)
        print(f'mistaken: {len(found)} stories, {said} of which something is told')
        self.assertEqual([], [f'seed {seed}, {kind}: {wrong}' for seed, kind, _, wrong in found if wrong])
        # by stories of which nothing is told nothing is seen
        self.assertGreater(said, len(found) // 10 if len(found) >= 100 else -1)


def show(seed):
    story = made(seed)
    with tempfile.TemporaryDirectory() as folder:
        for name in written(story, pathlib.Path(folder)):
            print(f'---- {name}\n{(pathlib.Path(folder) / name).read_text()}', end='')
    told = told_of(story)
    print('---- told', *told, sep='\n')
    print(f'---- {story.kind} {story.host} {story.shift} {story.line}\n{fault(story, told) or "right"}')


def count(seed, stories):
    """How often something is told, and of which seeds it is wrong."""
    found = all_judged(seed, stories, math.inf)
    kinds = collections.Counter((kind, is_said, bool(wrong)) for _, kind, is_said, wrong in found)
    for (kind, is_said, wrong), many in sorted(kinds.items()):
        print(f'{kind:8} {"told" if is_said else "silent":6} {"WRONG" if wrong else "right":5} {many}')
    for seed, kind, _, wrong in sorted(found):
        if wrong:
            print(f'{seed} {kind}: {wrong}')


def are_words(words):
    return len(words) in (1, 2) and all(word.isdigit() for word in words)


def main():
    from lib.checks import asked
    seed, *stories = asked(__doc__, 'tests/mistaken.py SEED [COUNT]', are_words)
    if stories:
        count(int(seed), int(stories[0]))
    else:
        show(int(seed))


if __name__ == '__main__':
    main()
