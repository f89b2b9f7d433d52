"""What tools/journal.html must draw of a journal where only a part of the time is in view: a plain reading of the
journal's lines, apart from the page's own. A line is steps, each a place on the axis and a count of records. What lies
before the window gives the count at its edge, and what lies behind isn't drawn."""
import bisect
import collections
import functools
import math
import random
import re

HOUR = 3_600_000
# the pixels of a strip, of its records, and of a worker's row and its line: those of the page
STRIP, RECORDS, ROW, OF_ROW = 54, 44, 26, 20


class Line:
    """Steps from `start` to `stop`, at `base` until the first."""

    def __init__(self, start, stop, base, steps):
        self.start, self.stop, self.base = start, stop, base
        self.places, self.counts = [place for place, _ in steps], [count for _, count in steps]

    def in_sight(self, window):
        return self.start <= window[1] and self.stop >= window[0]

    def at(self, place):
        """The count behind a place."""
        found = bisect.bisect_right(self.places, place)
        return self.counts[found - 1] if found else self.base

    def seen(self, window):
        """All counts that a window shows."""
        if not self.in_sight(window):
            return []
        before = bisect.bisect_left(self.places, window[0])
        found = [self.counts[before - 1] if before else self.base,
                 *self.counts[before:bisect.bisect_right(self.places, window[1])]]
        return [count for count in found if count != math.inf]


class Story:
    """What the entries of a journal tell, by their numbers."""

    def __init__(self, text):
        *entries, end = [line.split(' ') for line in text.splitlines()[1:]]
        self.clocks = [int(it[0]) for it in entries]
        self.clocks.append(max(self.clocks[-1], int(end[1])))
        self.born, self.closed, self.gone, self.hours = {}, {}, {}, {}
        self.parents, self.puts, self.rows, self.marks, self.cuts = (collections.defaultdict(list) for _ in range(5))
        self.tenures, self.holder = {}, {}
        for n, (_, _, kind, *words) in enumerate(entries, 1):
            if n == 1 or self.clocks[n - 1] != self.clocks[n - 2]:
                self.trim(n)
            getattr(self, f'on_{kind}')(n, words)
        if self.clocks[-1] > self.clocks[-2]:
            self.trim(len(self.clocks))

    def trim(self, n, only=None):
        """From this entry on, what came at the moment told or before is gone."""
        for stream in [only] if only else set(self.hours) - set(self.gone):
            before = self.cuts[stream][-1][1] if self.cuts[stream] else -math.inf
            self.cuts[stream].append((n, max(before, self.clocks[n - 1] - self.hours[stream] * HOUR)))

    def on_made(self, n, words):
        self.hours[words[0]] = 24
        self.born |= {f'{words[0]}/{shard}': n for shard in range(int(words[2]))}

    def on_gone(self, n, words):
        self.gone[words[0]] = n

    def on_put(self, n, words):
        self.puts[f'{words[0]}/{words[1]}'].append((n, int(words[2])))

    def children(self, n, stream, parents, children):
        for parent in parents:
            self.closed[f'{stream}/{parent}'] = n
        for shard in children:
            self.born[f'{stream}/{shard}'], self.parents[f'{stream}/{shard}'] = n, [f'{stream}/{it}' for it in parents]

    def on_split(self, n, words):
        self.children(n, words[0], [words[1]], words[4:6])

    def on_merged(self, n, words):
        self.children(n, words[0], words[1:3], [words[4]])

    def on_kept(self, n, words):
        self.hours[words[0]] = int(words[1])
        self.trim(n, words[0])

    def on_enforced(self, n, words):
        pass

    def on_lease(self, n, words):
        self.rows[words[0]].append([n, words[1:], None])

    def on_taken(self, n, words):
        self.over(words[0], n)
        self.holder[words[0]] = words[1]
        self.tenures[words[1]] = {'key': words[0], 'worker': words[3], 'taken': n, 'end': None, 'done': None,
                                  'opened': None, 'last': n, 'reads': [], 'given': [], 'wait': collections.deque()}

    def over(self, key, n):
        no = self.holder.pop(key, None)
        if no is not None:
            self.tenures[no]['end'] = n

    def on_renewed(self, n, words):
        self.tenures[words[0]]['last'] = n
        return self.tenures[words[0]]

    def on_freed(self, n, words):
        self.over(self.on_renewed(n, words)['key'], n)

    def on_opened(self, n, words):
        self.on_renewed(n, words)['opened'] = n

    def on_read(self, n, words):
        it, numbers = self.on_renewed(n, words), [int(word) for word in words[3:]]
        it['reads'].append((n, numbers))
        it['wait'].append(numbers)

    def on_given(self, n, words):
        it = self.on_renewed(n, words)
        # an empty batch isn't handed to the processor, so it is no delivery
        if numbers := it['wait'].popleft():
            it['given'].append((n, numbers))

    def on_marked(self, n, words):
        key = self.on_renewed(n, words)['key']
        self.marks[key].append((n, math.inf if words[2] == 'end' else int(words[2])))
        if words[2] == 'end':
            self.tenures[words[0]]['done'] = n

    def on_cut(self, n, words):
        self.rows[words[0]][-1][2] = n
        self.over(words[0], n)

    def over_at(self, shard):
        """Where a shard was closed, or its stream deleted."""
        return self.closed.get(shard, self.gone.get(shard.split('/')[0]))

    def done(self, shard):
        """From which entry on nobody waits for a shard."""
        stream = shard.split('/')[0]
        ends = [n for n, to in self.marks[shard] if to == math.inf]
        if shard in self.closed:
            ends += [n for n, at in self.cuts[stream]
                     if n > self.closed[shard] and at >= self.clocks[self.closed[shard] - 1]]
        return min([*ends, self.gone.get(stream, math.inf)], default=math.inf)

    @functools.cached_property
    def doubles(self):
        """Runs of records that one earlier delivery of the stream had: shard, entry, that entry, first and last
        number."""
        seen, found = {}, []
        for n, key, numbers in sorted((n, it['key'], numbers)
                                      for it in self.tenures.values()
                                      for n, numbers in it['given']):
            runs = []
            for number in numbers:
                before = seen.get((key.split('/')[0], number))
                seen[key.split('/')[0], number] = n
                if before and runs and runs[-1][2] == before:
                    runs[-1][4] = number
                elif before:
                    runs.append([key, n, before, number, number])
            found += runs
        return found


class Drawing:
    """What a page draws of a story by an axis, `clock` or `entry`: lines and bars by their class and by what they are
    of."""

    def __init__(self, text, axis):
        self.story, self.axis = Story(text), axis
        self.end = self.place(len(self.story.clocks))
        self.first = self.place(1)
        self.seqs = {key: [number for _, number in puts] for key, puts in self.story.puts.items()}
        self.lines, self.of = {}, {}
        for shard in self.story.born:
            self.shard(shard)
        for no, tenure in self.story.tenures.items():
            self.tenure(no, tenure)
        for worker in {it['worker'] for it in self.story.tenures.values()}:
            self.worker(worker)

    def place(self, n):
        return self.story.clocks[n - 1] if self.axis == 'clock' else n

    def rank(self, shard, number):
        return number if number == math.inf else bisect.bisect_right(self.seqs.get(shard, []), number)

    def line(self, name, what, shard, start, stop, base, steps):
        if steps:
            end = self.end if stop is None else self.place(stop)
            self.lines[name, what] = Line(self.place(start), end, base, [(self.place(n), count) for n, count in steps])
            self.of[name, what] = shard

    def shard(self, shard):
        story, puts = self.story, self.story.puts[shard]
        self.line('put', shard, shard, story.born[shard], story.over_at(shard), 0,
                  [(n, i) for i, (n, _) in enumerate(puts, 1)])
        clocks = [story.clocks[n - 1] for n, _ in puts]
        trims = [(n, sum(clock <= at for clock in clocks[:bisect.bisect_right([it for it, _ in puts], n)]))
                 for n, at in story.cuts[shard.split('/')[0]]]
        self.line('trimmed', shard, shard, story.born[shard], story.gone.get(shard.split('/')[0]), 0,
                  trims if trims and trims[-1][1] else [])
        marks = [(n, self.rank(shard, to)) for n, to in story.marks[shard]]
        if marks:
            self.line('checkpoint', shard, shard, marks[0][0], None, marks[0][1], marks)

    def tenure(self, no, it):
        shard, end = it['key'], it['end']
        base = lambda batches: next((self.rank(shard, numbers[0] - 1) for _, numbers in batches if numbers), 0)
        reads = [(n, self.rank(shard, numbers[-1])) for n, numbers in it['reads'] if numbers]
        timely, late = [], []
        for n, numbers in it['given']:
            (late if end and n > end else timely).append((n, self.rank(shard, numbers[-1])))
        if reads:
            self.line('read', no, shard, reads[0][0], end and max(end, it['last']), base(it['reads']), reads)
        if timely:
            self.line('given', no, shard, timely[0][0], end, base(it['given']), timely)
        if late:
            from_count = timely[-1][1] if timely else base([batch for batch in it['given'] if batch[0] > end])
            self.line('given-late', no, shard, end, late[-1][0], from_count, late)

    def worker(self, worker):
        changes = []
        for it in self.story.tenures.values():
            if it['worker'] == worker:
                # a lease whose checkpoint is at SHARD_END is no longer held
                until = min((n for n in (it['end'], it['done']) if n), default=None)
                changes += [(it['taken'], 1)] + ([(until, -1)] if until else [])
        held, steps = 0, []
        for n, by in sorted(changes, key=lambda it: it[0]):
            held += by
            steps.append((n, held))
        self.line('held', worker, None, 1, None, 0, steps)
        self.lines['held', worker].most = max([1, *(count for _, count in steps)])

    # ---- in a window

    def is_whole(self, window):
        return window[0] <= self.first and window[1] >= max(self.end, self.first + 1)

    def heights(self, shard, window):
        """Of which counts the height of a strip is."""
        total = len(self.seqs.get(shard, []))
        if not total or self.is_whole(window):
            return 0, total
        seen = [count
                for (name, what), line in self.lines.items() if self.of[name, what] == shard and name != 'trimmed'
                for count in line.seen(window)]
        for key, n, before, first, last in self.story.doubles:
            if key == shard and self.place(before) <= window[1] and self.place(n) >= window[0]:
                seen += [self.rank(shard, first - 1), self.rank(shard, last)]
        if not seen:
            return 0, total
        return (min(min(seen), max(seen) - 1), max(seen)) if max(seen) else (0, 1)

    def bars(self):
        """Bars: class and what it is of, to the first and the last entry; None is the end."""
        story, found = self.story, {}
        used = ({key for key in story.born if story.puts[key] or story.rows[key]}
                | {it['key'] for it in story.tenures.values()})
        for key in used:
            found['alive', key] = (story.born[key], story.over_at(key))
        for no, it in story.tenures.items():
            found['tenure', no] = (it['taken'], it['end'])
            if it['opened']:
                found['opened', no] = (it['opened'], it['end'])
            if it['end'] and it['last'] > it['end']:
                found['after', no] = (it['end'], it['last'])
            until = it['opened'] or it['end'] or math.inf
            for parent in story.parents[it['key']]:
                if (done := story.done(parent)) >= it['taken']:
                    end = min(done, until)
                    found['waits', f'{no} {parent}'] = (it['taken'], end if end < math.inf else None)
        for key, n, before, first, _ in story.doubles:
            found['twice', f'{n} {first}'] = (before, n)
        return {what: (self.place(one), self.end if other is None else self.place(other))
                for what, (one, other) in found.items()}

    def floors(self):
        """Where rows of the lease table begin: to the places and the count."""
        found, story = {}, self.story
        for shard, rows in story.rows.items():
            for n, words, cut in rows:
                puts = story.puts[shard]
                count = (sum(it < n for it, _ in puts) if words == ['latest']
                         else sum(story.clocks[it - 1] < int(words[1]) for it, _ in puts) if words
                         else 0)
                found['floor', f'{shard} {n}'] = ((self.place(n), self.end if cut is None else self.place(cut)), count)
        return found

    def holds(self, shard, count, window):
        low, high = self.heights(shard, window)
        return low <= count <= high


NUMBER = r'-?[\d.]+'


def steps_of(path):
    """The corners of a path of the page, which goes right and then up or down: where it begins, its steps and where it
    ends. An area's rest is left out."""
    path = re.sub(rf'V{NUMBER}H{NUMBER}Z$', '', path)
    head = re.match(rf'M({NUMBER}),({NUMBER})', path)
    px, py = float(head[1]), float(head[2])
    begin, corners, rest = px, [(px, py)], path[head.end():]
    for kind, value in re.findall(rf'([HV])({NUMBER})', rest):
        px, py = (float(value), py) if kind == 'H' else (px, float(value))
        corners.append((px, py))
    assert re.fullmatch(rf'([HV]{NUMBER})*', rest), path
    return begin, corners, px


def height_at(corners, px):
    """The height of a path at a place where it doesn't step."""
    return next((one[1] for one, other in zip(corners, corners[1:])
                 if one[1] == other[1] and one[0] <= px <= other[0]), None)


def stormy(seed, count=400):
    """A journal of `count` entries by chance: shards that split, leases that are stolen and freed, batches that are
    read ahead and delivered late."""
    chance = random.Random(seed)
    lines, clock, number, open_shards, next_shard = ['journal 2', '1000 0 made 1 storm 2'], 1000, 1, ['0', '1'], 2
    records, rows, holder, tenures = collections.defaultdict(list), set(), {}, {}
    say = lambda by, text: lines.append(f'{clock} {by} {text}')
    while len(lines) < count:
        clock += chance.choice((0, 1, 7, 40, 300))
        kind, no = chance.random(), chance.choice(list(tenures)) if tenures else None
        if kind < 0.35:
            shard = chance.choice(open_shards)
            say(0, f'put 1 {shard} {number} 5 2 3')
            records[shard].append(number)
            number += 1
        elif kind < 0.37 and next_shard < 9:
            shard = open_shards.pop(chance.randrange(len(open_shards)))
            say(0, f'split 1 {shard} 5 {number} {next_shard} {next_shard + 1}')
            open_shards += [str(next_shard), str(next_shard + 1)]
            number, next_shard = number + 1, next_shard + 2
        elif kind < 0.47:
            shard = chance.choice([str(it) for it in range(next_shard)])
            if shard not in rows:
                say(1, f'lease 1/{shard}{chance.choice(("", " latest"))}')
                rows.add(shard)
            no, worker = str(len(tenures) + 1), chance.randrange(1, 4)
            say(worker, f'taken 1/{shard} {no} 1 w{worker}')
            if chance.random() < 0.8:
                say(worker, f'opened {no}')
            holder[shard] = no
            tenures[no] = {'shard': shard, 'by': worker, 'at': chance.randrange(len(records[shard]) + 1),
                           'wait': [], 'given': None}
        elif no:
            act(chance, say, tenures[no], no, records, holder)
    clock += 500
    return '\n'.join([*lines, f'end {clock}']) + '\n'


def act(chance, say, it, no, records, holder):
    """One thing that a tenure does, whether or not it has the lease still."""
    what = chance.random()
    if what < 0.45 and len(it['wait']) < 8:
        some = records[it['shard']][it['at']:it['at'] + chance.randrange(1, 9)]
        it['at'] += len(some)
        it['wait'].append(some)
        say(it['by'], ' '.join(['read', no, '9', 'more', *map(str, some)]))
    elif what < 0.8 and it['wait']:
        it['given'] = (it['wait'].pop(0) or [it['given']])[-1]
        say(it['by'], f'given {no}')
    elif holder.get(it['shard']) == no:
        if what < 0.9 and it['given']:
            say(it['by'], f'marked {no} 2 {it["given"]}')
        elif what > 0.97:
            say(it['by'], f'freed {no} 3')
            del holder[it['shard']]
        else:
            say(it['by'], f'renewed {no} 2')
