"""Hosts that consume a stream, as a simulation by true times: leases, thefts, hand-offs, restarts, splits and merges.
It gives what each host's log would say, and what a dump of the lease table has."""
import collections
import json

# The time at which all begins, in milliseconds, and the numbers of the service: 56 digits.
BEGIN, FIRST_NUMBER = 1_796_119_200_000, 49_668 * 10**51
KEYS = 2**128
END = 'end'
# How often each thing happens.
DEEDS = {'put': 14, 'create': 4, 'take': 10, 'open': 10, 'fetch': 4, 'process': 16, 'checkpoint': 10, 'renew': 3,
         'release': 1, 'hand': 2, 'steal': 2, 'restart': 1, 'split': 1, 'merge': 1, 'pause': 1}
# How long it is till the next thing happens.
WAITS = ((1, 60), (20, 3000), (500, 20_000))


class Shard:
    def __init__(self, no, low, high, parents=()):
        self.name, self.no, self.low, self.high, self.parents = f'shardId-{no:012}', no, low, high, parents
        self.records, self.listed, self.is_open = [], 0, True

    def number(self, count):
        """The sequence number of the last of `count` records."""
        return self.records[count - 1] if count else 'TRIM_HORIZON'


class Hold:
    """A host's hold on a lease: what it fetched, and what its processor returned from."""

    def __init__(self, shard, start):
        self.shard, self.start, self.read, self.given, self.marked = shard, start, start, start, start
        self.waiting, self.opened, self.ended, self.paused = [], False, False, 0


class Row:
    def __init__(self):
        self.hold, self.owner, self.checkpoint, self.counter = None, '', 0, 0


Said = collections.namedtuple('Said', ('at', 'host', 'words', 'number', 'fails'))


class Life:
    """A stream with its consumers. `said` has a line for each event, with its true time."""

    def __init__(self, chance, puts):
        self.chance, self.now, self.puts, self.said = chance, BEGIN, puts, []
        self.hosts = [f'host-{name}' for name in 'abcde'[:chance.randint(2, 5)]]
        count = chance.randint(1, 4)
        self.shards = [Shard(no, KEYS * no // count, KEYS * (no + 1) // count - 1) for no in range(count)]
        self.rows, self.holds = {}, {host: {} for host in self.hosts}
        # whether records come only where somebody reads them
        self.is_careful = False
        self.say(None, ['stream', 'orders', *(it.name for it in self.shards)])

    def say(self, host, words, number=None, fails=False):
        self.said.append(Said(self.now, host, words, number, fails))
        self.now += self.chance.randint(*self.chance.choice(WAITS))

    # ---- the stream

    def put(self, shard, count):
        last = shard.records[-1] if shard.records else FIRST_NUMBER + shard.no * 10**40
        for _ in range(count):
            last += self.chance.randint(1, 10**9)
            shard.records.append(last)
        if self.puts:
            self.say(None, ['records', shard.name, str(count)], last)
            shard.listed = len(shard.records)

    def close(self, shard):
        """Of a shard that takes no more, a line has the records that none has yet."""
        if shard.listed < len(shard.records):
            self.say(None, ['records', shard.name, str(len(shard.records) - shard.listed)], shard.records[-1])
            shard.listed = len(shard.records)
        shard.is_open = False

    def born(self, low, high, *parents):
        shard = Shard(len(self.shards), low, high, parents)
        self.shards.append(shard)
        return shard.name

    def split(self):
        shard = self.one(it for it in self.shards if it.is_open and len(self.shards) < 7)
        if shard:
            self.close(shard)
            middle = (shard.low + shard.high + 1) // 2
            children = self.born(shard.low, middle - 1, shard), self.born(middle, shard.high, shard)
            self.say(None, ['split', shard.name, *children])

    def merge(self):
        some = [it for it in self.shards if it.is_open]
        beside = [(one, other) for one in some for other in some if one.high + 1 == other.low]
        if beside and len(self.shards) < 8:
            one, other = self.chance.choice(beside)
            self.close(one)
            self.close(other)
            self.say(None, ['merge', one.name, other.name, self.born(one.low, other.high, one, other)])

    # ---- the lease table

    def create(self, shard):
        self.rows[shard] = Row()
        self.say(self.chance.choice(self.hosts), ['create', shard.name])

    def take(self, host, shard):
        row = self.rows[shard]
        row.hold = self.holds[host][shard] = Hold(shard, row.checkpoint)
        row.owner = host
        row.counter += 1
        self.say(host, ['take', shard.name], shard.number(row.checkpoint))

    def is_held(self, host, hold):
        return self.rows[hold.shard].hold is hold

    def open(self, host, hold):
        if not self.is_held(host, hold):
            return self.holds[host].pop(hold.shard)
        hold.opened = all(self.rows.get(it) and self.rows[it].checkpoint == END for it in hold.shard.parents)
        number = hold.shard.number(hold.start) if hold.opened else None
        return self.say(host, ['open', hold.shard.name], number, not hold.opened)

    def fetch(self, host, hold, count):
        hold.waiting.append(count)
        hold.read += count
        hold.shard.listed = max(hold.shard.listed, hold.read)
        self.say(host, ['fetch', hold.shard.name, str(count)])

    def process(self, host, hold, count):
        """The processor returns, from what was fetched before or now."""
        if hold.waiting:
            count = hold.waiting.pop(0)
        else:
            hold.read += count
        hold.given += count
        hold.ended = hold.given == len(hold.shard.records) and not hold.shard.is_open and not count
        hold.shard.listed = max(hold.shard.listed, hold.read)
        self.say(host, ['process', hold.shard.name, str(count)], hold.shard.number(hold.given) if count else None)

    def checkpoint(self, host, hold):
        shard, row = hold.shard, self.rows[hold.shard]
        held = self.is_held(host, hold)
        if held:
            row.checkpoint, hold.marked = END if hold.ended else hold.given, hold.given
            row.counter += 1
        words = ['checkpoint', shard.name] + (['at', 'end'] if hold.ended else [])
        self.say(host, words, None if hold.ended else shard.number(hold.given), not held)
        if not held or hold.ended:
            self.drop(host, hold)

    def drop(self, host, hold):
        self.holds[host].pop(hold.shard, None)

    def free(self, host, hold, words):
        row = self.rows[hold.shard]
        row.hold, row.owner = None, ''
        self.drop(host, hold)
        self.say(host, [*words, hold.shard.name])

    def hand(self, host, hold):
        """The end of what was processed is the checkpoint."""
        if hold.given > hold.start:
            self.rows[hold.shard].checkpoint = hold.given
        self.free(host, hold, ['hand', 'off'])

    def restart(self, host):
        self.holds[host] = {}
        self.say(host, ['restarts'])

    # ---- what happens

    def one(self, some):
        some = list(some)
        return self.chance.choice(some) if some else None

    def held(self, fits):
        """A hold of some host, and who has it."""
        return self.one((host, it) for host in self.hosts for it in self.holds[host].values()
                        if it.paused < self.now and fits(host, it))

    def step(self):
        deed = self.chance.choices(list(DEEDS), DEEDS.values())[0]
        getattr(self, f'do_{deed}', lambda: None)()

    def do_put(self):
        shard = self.one(it for it in self.shards if it.is_open and (not self.is_careful or self.is_read(it)))
        if shard:
            self.put(shard, self.chance.randint(1, 9))

    def is_read(self, shard):
        return shard in self.rows and self.rows[shard].hold and self.rows[shard].hold.opened

    def do_create(self):
        shard = self.one(it for it in self.shards if it not in self.rows)
        if shard:
            self.create(shard)

    def do_take(self):
        """A host takes a lease that nobody has, or that a process before had: often that of the same host."""
        shard = self.one(it for it, row in self.rows.items() if row.checkpoint != END and not self.is_alive(row))
        if shard:
            other = self.chance.choice(self.hosts)
            self.take(self.chance.choice([self.rows[shard].owner or other, other]), shard)

    def is_alive(self, row):
        return row.hold and row.hold in self.holds[row.owner].values()

    def do_steal(self):
        """A host takes a lease of another, whose processor has it still for some time."""
        found = self.held(lambda host, it: it.opened and self.is_held(host, it) and not it.ended)
        if found:
            host, hold = found
            hold.paused = self.now + self.chance.randint(100, 30_000)
            self.take(self.chance.choice([it for it in self.hosts if it != host]), hold.shard)

    def do_pause(self):
        found = self.held(lambda host, it: it.waiting)
        if found:
            found[1].paused = self.now + self.chance.randint(1000, 60_000)

    def do_open(self):
        found = self.held(lambda host, it: not it.opened)
        if found:
            self.open(*found)

    def do_fetch(self):
        found = self.held(lambda host, it: it.opened and self.is_held(host, it) and len(it.waiting) < 3
                          and len(it.shard.records) > it.read)
        if found:
            self.fetch(*found, self.chance.randint(1, len(found[1].shard.records) - found[1].read))

    def do_process(self):
        found = self.held(lambda host, it: it.opened and (it.waiting or self.is_held(host, it) and self.has_more(it)))
        if found:
            left = len(found[1].shard.records) - found[1].read
            self.process(*found, self.chance.randint(1, left) if left else 0)

    @staticmethod
    def has_more(hold):
        return not hold.ended and (len(hold.shard.records) > hold.read or not hold.shard.is_open)

    def do_checkpoint(self):
        found = self.held(lambda host, it: it.opened and (it.given > it.marked or it.ended))
        if found:
            self.checkpoint(*found)

    def do_renew(self):
        found = self.held(lambda host, it: self.is_held(host, it))
        if found:
            self.rows[found[1].shard].counter += 1
            self.say(found[0], ['renew', found[1].shard.name])

    def do_release(self):
        found = self.held(lambda host, it: self.is_held(host, it) and not it.ended)
        if found:
            self.free(*found, ['release'])

    def do_hand(self):
        found = self.held(lambda host, it: it.opened and self.is_held(host, it) and not it.ended and not it.waiting)
        if found:
            self.hand(*found)

    def do_restart(self):
        self.restart(self.chance.choice(self.hosts))

    def do_split(self):
        self.split()

    def do_merge(self):
        self.merge()

    def live(self, steps):
        for _ in range(steps):
            self.step()

    def delete(self):
        """A day later the leases of shards that are gone are removed."""
        self.now += 25 * 3_600_000
        for shard, row in self.rows.items():
            if row.checkpoint == END:
                self.say(self.chance.choice(self.hosts), ['delete', shard.name])

    # ---- a dump

    def settle(self):
        """All that was put is processed and has its checkpoint, so that a dump says where each lease stands."""
        for shard in self.shards:
            if shard not in self.rows:
                self.create(shard)
        for host in self.hosts:
            for hold in list(self.holds[host].values()):
                if not self.is_held(host, hold):
                    self.drop(host, hold)
        for shard, row in self.rows.items():
            if self.is_alive(row):
                self.finish(row.owner, row.hold)
            elif row.checkpoint != END and len(shard.records) > row.checkpoint:
                host = self.chance.choice(self.hosts)
                self.take(host, shard)
                self.finish(host, row.hold)

    def finish(self, host, hold):
        if not hold.opened:
            self.open(host, hold)
        if hold.opened:
            while hold.waiting:
                self.process(host, hold, 0)
            if len(hold.shard.records) > hold.read:
                self.process(host, hold, len(hold.shard.records) - hold.read)
            # what a dump doesn't have, the host finds out once more
            hold.ended = False
            if hold.given > hold.marked:
                self.checkpoint(host, hold)

    def table(self):
        """The lease table as JSON lines, which has all that was put."""
        rows = []
        for shard, row in self.rows.items():
            shard.listed = len(shard.records)
            at = 'SHARD_END' if row.checkpoint == END else str(shard.number(row.checkpoint))
            rows.append({'leaseKey': shard.name, 'checkpoint': at, 'leaseOwner': row.owner,
                         'leaseCounter': str(row.counter), 'parentShardId': [it.name for it in shard.parents],
                         'startingHashKey': str(shard.low), 'endingHashKey': str(shard.high)})
        return '\n'.join(map(json.dumps, rows))
