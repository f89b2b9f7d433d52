"""Random schedules of all operations, which `bench/mixes` measures at two lengths. A seed decides which operations a
mix has, how often, and over what: that is its shape, the same at each length.

A mix in which twice as many lines may take more than twice the work, as docs/performance.md says, would show nothing.
So what makes them is left out, or is there as often at each length:
- A worker's step, `survey` and `rows` go over all rows and listed shards. Where these grow with the length, a mix has
  LOOKS such lines, whatever its length is.
- A split and a merge go over the open shards: those of a stream are as many before and after a reshard or a scaling.
- A row that is made or cut moves all rows after it: rows are made and cut at the end of the table.
- An audit of a put under limits goes over what the shard got within the second: limits are on only where at least 10
  milliseconds pass with each line.
- A turn goes over the live streams: a stream is deleted only when another one is made in its place."""
import base64
import random
import subprocess

from lib.lines import DAY, KEYS, shard_id, token

LOOKS = 48
TYPES = ['TRIM_HORIZON', 'LATEST', 'AT_TIMESTAMP', 'AT_SEQUENCE_NUMBER', 'AFTER_SEQUENCE_NUMBER']
FAULTS = [('PutRecord', '{}'), ('TagResource', '{"StreamName":"s1"}'), ('GetRecords', '['),
          ('SplitShard', '{"StreamName":"nosuch"}'),
          ('PutRecord', '{"StreamName":"s1","PartitionKey":"a","Data":"=="}')]
# The operations of a mix, each a method of Mix; those that come back weigh more.
OF_STREAMS = ['put', 'put', 'put', 'put_many', 'iterator', 'read', 'read', 'list_shards', 'describe', 'summary',
              'list_streams', 'reshard', 'reshard', 'scale', 'keep', 'limit', 'fault', 'replace']
OF_LEASES = ['make', 'make', 'take', 'take', 'open', 'fetch', 'fetch', 'give', 'mark', 'renew', 'free', 'cut']
OF_LOOKS = ['hire', 'step', 'step', 'step', 'step', 'hand', 'stop', 'survey', 'rows']
OF_TIME = ['second', 'minute', 'hour', 'day']


def uniform(count):
    """The ranges of `count` shards as CreateStream makes them."""
    width = -(-KEYS // count)
    return [(place * width, min((place + 1) * width, KEYS) - 1) for place in range(count)]


class Shape:
    """What a seed decides."""

    def __init__(self, seed):
        draw = random.Random(seed)
        self.grows = draw.random() < 0.6  # whether shards and rows grow with the length
        self.streams = draw.choice([1, 1, 2, 8, 64])
        self.shards = min(draw.choice([1, 2, 4, 16, 100]), 256 // self.streams)
        self.is_hot = draw.random() < 0.5
        self.data = base64.b64encode(b'x' * draw.choice([0, 2, 20, 100])).decode()
        self.batch, self.limit, self.page = draw.choice([1, 5, 50]), draw.choice([1, 10, 100]), draw.choice([1, 5, 100])
        self.owners, self.workers = draw.choice([1, 20, 100_000]), draw.choice([1, 2, 4, 16])
        self.phases = [self.phase(draw) for _ in range(draw.randrange(1, 5))]
        self.phases[0][1].setdefault('put', 3)

    def phase(self, draw):
        """The share of a phase, its operations with their weights, the milliseconds that pass with each line, and those
        that pass before it, which may be enough for all records to expire."""
        gap = draw.choice([0, 0, 1, 10, 1000])
        names = OF_STREAMS + OF_LEASES + OF_TIME * (draw.random() < 0.3) + OF_LOOKS * (not self.grows)
        names = {*draw.sample(names, draw.randrange(2, 11))}
        heavy = {'reshard', 'make', 'take'} if self.grows and draw.random() < 0.7 else set()
        if draw.random() < 0.4:
            heavy |= {'take', 'fetch', 'give'}
        names |= heavy | ({'open', 'mark'} if 'fetch' in heavy else set())
        if gap < 10:
            names -= {'limit'}
        if not self.grows:
            names -= {'reshard', 'scale', 'replace'}
        weights = {name: draw.choice([3, 10] if name in heavy else [1, 1, 3, 10]) for name in sorted(names)}
        return draw.random() + 0.1, weights, gap, draw.choice([0, 0, 2 * DAY])


class Stream:
    def __init__(self, number, shards):
        self.number, self.name = number, f's{number}'
        self.open = dict(enumerate(uniform(shards)))  # the range of each open shard
        self.made = shards
        self.next = 1  # its next sequence number
        self.hours = 24

    def close(self, shards, ranges):
        """Open shards of these ranges come in the place of these shards."""
        for shard in shards:
            del self.open[shard]
        for one in ranges:
            self.open[self.made] = one
            self.made += 1
        self.next += 1


class Tenure:
    def __init__(self, key, by, number, counter, start):
        self.key, self.by, self.number, self.counter = key, by, number, counter
        self.place = 0 if start == 'TRIM_HORIZON' else int(start) + 1
        self.is_open, self.pending, self.given = False, 0, 0


class Mix:
    """The lines of a mix. A run of the program answers each at once, since a tenure's lines need what its take said."""

    def __init__(self, seed, program):
        self.shape, self.draw = Shape(seed), random.Random(-1 - seed)
        self.run = subprocess.Popen([program, 'replay'], stdin=subprocess.PIPE, stdout=subprocess.PIPE)
        self.lines, self.answers, self.at = [], 0, 1000
        self.streams, self.last_stream = [], 0
        self.counters, self.tenures, self.workers = [], [], []  # the counter of the row of each shard of stream 1

    def say(self, text):
        """Adds a line, and returns the program's answer to it."""
        self.lines.append(f'{self.at} {text}')
        self.run.stdin.write(self.lines[-1].encode() + b'\n')
        self.run.stdin.flush()
        answer = self.run.stdout.readline()
        self.answers += len(answer)
        return answer.decode().rstrip('\n')

    def api(self, operation, body):
        return self.say(f'api {operation} {body}')

    def raw(self, what, by=1):
        answer = self.say(f'raw {by} {what}').split()
        return answer[1:] if answer[0] == 'ok' else None

    def written(self, count):
        """The lines of `count` operations, and the bytes of their answers."""
        for _ in range(self.shape.streams):
            self.create()
        for _ in range(0 if self.shape.grows else 8):
            self.make()
        whole, done = sum(phase[0] for phase in self.shape.phases), 0
        for share, weights, gap, rest in self.shape.phases:
            self.at += rest
            for name in self.draw.choices([*weights], [*weights.values()], k=int(count * share / whole)):
                getattr(self, name)()
                self.at += gap
                done += 1
                if self.shape.grows and done * LOOKS // count > (done - 1) * LOOKS // count:
                    getattr(self, self.draw.choice(OF_LOOKS))()
        self.run.stdin.close()
        if self.run.wait() != 0:
            raise SystemExit(f'the run ended with {self.run.returncode}')
        return self.lines, self.answers

    # ---- streams

    def create(self):
        self.last_stream += 1
        body = f'{{"StreamName":"s{self.last_stream}","ShardCount":{self.shape.shards}}}'
        if self.api('CreateStream', body).startswith('200'):
            self.streams.append(Stream(self.last_stream, self.shape.shards))

    def replace(self):
        """A stream in the place of another, but of the first one, which has the rows."""
        if len(self.streams) > 1:
            stream = self.streams.pop(self.draw.randrange(1, len(self.streams)))
            self.api('DeleteStream', f'{{"StreamName":"{stream.name}"}}')
            self.create()

    def stream(self):
        return self.streams[0] if self.shape.is_hot and self.draw.random() < 0.9 else self.draw.choice(self.streams)

    def shard(self, stream):
        """One of its shards, half of the time an open one."""
        return self.draw.choice([*stream.open]) if self.draw.random() < 0.5 else self.draw.randrange(stream.made)

    def item(self, stream):
        key = self.draw.randint(*self.draw.choice([*stream.open.values()]))
        return f'"PartitionKey":"k{self.draw.randrange(1000)}","Data":"{self.shape.data}","ExplicitHashKey":"{key}"'

    def put(self):
        stream = self.stream()
        if self.api('PutRecord', f'{{"StreamName":"{stream.name}",{self.item(stream)}}}').startswith('200'):
            stream.next += 1

    def put_many(self):
        stream = self.stream()
        items = ','.join(f'{{{self.item(stream)}}}' for _ in range(self.shape.batch))
        answer = self.api('PutRecords', f'{{"StreamName":"{stream.name}","Records":[{items}]}}')
        stream.next += answer.count('SequenceNumber')

    def iterator(self):
        stream, kind = self.stream(), self.draw.choice(TYPES)
        more = {'AT_TIMESTAMP': f',"Timestamp":{self.draw.randrange(self.at // 1000 + 1)}', 'LATEST': '',
                'TRIM_HORIZON': ''}.get(kind, f',"StartingSequenceNumber":"{self.draw.randint(1, stream.next)}"')
        self.api('GetShardIterator', f'{{"StreamName":"{stream.name}","ShardId":"{shard_id(self.shard(stream))}",'
                 f'"ShardIteratorType":"{kind}"{more}}}')

    def read(self):
        stream = self.stream()
        place = self.draw.choice([0, stream.next, self.draw.randrange(stream.next + 1)])
        iterator = token('KI1', stream.number, self.shard(stream), place, self.at)
        self.api('GetRecords', f'{{"ShardIterator":"{iterator}","Limit":{self.shape.limit}}}')

    def list_shards(self):
        stream = self.stream()
        after = self.draw.choice([
            f'"StreamName":"{stream.name}"',
            f'"StreamName":"{stream.name}","ExclusiveStartShardId":"{shard_id(self.shard(stream))}"',
            f'"NextToken":"{token("KT1", stream.number, self.shard(stream), self.at)}"'])
        self.api('ListShards', f'{{{after},"MaxResults":{self.shape.page}}}')

    def describe(self):
        stream = self.stream()
        after = self.draw.choice(['', f',"ExclusiveStartShardId":"{shard_id(self.shard(stream))}"'])
        self.api('DescribeStream', f'{{"StreamName":"{stream.name}","Limit":{self.shape.page}{after}}}')

    def summary(self):
        self.api('DescribeStreamSummary', f'{{"StreamName":"{self.stream().name}"}}')

    def list_streams(self):
        self.api('ListStreams', '{"Limit":3}')

    def reshard(self):
        """A split of an open shard, and the merge of its children."""
        stream = self.stream()
        shard = self.draw.choice([*stream.open])
        low, high = stream.open[shard]
        if high - low < 4:
            return
        key = self.draw.randint(low + 1, high)
        body = f'"ShardToSplit":"{shard_id(shard)}","NewStartingHashKey":"{key}"'
        if self.api('SplitShard', f'{{"StreamName":"{stream.name}",{body}}}') != '200':
            return
        one, other = stream.made, stream.made + 1
        stream.close([shard], [(low, key - 1), (key, high)])
        body = f'"ShardToMerge":"{shard_id(one)}","AdjacentShardToMerge":"{shard_id(other)}"'
        if self.api('MergeShards', f'{{"StreamName":"{stream.name}",{body}}}') == '200':
            stream.close([one, other], [(low, high)])

    def scale(self):
        """From the shards of the shape to one more, and back. The shards aren't followed: the stream is deleted."""
        if len(self.streams) < 2:
            return
        stream = self.streams.pop(self.draw.randrange(1, len(self.streams)))
        for target in (self.shape.shards + 1, self.shape.shards):
            self.api('UpdateShardCount', f'{{"StreamName":"{stream.name}","TargetShardCount":{target},'
                     '"ScalingType":"UNIFORM_SCALING"}')
        self.api('DeleteStream', f'{{"StreamName":"{stream.name}"}}')
        self.create()

    def keep(self):
        stream, hours = self.stream(), self.draw.choice([24, 25, 48, 100, 8760])
        word = 'Increase' if hours >= stream.hours else 'Decrease'
        body = f'{{"StreamName":"{stream.name}","RetentionPeriodHours":{hours}}}'
        if self.api(f'{word}StreamRetentionPeriod', body).startswith('200'):
            stream.hours = hours

    def limit(self):
        enforce = self.draw.choice(['true', 'false'])
        self.api('LocalEnforceLimits', f'{{"StreamName":"{self.stream().name}","Enforce":{enforce}}}')

    def fault(self):
        self.api(*self.draw.choice(FAULTS))

    # ---- leases, all of stream 1

    def make(self):
        if len(self.counters) < self.streams[0].made:
            more = self.draw.choice(['', '', ' latest', f' time {self.draw.randrange(self.at)}'])
            self.raw(f'make 1/{len(self.counters)}{more}')
            self.counters.append(0)

    def cut(self):
        if self.counters and self.raw(f'cut 1/{len(self.counters) - 1} {self.counters[-1]}') is not None:
            self.counters.pop()

    def take(self):
        if not self.counters:
            return self.make()
        shard, by = self.draw.randrange(len(self.counters)), self.draw.randint(1, 999)
        owner = self.draw.randint(1, self.shape.owners)
        if answer := self.raw(f'take 1/{shard} {self.counters[shard]} w{owner}', by):
            self.counters[shard] = int(answer[3])
            self.tenures.append(Tenure(shard, by, int(answer[1]), self.counters[shard], answer[5]))
            self.tenures = self.tenures[-64:]

    def tenure(self):
        if not self.tenures:
            self.take()
        return self.draw.choice(self.tenures) if self.tenures else None

    def open(self):
        if (tenure := self.tenure()) and self.raw(f'open {tenure.number}', tenure.by) is not None:
            tenure.is_open = True

    def fetch(self):
        """A read of a tenure, or what must come before it."""
        tenure = self.tenure()
        if not tenure or not tenure.is_open:
            return self.open()
        if tenure.pending == 8:
            return self.give()
        if answer := self.raw(f'read {tenure.number} {tenure.place} {self.shape.limit}', tenure.by):
            tenure.place = int(answer[1])
            tenure.pending += 1

    def give(self):
        tenure = self.tenure()
        if tenure and tenure.pending and (answer := self.raw(f'give {tenure.number}', tenure.by)):
            tenure.pending -= 1
            tenure.given = int(answer[1])

    def mark(self):
        if (tenure := self.tenure()) and tenure.given:
            self.renewed(tenure, f'mark {tenure.number} {tenure.counter} {tenure.given - 1}')

    def renew(self):
        if tenure := self.tenure():
            self.renewed(tenure, f'renew {tenure.number} {tenure.counter}')

    def free(self):
        if tenure := self.tenure():
            self.renewed(tenure, f'free {tenure.number} {tenure.counter}')

    def renewed(self, tenure, what):
        if self.raw(what, tenure.by) is not None:
            tenure.counter += 1
            self.counters[tenure.key] = tenure.counter

    # ---- workers, and what goes over all

    def hire(self):
        if len(self.workers) < self.shape.workers:
            kind, start = self.draw.choice(['tally', 'lines', 'users']), self.draw.choice(['', '', ' latest'])
            self.workers.append(int(self.say(f'worker w{len(self.workers) + 1} {kind}{start}').split()[1]))
        else:
            self.step()

    def worker(self):
        if not self.workers:
            self.hire()
        return self.draw.choice(self.workers)

    def step(self):
        self.say(f'step {self.worker()}')

    def hand(self):
        self.say(f'hand {self.worker()} 1/{self.draw.randrange(self.streams[0].made)}')

    def stop(self):
        if len(self.workers) > 1:
            self.say(f'stop {self.worker()}')

    def survey(self):
        self.raw('survey')

    def rows(self):
        self.raw('rows')

    # ---- time

    def second(self):
        self.at += 1000

    def minute(self):
        self.at += 60_000

    def hour(self):
        self.at += 3_600_000

    def day(self):
        self.at += DAY
