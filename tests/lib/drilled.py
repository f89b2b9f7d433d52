"""A plain reading of what a drill prints."""
import hashlib

from lib.lines import KEYS


class Stream:
    """The shards of a stream, each with its range and the numbers of its records."""

    def __init__(self, count):
        self.ranges = [(i * KEYS // count, (i + 1) * KEYS // count - 1) for i in range(count)]
        self.records = [[] for _ in self.ranges]
        self.open = list(range(count))
        self.drawn = self.payload = 0

    def draw(self):
        self.drawn += 1
        return self.drawn

    def put(self, hash, payload):
        home = next(s for s in self.open if self.ranges[s][0] <= hash <= self.ranges[s][1])
        self.records[home].append(self.draw())
        self.payload += payload

    def reshard(self, closed, ranges):
        self.draw()
        for shard in closed:
            self.open.remove(shard)
        for range in ranges:
            self.open.append(len(self.ranges))
            self.ranges.append(range)
            self.records.append([])

    def end_of(self, shard):
        if shard not in self.open:
            return 'SHARD_END'
        return self.records[shard][-1] if self.records[shard] else 'TRIM_HORIZON'

    def summary(self):
        lines = [f'shardId-{s:012} {len(rs)} {self.end_of(s)}\n' for s, rs in enumerate(self.records)]
        return ''.join(lines) + f'total {sum(map(len, self.records))} {self.payload}\n'


def reshard(stream, x):
    """A split or a merge, as the bit of the last draw has it."""
    start, end = stream.ranges[stream.open[0]]
    if x >> 40 & 1 == 0 and len(stream.open) < 16 and start < end:
        at = start + (end - start) // 2 + 1
        stream.reshard([stream.open[0]], [(start, at - 1), (at, end)])
    elif len(stream.open) >= 2:
        first, second = sorted(stream.open, key=lambda s: stream.ranges[s])[:2]
        stream.reshard([first, second], [(stream.ranges[first][0], stream.ranges[second][1])])


def drilled(number, records):
    """What a drill of this number of `records` records prints."""
    stream, x = Stream(4), number
    for i in range(records):
        x = (x * 6364136223846793005 + 1442695040888963407) % 2**64
        key = hashlib.md5(f'k{x}'.encode()).digest()
        stream.put(x * 2**64 if i % 2 == 0 else int.from_bytes(key, 'big'), x % 64)
        if (i + 1) % 500 == 0:
            reshard(stream, x)
    return stream.summary()
