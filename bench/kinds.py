"""The kinds of schedules that `bench/replay` measures, `bench/profile` and `bench/ceiling` too: the lines of each, and
how many are asked for."""
from lib.lines import DAY, create, data, iterator, merge, put, put_many, shard_id, split


def puts(size, lines):
    """Puts into one stream of four shards."""
    payload = data(size)
    yield create(4)
    for i in range(lines):
        yield put(1000 + i // 10, f'key-{i % 1000}', payload)


def many(lines):
    """PutRecords of 500 records of 100 bytes."""
    payload = data(100)
    yield create(4)
    for i in range(lines):
        yield put_many(1000 + i, ((f'key-{(i + j) % 1000}', payload) for j in range(500)))


def reads_over(lines):
    """Reads of 1,000 records, one after another over a shard of as many records as lines."""
    payload = data(20)
    yield create(1)
    for i in range(lines):
        yield put(1000, f'k{i % 100}', payload)
    for i in range(lines // 50):
        place = iterator(1, 0, i * 1000 % max(lines - 1000, 1), 1000)
        yield f'1000 api GetRecords {{"ShardIterator":"{place}","Limit":1000}}'


def reads_at_the_end(lines):
    """Reads of one record at the far end of a shard of as many records as lines."""
    yield create(1)
    for i in range(lines // 2):
        yield put(1000, f'k{i % 100}')
    for i in range(lines // 2):
        yield f'1000 api GetRecords {{"ShardIterator":"{iterator(1, 0, lines // 2 - i % 50, 1000)}","Limit":1}}'


def past_the_retention(lines):
    """Puts, while the shards keep 5,000 records and each put trims one."""
    payload = data(100)
    yield create(4)
    for i in range(lines):
        yield put(1000 + i * DAY // 5000, f'key-{i % 1000}', payload)


def streams(lines):
    """Puts into 64 streams of 7 shards."""
    payload = data(100)
    for i in range(64):
        yield create(7, f'stream-{i}')
    for i in range(lines):
        yield put(1000 + i // 10, f'key-{i % 1000}', payload, f'stream-{i % 64}')


def reshards(lines):
    """A split and a merge in turn, with a put between: thousands of closed shards."""
    yield create(1)
    shard, made = 0, 1
    for i in range(lines // 3):
        at = 1000 + i
        yield split(at, shard, 2**127 + i)
        yield put(at, f'key-{i}')
        yield merge(at, made)
        shard, made = made + 2, made + 3


def closed_shards(lines):
    """A split or a merge, and after each a put, a read of a closed shard to its end, and a page of five shards after
    it."""
    yield create(1)
    shard, made = 0, 1
    for i in range(lines // 8):
        at = 1000 + i
        yield split(at, shard, 2**127 + i)
        yield from put_and_look(at, i, shard + 1)
        yield merge(at, made)
        yield from put_and_look(at, i, made + 2)
        shard, made = made + 2, made + 3


def batches_among_reshards(lines):
    """A split or a merge, and after each a PutRecords of one record."""
    yield create(1)
    shard, made = 0, 1
    for i in range(lines // 4):
        at = 1000 + i
        put_one = put_many(at, [(f'key-{i}', 'aGk=')])
        yield split(at, shard, 2**127 + i)
        yield put_one
        yield merge(at, made)
        yield put_one
        shard, made = made + 2, made + 3


def first_pages(lines):
    """Splits and merges, and two days later first pages of a shard: all closed shards have expired."""
    yield from reshards(lines // 2)
    for i in range(lines // 2):
        yield f'{1000 + lines + 2 * DAY + i} api ListShards {{"StreamName":"s","MaxResults":1}}'


def put_and_look(at, number, closed):
    """A put, and a look at one of `closed` closed shards and what stands after it."""
    shard = number * 7919 % closed
    yield put(at, f'key-{number}')
    yield f'{at} api GetRecords {{"ShardIterator":"{iterator(1, shard, 0, at)}"}}'
    yield f'{at} api ListShards {{"StreamName":"s","ExclusiveStartShardId":"{shard_id(shard)}","MaxResults":5}}'


def faults(lines):
    """Unknown operations, and puts without their key."""
    yield create(1)
    for i in range(lines // 2):
        yield f'{1000 + i} api TagResource {{"StreamName":"s"}}'
        yield f'{1000 + i} api PutRecord {{"StreamName":"s","Data":"aGk="}}'


def leases(shards, lines):
    """Workers take the leases of `shards` shards from one another; each opens its shard, is given the record that was
    put since, and marks it."""
    yield create(shards)
    for shard in range(shards):
        yield f'1000 raw 1 make 1/{shard}'
    place, counter = [0] * shards, [0] * shards
    for tenure in range(1, (lines - shards) // 6 + 1):
        at, shard, by = 1000 + tenure, tenure % shards, tenure % 999 + 1
        key = -(-shard * 2**128 // shards)
        yield put(at, 'a', more=f',"ExplicitHashKey":"{key}"')

        yield f'{at} raw {by} take 1/{shard} {counter[shard]} w{by}'
        yield f'{at} raw {by} open {tenure}'
        yield f'{at} raw {by} read {tenure} {place[shard]} 10'
        yield f'{at} raw {by} give {tenure}'
        yield f'{at} raw {by} mark {tenure} {counter[shard] + 1} {tenure}'
        place[shard], counter[shard] = tenure + 1, counter[shard] + 2


KINDS = {
    'puts of 100 bytes': (lambda n: puts(100, n), 100_000),
    'puts of 10 kB': (lambda n: puts(10_000, n), 10_000),
    'PutRecords of 500': (many, 400),
    'reads of 1,000 over a shard': (reads_over, 20_000),
    'reads of 1 at its far end': (reads_at_the_end, 100_000),
    'puts past the retention': (past_the_retention, 100_000),
    '64 streams of 7 shards': (streams, 100_000),
    'splits and merges': (reshards, 50_000),
    'looks at closed shards': (closed_shards, 50_000),
    'PutRecords of 1 among reshards': (batches_among_reshards, 20_000),
    'first pages among expired shards': (first_pages, 20_000),
    'faults': (faults, 100_000),
    'leases of 4 shards': (lambda n: leases(4, n), 100_000),
    'leases of 400 shards': (lambda n: leases(400, n), 100_000),
}
