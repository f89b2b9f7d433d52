"""Schedules and journals whose work should grow as their length does: streams of several shapes, workers that live
long, and audits. Each is a function of a number of rounds. `tests/growth.py` measures them."""
import itertools

from lib.lines import DAY, KEYS, create, merge, put, put_many, shard_id, split


class Stream:
    """The lines that make a stream of some shards and then split and merge a hot one of them,
    the others staying as they are."""

    def __init__(self, shards, hot, called='s'):
        self.called = called
        self.count = self.made = shards
        self.open = {place: place for place in hot}  # the open shard that stands at each hot place
        self.turns = itertools.cycle(hot)

    def begin(self):
        yield create(self.count, self.called)

    def round(self, at, number):
        """Splits the shard of the next hot place, and merges its children again."""
        place = next(self.turns)
        key = (2 * place + 1) * KEYS // (2 * self.count) + number
        yield split(at, self.open[place], key, self.called)
        low, self.made = self.made, self.made + 3
        yield merge(at, low, self.called)
        self.open[place] = low + 2


# Where the shards stand that are never split: a name, the number of shards, and the places of the hot ones.
SHAPES = [('no cold shard', 1, [0]), ('a cold shard first', 2, [1]), ('a cold shard in the middle', 3, [0, 2]),
          ('a cold shard last', 2, [0])]


def rounds(shape, count, requests=lambda at, number, closed: ()):
    """A split and a merge in turn, each pair with requests about one of the shards that are closed by then."""
    stream = Stream(*shape[1:])
    yield from stream.begin()
    for number in range(count):
        at = 1000 + number
        yield from stream.round(at, number)
        yield from requests(at, number, stream.count + number * 7919 % (stream.made - stream.count))


def puts(at, number, shard):
    """A put, the shards after a closed one, and a PutRecords of one."""
    yield put(at, f'key-{number}')
    yield f'{at} api ListShards {{"StreamName":"s","ExclusiveStartShardId":"{shard_id(shard)}","MaxResults":5}}'
    yield put_many(at, [(f'key-{number}', 'aGk=')])


def pages(shape, count, request):
    """The rounds alone, and two days later, when the closed shards have expired, eight requests for each."""
    yield from rounds(shape, count)
    for number in range(8 * count):
        yield f'{1000 + count + 2 * DAY + number} api {request(number * 7919 % (3 * count))}'


def first_page(_):
    return 'ListShards {"StreamName":"s","MaxResults":1}'


def whole_page(_):
    return 'ListShards {"StreamName":"s","MaxResults":1000}'


def later_page(shard):
    return f'ListShards {{"StreamName":"s","ExclusiveStartShardId":"{shard_id(shard)}","MaxResults":1}}'


def description(_):
    return 'DescribeStream {"StreamName":"s","Limit":1}'


def later_description(shard):
    return f'DescribeStream {{"StreamName":"s","ExclusiveStartShardId":"{shard_id(shard)}","Limit":1000}}'


def expiring(shape, count):
    """Rounds a millisecond apart, and a day later pages a millisecond apart, so that shards expire before each page."""
    yield from rounds(shape, count)
    for number in range(count):
        yield f'{1000 + DAY + number} api {first_page(number)}'


def survivor(count):
    """A worker that lives through reshards, each expired and cut before the next, and then makes steps with nothing to
    do."""
    yield create(1)
    yield '1000 worker w1 tally'
    for number in range(count):
        at = 2000 + 2 * number * DAY
        yield (f'{at} api UpdateShardCount '
               f'{{"StreamName":"s","TargetShardCount":{1 + (number + 1) % 2},"ScalingType":"UNIFORM_SCALING"}}')
        yield from (f'{at + 20_000 * step} step 1000' for step in range(14))
    yield from (f'{2000 + 2 * count * DAY + 20_000 * step} step 1000' for step in range(count))


def surveys(at):
    """The first steps of some workers, in each of which the worker surveys all rows and shards."""
    for worker in range(8):
        yield f'{at} worker w{worker + 1} tally'
        yield f'{at} step {1000 + worker}'


def first_surveys(count):
    """Many listed shards, a row for each, and then the first steps of some workers."""
    yield from rounds(SHAPES[0], count)
    yield from (f'{2000 + count} raw 1 make 1/{shard}' for shard in range(3 * count + 1))
    yield from surveys(3000 + count)


def owned_rows(count):
    """Listed shards, a row for each of another worker, and the first steps of some further workers."""
    yield from rounds(SHAPES[0], count // 5)
    yield from (f'{2000 + count} raw 1 make 1/{shard}' for shard in range(3 * (count // 5) + 1))
    yield from (f'{2000 + count} raw 1 take 1/{shard} 0 w{100 + shard}' for shard in range(3 * (count // 5) + 1))
    yield from surveys(3000 + count)


def missing_rows(count):
    """Listed shards, every second one without a row, and the first steps of some workers."""
    yield from rounds(SHAPES[0], count // 5)
    yield from (f'{2000 + count} raw 1 make 1/{shard}' for shard in range(0, 3 * (count // 5) + 1, 2))
    yield from surveys(3000 + count)


def second_stream(count, at):
    """A further stream with `count` splits and merges at one moment, and a row for each of its shards."""
    stream = Stream(1, [0], 't')
    yield from stream.begin()
    for number in range(count):
        yield from stream.round(at, number)
    yield from (f'{at} raw 1 make 2/{shard}' for shard in range(stream.made))


def rows_of_another_stream(count):
    """Listed shards of two streams, rows for those of the second alone, and the first steps of some workers."""
    yield from rounds(SHAPES[0], count // 5)
    yield from second_stream(count // 5, 2000 + count)
    yield from surveys(3000 + count)


def expired_rows(count):
    """Rows of expired shards, rows of the listed shards of another stream, and the first steps of some workers."""
    yield from rounds(SHAPES[0], count // 5)
    yield from (f'{2000 + count} raw 1 make 1/{shard}' for shard in range(3 * (count // 5) + 1))
    yield from second_stream(count // 5, 2000 + count + 2 * DAY)
    yield from surveys(3000 + count + 2 * DAY)


def fleet(count):
    """A worker for each shard of a stream, until each holds a lease, and then three rounds of steps."""
    shards = 2 * count // 25
    yield create(shards)
    yield from (f'1000 worker w{1 + worker} tally' for worker in range(shards))
    yield from ('1000 step 1000' for _ in range(shards + 1))
    yield from (f'1000 step {1000 + worker}' for worker in range(shards) for _ in range(6))
    for number in range(3):
        yield from (f'{2000 + number} step {1000 + worker}' for worker in range(shards) for _ in range(2))


def scaled(count):
    """A stream of many shards, scaled to one fewer and back four times: a scaling splits and merges nearly all."""
    shards = count // 10
    yield create(shards)
    for number in range(4):
        for target in (shards - 1, shards):
            yield (f'{1000 + number} api UpdateShardCount '
                   f'{{"StreamName":"s","TargetShardCount":{target},"ScalingType":"UNIFORM_SCALING"}}')


def made_and_deleted(count):
    for number in range(count):
        yield create(1, f's{number}', 1000 + number)
        yield f'{1000 + number} api DeleteStream {{"StreamName":"s{number}"}}'


def two_shards():
    """A stream of two shards, of which shard 0 has a reader, and the lines of a put to shard 1."""
    yield create(2)
    yield '1000 raw 1 make 1/0'
    yield '1000 raw 1 take 1/0 0 w1'
    yield '1000 raw 1 open 1'


def busy_put(at):
    return put(at, 'a', more=f',"ExplicitHashKey":"{KEYS - 1}"')


def quiet_reads(count):
    """Puts to one shard, each with a read of the other."""
    yield from two_shards()
    for number in range(count):
        yield busy_put(1000 + number)
        yield f'{1000 + number} raw 1 read 1 0 10'
        yield f'{1000 + number} raw 1 give 1'


def reads_behind_expired(count):
    """Puts, and two days later reads of a tenure that begins before all that has expired, and so finds nothing."""
    yield create(1)
    yield from (put(1000, 'a') for _ in range(count))
    at = 1000 + 2 * DAY
    yield from (f'{at} raw 1 {what}' for what in ('make 1/0', 'take 1/0 0 w1', 'open 1'))
    for _ in range(count):
        yield f'{at} raw 1 read 1 0 10'
        yield f'{at} raw 1 give 1'


def tenures_behind_expired(count):
    """Puts, two days later a split of their shard, and then tenures of it that each read, and find no record left."""
    yield create(1)
    yield from (put(1000, 'a') for _ in range(count))
    at = 1000 + 2 * DAY
    yield split(at, 0, KEYS // 2)
    yield f'{at} raw 1 make 1/0'
    for tenure in range(1, count + 1):
        yield f'{at} raw 1 take 1/0 {tenure - 1} w1'
        yield from (f'{at} raw 1 {what}' for what in (f'open {tenure}', f'read {tenure} 0 10', f'give {tenure}'))


def rows_at_a_moment(count):
    """Reshards of a shard, and in each shard that a merge made a put and a row from the moment of the put on."""
    stream = Stream(1, [0])
    yield from stream.begin()
    for number in range(count):
        at = 1000 + number
        yield from stream.round(at, number)
        yield put(at, 'a')
        yield f'{at} raw 1 make 1/{stream.open[0]} time {at}'


def limited_puts(count):
    """Puts under the limits on writing, one a millisecond, so that none is refused."""
    yield create(1)
    yield '1000 api LocalEnforceLimits {"StreamName":"s","Enforce":true}'
    yield from (put(1000 + number, 'a') for number in range(count))


# What grows faster, as docs/performance.md says. A worker keeps a note on each row that it ever saw, and plans on a
# copy of its notes: its steps cost a copy of them all. Twice as many workers each survey twice as many rows. Twice as
# many steps of a scaling each move the places of up to twice as many open shards.
SURVIVOR, FLEET = 'steps of a worker that lived through reshards', 'a worker for each shard'
SCALED = 'scaling to one shard fewer and back'
BY_DECISION = {SURVIVOR: 2.8, FLEET: 4.4, SCALED: 3.3}
# Kinds that would need more than the 500 open shards that there may be if they had more rounds.
FEW_ROUNDS = {FLEET: 1_000, SCALED: 1_000}
# What is measured: a name, the lines of a number of rounds, and whether the journal of the lines is audited
# in place of a replay of the lines.
LISTINGS = [('first pages', first_page), ('whole pages', whole_page), ('later pages', later_page),
            ('descriptions', description),
            ('later descriptions', later_description)]
KINDS = [
    *[(f'puts and pages, {shape[0]}', lambda count, shape=shape: rounds(shape, count, puts), False)
      for shape in SHAPES],
    *[(f'{what} among expired shards, {shape[0]}',
       lambda count, shape=shape, request=request: pages(shape, count, request), False)
      for what, request in LISTINGS for shape in SHAPES],
    *[(f'pages while shards expire, {shape[0]}', lambda count, shape=shape: expiring(shape, count), False)
      for shape in SHAPES],
    (SURVIVOR, survivor, False),
    ('first surveys of many shards', first_surveys, False),
    ('first surveys of rows of many owners', owned_rows, False),
    ('first surveys of shards without rows', missing_rows, False),
    ('first surveys of rows of another stream', rows_of_another_stream, False),
    ('first surveys of rows of expired shards', expired_rows, False),
    (FLEET, fleet, False),
    (SCALED, scaled, False),
    ('an audit of streams made and deleted', made_and_deleted, True),
    ('an audit of reads beside a busy shard', quiet_reads, True),
    ('an audit of reads behind expired records', reads_behind_expired, True),
    ('an audit of tenures behind expired records', tenures_behind_expired, True),
    ('an audit of rows made at a moment', rows_at_a_moment, True),
    ('an audit of puts under limits', limited_puts, True),
]
