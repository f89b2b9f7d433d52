"""Iterators, and what they read."""
import base64
import contextlib
import time

from differing.case import OWN, SLOW, Scene
from differing.steps import ZERO


def make(stage):
    stage.begin(1)
    stage.put('a', b'first')
    stage.kept.token, stage.kept.since = stage.iterator(), time.monotonic()


scene = Scene('reads', make)


@scene.same(
    'an iterator that is used twice',
    'the same record',
    place='GetShardIterator.ShardIterator',
    reading='a place to read from',
)
def twice(stage):
    return (
        'the same record'
        if stage.read(stage.kept.token, 1, 1)[0] == stage.read(stage.kept.token, 1, 1)[0]
        else 'another record'
    )


@scene.same(
    'records that each kind of iterator reads, from the second of three on',
    '3 2 1 0 3 0',
    place='GetShardIterator.ShardIteratorType',
    reading='the oldest, at a number, after a number, only new ones, at a time, at a time to come',
)
def kinds(stage):
    time.sleep(1.1)
    begin = int(time.time())
    time.sleep(1.1)
    puts = [stage.put('i')['SequenceNumber'] for _ in range(3)]
    asked = (
        ('TRIM_HORIZON', {}, 50),
        ('AT_SEQUENCE_NUMBER', {'StartingSequenceNumber': puts[1]}, 2),
        ('AFTER_SEQUENCE_NUMBER', {'StartingSequenceNumber': puts[1]}, 1),
        ('LATEST', {}, 0),
        ('AT_TIMESTAMP', {'Timestamp': begin}, 3),
        ('AT_TIMESTAMP', {'Timestamp': int(time.time()) + 100}, 0),
    )
    read = [
        {record['SequenceNumber'] for record in stage.read(stage.iterator(ZERO, kind, **more), least)[0]}
        for kind, more, least in asked
    ]
    return ' '.join(str(len(each & set(puts))) for each in read)


@scene.same(
    'what LATEST reads of a record that is put after it',
    'that record',
    place='GetShardIterator.ShardIteratorType',
    reading='LATEST reads only what comes',
)
def latest(stage):
    at = stage.iterator(ZERO, 'LATEST')
    number = stage.put('l')['SequenceNumber']
    given = [record['SequenceNumber'] for record in stage.read(at, 1)[0]]
    return 'that record' if given == [number] else f'{len(given)} records'


@scene.same(
    'three records in pages of one, and one that is put at the end of them',
    'each once, in order',
    place='GetRecords.NextShardIterator',
    reading='reads on, and is null only at the end of a closed shard',
)
def onward(stage):
    puts = [stage.put(f'p{at}')['SequenceNumber'] for at in range(3)]
    at, given = stage.from_number(puts[0]), []
    for _ in range(12):
        told = stage.call('GetRecords', ShardIterator=at, Limit=1)
        given += [record['SequenceNumber'] for record in told['Records']]
        at = told['NextShardIterator']
        if len(given) == len(puts) == 3:
            puts.append(stage.put('p3')['SequenceNumber'])
        if len(given) == 4:
            break
        stage.rest()
    return 'each once, in order' if given == puts else f'{len(given)} of {len(puts)}, {len(set(given))} of them apart'


BEHIND = ('the age of the next record', 'the age of the record that is returned', 'the time between the two records')


@scene.case(
    'MillisBehindLatest if one record follows',
    (OWN, 'MillisBehindLatest'),
    kds='the age of the next record',
    says=BEHIND,
    place='GetRecords.MillisBehindLatest',
    reading='how far the reply is behind the end of the shard',
)
def behind(stage):
    """Each age lies between two that are measured here, so a busy machine makes them wide and not wrong."""
    times = [time.monotonic()]

    def timed(call):
        given = call()
        times.append(time.monotonic())
        return given

    def within(begin, end):
        """Whether it is the time between two calls."""
        return times[end] - times[begin + 1] - 0.3 < age < times[end + 1] - times[begin] + 0.3

    first = timed(lambda: stage.put('m'))['SequenceNumber']
    timed(lambda: time.sleep(1))
    timed(lambda: stage.put('m'))
    timed(lambda: time.sleep(3))
    _, reply = timed(lambda: stage.read(stage.from_number(first), 1, 1))
    age = reply['MillisBehindLatest'] / 1000
    named = (
        ('0', age == 0),
        ('the age of the next record', within(2, 4)),
        ('the age of the record that is returned', within(0, 4)),
        ('the time between the two records', within(0, 2)),
    )
    return next((name for name, holds in named if holds), f'{age} seconds')


@scene.case(
    'what a shard iterator is',
    (OWN, 'Tokens'),
    kds='base64 of KI1:..',
    place='GetShardIterator.ShardIterator',
    reading='a text that stands for a place',
)
def token(stage):
    with contextlib.suppress(ValueError):
        text = base64.b64decode(stage.kept.token, validate=True)
        return 'base64 of KI1:..' if text.startswith(b'KI1:') else f'base64 of {len(text)} bytes'
    return f'{len(stage.kept.token)} characters'


scene.call(
    'an iterator with one more character',
    (OWN, 'Tokens'),
    'GetRecords',
    {'ShardIterator': lambda stage: stage.kept.token + '='},
    kds='InvalidArgumentException',
)
scene.call(
    'AAAA as an iterator', (OWN, 'Tokens'), 'GetRecords', {'ShardIterator': 'AAAA'}, kds='InvalidArgumentException'
)


@scene.case(
    'an iterator after 301 seconds',
    (OWN, 'Tokens'),
    kds='ExpiredIteratorException',
    says='ExpiredIteratorException',
    place='GetShardIterator.ShardIterator',
    reading='valid for five minutes',
    takes=SLOW,
)
def expired(stage):
    time.sleep(max(0, stage.kept.since + 301 - time.monotonic()))
    return stage.outcome('GetRecords', ShardIterator=stage.kept.token)


@scene.same(
    'the arrival of a record',
    'within a minute of now',
    place='GetRecords.ApproximateArrivalTimestamp',
    reading='about when the record came',
)
def arrived(stage):
    number = stage.put('w')['SequenceNumber']
    record = stage.read(stage.from_number(number), 1, 1)[0][0]
    away = record['ApproximateArrivalTimestamp'] - time.time()
    return 'within a minute of now' if abs(away) < 60 else f'{away:.0f} seconds from now'
