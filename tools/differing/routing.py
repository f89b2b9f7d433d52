"""Which shard a record goes to, and its number."""
import hashlib

from differing.case import OWN, Scene, Unmet
from differing.steps import KEYS

scene = Scene('routing', lambda stage: stage.begin(2))
# of RFC 1321, section A.5
DIGESTS = {
    'a': '0cc175b9c0f1b6a831c399e269772661',
    'abc': '900150983cd24fb0d6963f7d28e17f72',
    'message digest': 'f96b697d7cb7938d525a2f31aaf161d0',
    'ABCDEFGHIJKLMNOPQRSTUVWXYZabcdefghijklmnopqrstuvwxyz0123456789': 'd174ab98d277d9f5a5611c2c9f419d9f',
}


@scene.case(
    'numbers of three records in a new stream',
    (OWN, 'Sequence numbers'),
    kds='rising, 1 2 3',
    place='PutRecord.SequenceNumber',
    reading='numbers rise with time',
)
def numbers(stage):
    given = [int(stage.put('a')['SequenceNumber']) for _ in range(3)]
    how = 'rising' if given == sorted(set(given)) else 'not rising'
    return f'{how}, {" ".join(map(str, given)) if given[-1] < 10**6 else f"{len(str(given[0]))} digits"}'


def home(stage, spot):
    return next(shard for low, high, shard in stage.open_shards() if low <= spot <= high)


@scene.case(
    'where a, abc and message digest go, and a key beyond ASCII',
    (OWN, 'Hash of a partition key'),
    kds='where their MD5 says',
    says='where their MD5 says',
    place='PutRecord.PartitionKey',
    reading='MD5 makes a hash key of 128 bits',
)
def routing(stage):
    for key, digest in (DIGESTS | {'ß漢': hashlib.md5('ß漢'.encode()).hexdigest()}).items():
        given = stage.put(key)['ShardId']
        if given != home(stage, int(digest, 16)):
            return f'{key} goes to {given}'
    return 'where their MD5 says'


@scene.same(
    'ExplicitHashKey at both ends of each shard',
    'in its shard',
    place='PutRecord.ExplicitHashKey',
    reading='names the hash key, so the shard',
)
def ends(stage):
    for low, high, shard in stage.open_shards():
        for spot in (low, high):
            given = stage.put('a', ExplicitHashKey=str(spot))['ShardId']
            if given != shard:
                return f'{spot} is put into {given}, not into {shard}'
    return 'in its shard'


@scene.same(
    'numbers of two records in two shards',
    'two',
    place='PutRecord.SequenceNumber',
    reading='no two records of a stream have one number',
)
def unique(stage):
    given = [stage.put('u', ExplicitHashKey=str(low + 1)) for low, _, _ in stage.open_shards()]
    if len({each['ShardId'] for each in given}) != 2:
        raise Unmet('records in two shards')
    held = [
        {record['SequenceNumber'] for record in stage.read(stage.iterator(each['ShardId']), 1)[0]} for each in given
    ]
    return 'one' if len({each['SequenceNumber'] for each in given}) == 1 or held[0] & held[1] else 'two'


@scene.same(
    'hash keys of two new shards',
    'all, without a gap',
    place='ListShards.HashKeyRange',
    reading='the ranges of open shards join',
)
def ranges(stage):
    (first, middle, _), (upper, last, _) = stage.open_shards()
    return (
        'all, without a gap'
        if (first, middle + 1, last) == (0, upper, KEYS - 1)
        else f'{first} {middle} {upper} {last}'
    )
