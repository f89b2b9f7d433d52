"""The lines of schedules that several checks and benchmarks make, and what stands in them."""
import base64

DAY = 86_400_000
KEYS = 2**128


def shard_id(number):
    return f'shardId-{number:012}'


def token(*fields):
    return base64.b64encode(':'.join(map(str, fields)).encode()).decode()


def iterator(stream, shard, position, issued):
    return token('KI1', stream, shard, position, issued)


def data(size):
    """The text of a payload of `size` bytes."""
    return base64.b64encode(bytes(i % 251 for i in range(size))).decode()


def create(shards, stream='s', at=1000):
    return f'{at} api CreateStream {{"StreamName":"{stream}","ShardCount":{shards}}}'


def put(at, key, payload='aGk=', stream='s', more=''):
    return f'{at} api PutRecord {{"StreamName":"{stream}","PartitionKey":"{key}","Data":"{payload}"{more}}}'


def put_many(at, records, stream='s'):
    """A PutRecords of these pairs of a key and a payload."""
    items = ','.join(f'{{"PartitionKey":"{key}","Data":"{payload}"}}' for key, payload in records)
    return f'{at} api PutRecords {{"StreamName":"{stream}","Records":[{items}]}}'


def split(at, shard, key, stream='s'):
    return (f'{at} api SplitShard {{"StreamName":"{stream}","ShardToSplit":"{shard_id(shard)}",'
            f'"NewStartingHashKey":"{key}"}}')


def merge(at, shard, stream='s'):
    """A merge of a shard with the one of the next number."""
    return (f'{at} api MergeShards {{"StreamName":"{stream}","ShardToMerge":"{shard_id(shard)}",'
            f'"AdjacentShardToMerge":"{shard_id(shard + 1)}"}}')
