"""Splits, and the end of a closed shard. At most three shards are open."""
import base64
import time

from differing.case import DIFFERENT, LEFT, OWN, Scene
from differing.faults import Refused
from differing.steps import bounds, is_closed


# what DescribeStream and DescribeStreamSummary both tell
BOTH = (
    'StreamName StreamARN StreamStatus RetentionPeriodHours StreamCreationTimestamp EnhancedMonitoring'.split()
)


def make(stage):
    stage.begin(2)
    stage.kept.first = stage.open_shards()


scene = Scene('splitting', make)
STATES, SPLITS, ERRORS = (LEFT, 'States'), (DIFFERENT, 'Where a shard is split'), (OWN, 'Errors and messages')


@scene.case(
    'a split at the first hash key of a shard',
    SPLITS,
    kds='InvalidArgumentException',
    says='accepted',
    place='SplitShard.NewStartingHashKey',
    reading='a hash key of the shard',
)
def split_at_start(stage):
    low, _, shard = stage.kept.first[1]
    return stage.attempt('SplitShard', 1, ShardToSplit=shard, NewStartingHashKey=str(low))


@scene.same(
    'a split at a hash key of another shard',
    'InvalidArgumentException',
    place='SplitShard.NewStartingHashKey',
    reading='a hash key of the shard',
)
def split_outside(stage):
    return stage.attempt('SplitShard', 1, ShardToSplit=stage.kept.first[1][2], NewStartingHashKey='9')


@scene.case(
    'the status right after SplitShard',
    STATES,
    kds='ACTIVE',
    says='UPDATING',
    place='SplitShard',
    reading='the stream is UPDATING until the split is done',
)
def split(stage):
    low, high, shard = stage.kept.first[0]
    stage.kept.before = [stage.put('b', f'before {at}'.encode(), ExplicitHashKey=str(low + at)) for at in (1, 2)]
    stage.kept.parent, stage.kept.key = shard, (low + high) // 2 + 1
    state = stage.reshard('SplitShard', 1, ShardToSplit=shard, NewStartingHashKey=str(stage.kept.key))
    stage.kept.children = sorted((each for each in stage.shards() if each.get('ParentShardId') == shard), key=bounds)
    return state


@scene.same(
    'ranges of the children of a split, and which shard is closed',
    'as the split key says',
    place='SplitShard.NewStartingHashKey',
    reading='the key and what is above it go to one child, the rest to the other',
)
def children(stage):
    low, high, _ = stage.kept.first[0]
    closed = [each['ShardId'] for each in stage.shards() if is_closed(each)]
    given = [bounds(each) for each in stage.kept.children]
    fits = given == [(low, stage.kept.key - 1), (stage.kept.key, high)] and closed == [stage.kept.parent]
    return 'as the split key says' if fits else f'{given}, closed {closed}'


@scene.case(
    'a closed shard in ListShards',
    (OWN, 'Closed shards'),
    kds='listed',
    place='ListShards',
    reading='expired shards are not listed',
)
def listed(stage):
    return 'listed' if stage.kept.parent in [each['ShardId'] for each in stage.shards()] else 'not listed'


@scene.case('ids of two shards and the children of the first', (OWN, 'Numbers of shards'), kds='0 1 2 3')
def ids(stage):
    return ' '.join(
        str(int(name.removeprefix('shardId-'))) for name in sorted(each['ShardId'] for each in stage.shards())
    )


@scene.case(
    'the last number of a parent, and the first of its children',
    (OWN, 'Sequence numbers'),
    kds='two numbers, the last first',
    place='ListShards.SequenceNumberRange',
    reading='a closed shard has a last number',
)
def numbered(stage):
    parent = next(each for each in stage.shards() if each['ShardId'] == stage.kept.parent)
    last = int(parent['SequenceNumberRange']['EndingSequenceNumber'])
    starts = {int(each['SequenceNumberRange']['StartingSequenceNumber']) for each in stage.kept.children}
    if last < int(stage.kept.before[-1]['SequenceNumber']):
        return 'the last is below that of a record'
    return (
        'one number'
        if starts == {last}
        else 'two numbers, the last first'
        if len(starts) == 1 and min(starts) > last
        else f'last {last}, first {sorted(starts)}'
    )


@scene.same(
    'the end of a closed shard',
    'its 2 records, then null and 2 children',
    place='GetRecords.ChildShards',
    reading='there is no next iterator, and the children are told',
)
def closed(stage):
    records, reply, end = stage.read_out(stage.kept.parent)
    mine = [each for each in records if base64.b64decode(each['Data']).startswith(b'before')]
    children = reply.get('ChildShards', [])
    where = '' if stage.has_ranges(children) else ' with other hash keys'
    return f'its {len(mine)} records, then {end} and {len(children)} children{where}'


@scene.same(
    'shards that DescribeStream names after a split',
    'those of ListShards',
    place='DescribeStream.Shards',
    reading='open and closed shards',
)
def described(stage):
    return stage.described()


@scene.same(
    'what DescribeStream and DescribeStreamSummary say of a stream',
    'the same, and the open shards',
    place='DescribeStreamSummary.OpenShardCount',
    reading='the open shards',
)
def agree(stage):
    told, short = stage.description(), stage.summary()
    wrong = [name for name in BOTH if told[name] != short[name]]
    wrong += ['StreamName'] * (short['StreamName'] != stage.name)
    wrong += ['OpenShardCount'] * (short['OpenShardCount'] != len(stage.open_shards()))
    wrong += ['StreamCreationTimestamp'] * (abs(short['StreamCreationTimestamp'] - time.time()) > 600)
    return ', '.join(dict.fromkeys(wrong)) or 'the same, and the open shards'


@scene.case(
    'LATEST on a closed shard',
    (DIFFERENT, 'LATEST and AT_TIMESTAMP on a closed shard'),
    kds='no record, then null',
    says='1 record, then null',
    place='GetShardIterator',
    reading='an iterator at the last number of the shard',
)
def late(stage):
    records, _, end = stage.read_out(stage.kept.parent, 'LATEST')
    return f'{len(records) or "no"} record{"s" * (len(records) > 1)}, then {end}'


@scene.case(
    'ShardFilter AT_LATEST after a split',
    (LEFT, 'ShardFilter'),
    kds='ValidationException',
    says='the open shards',
    place='ListShards.ShardFilter',
    reading='the shards that are open now',
)
def filtered(stage):
    parent = stage.kept.parent
    try:
        given = {
            each['ShardId']
            for each in stage.call('ListShards', StreamName=stage.name, ShardFilter={'Type': 'AT_LATEST'})['Shards']
        }
    except Refused as refused:
        return refused.told
    return (
        'the open shards'
        if given == {name for _, _, name in stage.open_shards()}
        else 'all shards'
        if parent in given
        else f'{len(given)} shards'
    )


@scene.case('a split of a closed shard', ERRORS, kds='InvalidArgumentException')
def split_closed(stage):
    """Three shards are open here, so there is no room for one more: the key is that of a shard that is open."""
    return stage.outcome(
        'SplitShard',
        StreamName=stage.name,
        ShardToSplit=stage.kept.parent,
        NewStartingHashKey=str(stage.kept.first[1][0] + 9),
    )
