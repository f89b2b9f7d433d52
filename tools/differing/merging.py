"""Merges, and the end of a merged shard."""
from differing.case import OWN, Scene
from differing.faults import Refused
from differing.steps import bounds, own


def make(stage):
    stage.begin(3)
    stage.kept.three = stage.open_shards()


def at(place):
    """The id of one of the three shards, for a member of a call."""
    return lambda stage: stage.kept.three[place][2]


scene = Scene('merging', make)
scene.call(
    'a merge of a shard with itself',
    (OWN, 'Errors and messages'),
    'MergeShards',
    {'StreamName': own, 'ShardToMerge': at(0), 'AdjacentShardToMerge': at(0)},
    kds='InvalidArgumentException',
)
scene.same_call(
    'a merge of shards that are not adjacent',
    'InvalidArgumentException',
    'MergeShards',
    {'StreamName': own, 'ShardToMerge': at(0), 'AdjacentShardToMerge': at(2)},
    place='MergeShards',
    reading='the ranges of both shards join',
)


@scene.case(
    'parents after a merge of an upper shard with a lower',
    (OWN, 'Parents of a merged shard'),
    kds='the upper, and the lower as the adjacent',
    place='ListShards.AdjacentParentShardId',
    reading='one of the two',
)
def merge(stage):
    low, high = at(0)(stage), at(1)(stage)
    said = ''
    try:
        stage.reshard('MergeShards', ShardToMerge=high, AdjacentShardToMerge=low)
    except Refused as refused:
        said = f'{refused.name}; if the lower is named first: '
        stage.reshard('MergeShards', ShardToMerge=low, AdjacentShardToMerge=high)
    stage.kept.joined = next(each for each in stage.shards() if 'AdjacentParentShardId' in each)
    parents = stage.kept.joined['ParentShardId'], stage.kept.joined['AdjacentParentShardId']
    return said + {
        (high, low): 'the upper, and the lower as the adjacent',
        (low, high): 'the lower, and the upper as the adjacent',
    }.get(parents, f'{parents}')


@scene.same(
    'hash keys of the merged shard',
    'those of both',
    place='MergeShards',
    reading='the new shard takes over both ranges',
)
def joined(stage):
    given = bounds(stage.kept.joined)
    return 'those of both' if given == (stage.kept.three[0][0], stage.kept.three[1][1]) else f'{given}'


@scene.same(
    'the child at the end of a merged shard',
    'one child of two parents',
    place='GetRecords.ChildShards',
    reading='the child, with its parents',
)
def merged(stage):
    joined = stage.kept.joined['ShardId']
    _, reply, _ = stage.read_out(at(0)(stage))
    given = reply.get('ChildShards', [])
    parents = [at(0)(stage), at(1)(stage)]
    fits = [(each['ShardId'], sorted(each['ParentShards'])) for each in given] == [(joined, parents)]
    return 'one child of two parents' if fits and stage.has_ranges(given) else f'{len(given)} children'


@scene.same(
    'the parents of the merged shard in ListShards',
    'both',
    place='ListShards.AdjacentParentShardId',
    reading='the other of the two parents',
)
def parents(stage):
    given = {stage.kept.joined['ParentShardId'], stage.kept.joined['AdjacentParentShardId']}
    return 'both' if given == {at(0)(stage), at(1)(stage)} else ' '.join(sorted(given))


@scene.same(
    'shards that DescribeStream names after a merge',
    'those of ListShards',
    place='DescribeStream.Shards',
    reading='with the parents of each',
)
def described(stage):
    return stage.described()


@scene.same(
    'a merge of that shard with the next one',
    'accepted',
    place='MergeShards.ShardToMerge',
    reading='the shard that is merged',
)
def merge_again(stage):
    return stage.attempt('MergeShards', ShardToMerge=stage.kept.joined['ShardId'], AdjacentShardToMerge=at(2)(stage))


@scene.case(
    'a split at the last hash key of a shard',
    (OWN, 'A split at the last hash key'),
    kds='accepted',
    place='SplitShard.NewStartingHashKey',
    reading='a hash key of the shard',
)
def split_at_end(stage):
    _, high, shard = stage.open_shards()[-1]
    return stage.attempt('SplitShard', 1, ShardToSplit=shard, NewStartingHashKey=str(high))
