"""Pages of shards and of streams."""
from differing.case import DIFFERENT, OWN, Scene
from differing.steps import KEYS, nobody, own

scene = Scene('listing', lambda stage: stage.begin(3))


@scene.case('where three new shards start', (OWN, 'Ranges of a new stream of n shards'), kds='i * floor(2^128 / 3)')
def thirds(stage):
    starts = [low for low, _, _ in stage.open_shards()]
    return 'i * floor(2^128 / 3)' if starts == [at * (KEYS // 3) for at in range(3)] else ' '.join(map(str, starts))


@scene.same(
    'ListShards in pages of one shard',
    '3 pages of 3 shards',
    place='ListShards.NextToken',
    reading='asks for the next page',
)
def pages(stage):
    told = stage.call('ListShards', StreamName=stage.name, MaxResults=1)
    stage.kept.token = told['NextToken']
    found, count = [each['ShardId'] for each in told['Shards']], 1
    while told.get('NextToken') and count < 9:
        told = stage.call('ListShards', NextToken=told['NextToken'], MaxResults=1)
        found, count = found + [each['ShardId'] for each in told['Shards']], count + 1
    return f'{count} pages of {len(set(found))} shards'


BESIDE = (DIFFERENT, 'NextToken beside another member')
scene.call(
    'NextToken beside StreamName',
    BESIDE,
    'ListShards',
    {'StreamName': own, 'NextToken': lambda stage: stage.kept.token},
    kds='ValidationException',
    says='InvalidArgumentException',
    place='ListShards.StreamName',
    reading='not beside NextToken',
)
scene.call(
    'NextToken beside StreamCreationTimestamp',
    BESIDE,
    'ListShards',
    {'StreamCreationTimestamp': 1, 'NextToken': lambda stage: stage.kept.token},
    kds='accepted',
    says='InvalidArgumentException',
    place='ListShards.StreamCreationTimestamp',
    reading='not beside NextToken',
)
scene.call(
    'AAAA as a NextToken of ListShards',
    (OWN, 'Tokens'),
    'ListShards',
    {'NextToken': 'AAAA'},
    kds='InvalidArgumentException',
)


@scene.same(
    'DescribeStream of one shard, then of the shards after it',
    '1 true, 2 false',
    place='DescribeStream.HasMoreShards',
    reading='whether shards are left',
)
def described(stage):
    first = stage.call('DescribeStream', StreamName=stage.name, Limit=1)['StreamDescription']
    rest = stage.call('DescribeStream', StreamName=stage.name, ExclusiveStartShardId=first['Shards'][-1]['ShardId'])[
        'StreamDescription'
    ]
    return ', '.join(f'{len(each["Shards"])} {str(each["HasMoreShards"]).lower()}' for each in (first, rest))


@scene.same(
    'ListShards of one shard, then of the one after it, and so on',
    '3 of 3 shards',
    place='ListShards.ExclusiveStartShardId',
    reading='the list begins after this shard',
)
def after_shard(stage):
    found, after = [], {}
    while len(found) < 9:
        told = stage.call('ListShards', StreamName=stage.name, MaxResults=1, **after)['Shards']
        if not told:
            break
        found.append(told[0]['ShardId'])
        after = {'ExclusiveStartShardId': found[-1]}
    return f'{len(found)} of {len(set(found))} shards'


scene.call(
    'DescribeStream with a Limit of 10,001',
    (DIFFERENT, 'ValidationException'),
    'DescribeStream',
    {'StreamName': own, 'Limit': 10_001},
    kds='ValidationException',
    says='InvalidArgumentException',
    place='DescribeStream.Limit',
    reading='at most 10,000, and ValidationException is not among the errors of the operation',
)

# Two streams of one shard each, for pages of names.


def two(stage):
    stage.kept.pair = [stage.streams.create(1, suffix=suffix) for suffix in ('a', 'B')]
    for name in stage.kept.pair:
        stage.streams.ready(name)
    stage.name = stage.kept.pair[0]


names = Scene('names', two)


names.call(
    'ListStreams with a Limit of 10,001',
    (DIFFERENT, 'ValidationException'),
    'ListStreams',
    {'Limit': 10_001},
    kds='ValidationException',
    says='InvalidArgumentException',
    place='ListStreams.Limit',
    reading='at most 10,000, and ValidationException is not among the errors of the operation',
)


@names.case('the order of the names ..-a and ..-B', (OWN, 'Default page sizes; order of names'), kds='B a')
def ordered(stage):
    found, more = [], {}
    for _ in range(200):
        told = stage.call('ListStreams', Limit=100, **more)
        found += [name for name in told['StreamNames'] if name in stage.kept.pair]
        if not told['HasMoreStreams'] or len(found) == 2:
            break
        more = {'ExclusiveStartStreamName': told['StreamNames'][-1]}
    return ' '.join(name[-1] for name in found)


names.call(
    'an ExclusiveStartStreamName that no stream has',
    (OWN, 'ExclusiveStartStreamName'),
    'ListStreams',
    {'ExclusiveStartStreamName': nobody},
    kds='accepted',
)


@names.same(
    'HasMoreStreams after one of two streams',
    'true',
    place='ListStreams.HasMoreStreams',
    reading='whether streams are left',
)
def more(stage):
    return str(stage.call('ListStreams', Limit=1)['HasMoreStreams']).lower()


@names.same(
    'the first name after one of two streams',
    'the other',
    place='ListStreams.ExclusiveStartStreamName',
    reading='the page begins after this name',
)
def after_name(stage):
    """Of two neighbours one comes after the other, and neither after itself."""
    pair = stage.kept.pair
    given = [stage.call('ListStreams', Limit=1, ExclusiveStartStreamName=name)['StreamNames'] for name in pair]
    fits = ([pair[1]] == given[0]) != ([pair[0]] == given[1])
    return 'the other' if fits and all([name] != told for name, told in zip(pair, given)) else f'{given}'
