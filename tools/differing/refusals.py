"""Errors by their names."""
from differing.case import DIFFERENT, OWN, Scene
from differing.faults import Refused
from differing.steps import ZERO, nobody, own

scene = Scene('refusals', lambda stage: stage.begin(1))
NUMBERS, ERRORS = (DIFFERENT, 'Numbers that are too large'), (OWN, 'Errors and messages')
AT = {'StreamName': own, 'ShardId': ZERO, 'ShardIteratorType': 'AT_SEQUENCE_NUMBER'}
PUT = {'PartitionKey': 'a', 'Data': ''}
# calls on a stream that isn't there
ABSENT = (
    ('DescribeStream', {}),
    ('DescribeStreamSummary', {}),
    ('DeleteStream', {}),
    ('ListShards', {}),
    ('PutRecord', PUT),
    ('PutRecords', {'Records': [PUT]}),
    ('GetShardIterator', {'ShardId': ZERO, 'ShardIteratorType': 'LATEST'}),
    ('SplitShard', {'ShardToSplit': ZERO, 'NewStartingHashKey': '9'}),
    ('MergeShards', {'ShardToMerge': ZERO, 'AdjacentShardToMerge': 'shardId-000000000001'}),
    ('IncreaseStreamRetentionPeriod', {'RetentionPeriodHours': 48}),
    ('DecreaseStreamRetentionPeriod', {'RetentionPeriodHours': 24}),
    ('UpdateShardCount', {'TargetShardCount': 1, 'ScalingType': 'UNIFORM_SCALING'}),
)

for operation, members in ABSENT:
    scene.same_call(
        f'{operation} of a stream that is not there',
        'ResourceNotFoundException',
        operation,
        {'StreamName': nobody, **members},
        place=operation,
        reading='the error of a stream that is not there',
    )
scene.same_call(
    'an iterator of a shard that is not there',
    'ResourceNotFoundException',
    'GetShardIterator',
    {'StreamName': own, 'ShardId': 'shardId-000000000099', 'ShardIteratorType': 'LATEST'},
    place='GetShardIterator.ShardId',
    reading='the error of a shard that is not there',
)
scene.same_call(
    'CreateStream of a name that is taken',
    'ResourceInUseException',
    'CreateStream',
    {'StreamName': own, 'ShardCount': 1},
    place='CreateStream',
    reading='the error of a name that is in use',
)
scene.call(
    'GetRecords with a Limit of 10,001',
    NUMBERS,
    'GetRecords',
    {'ShardIterator': lambda stage: stage.iterator(), 'Limit': 10_001},
    kds='ValidationException',
    says='InvalidArgumentException',
    place='GetRecords.Limit',
    reading='names the error of a number above 10,000',
)
scene.call(
    'a retention period of 8,761 hours',
    NUMBERS,
    'IncreaseStreamRetentionPeriod',
    {'StreamName': own, 'RetentionPeriodHours': 8_761},
    kds='ValidationException',
    says='InvalidArgumentException',
    place='IncreaseStreamRetentionPeriod.RetentionPeriodHours',
    reading='at most 8,760, and ValidationException is not among the errors of the operation',
)
scene.call(
    'a shard id that is not shardId- and twelve digits',
    (DIFFERENT, 'Ids of shards'),
    'GetShardIterator',
    {'StreamName': own, 'ShardId': 'shardId-7', 'ShardIteratorType': 'LATEST'},
    kds='ValidationException',
    says='ResourceNotFoundException',
    place='GetShardIterator.ShardId',
    reading='the form of an id allows it, and there is no such shard',
)
scene.call(
    'a StartingSequenceNumber of 56 digits',
    (DIFFERENT, 'Sequence numbers of 2^64 or more'),
    'GetShardIterator',
    {**AT, 'StartingSequenceNumber': '49' + '5' * 54},
    kds='ValidationException',
    says=('accepted', 'InvalidArgumentException'),
    place='GetShardIterator.StartingSequenceNumber',
    reading='up to 129 digits',
)
scene.call(
    'a StartingSequenceNumber outside the shard',
    ERRORS,
    'GetShardIterator',
    {**AT, 'StartingSequenceNumber': '9' * 19},
    kds='InvalidArgumentException',
)
scene.call(
    'an ExplicitHashKey that is no number',
    (DIFFERENT, 'ValidationException'),
    'PutRecord',
    {'StreamName': own, **PUT, 'ExplicitHashKey': 'x'},
    kds='ValidationException',
    says='InvalidArgumentException',
    place='PutRecord.ExplicitHashKey',
    reading='a number, and ValidationException is not among the errors of the operation',
)
scene.call(
    'a stream name with a space', ERRORS, 'DescribeStreamSummary', {'StreamName': 'a b'}, kds='ValidationException'
)
scene.call(
    'a stream that is not there, and an ExplicitHashKey that is no number',
    (OWN, 'Order of checks'),
    'PutRecord',
    {'StreamName': nobody, **PUT, 'ExplicitHashKey': 'x'},
    kds='ValidationException',
)


@scene.case('CreateStream with a ShardCount of 0', ERRORS, kds='ValidationException')
def none(stage):
    try:
        stage.streams.create(0, counted=1)
    except Refused as refused:
        return refused.told
    return 'accepted'
