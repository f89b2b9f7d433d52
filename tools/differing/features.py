"""Features of streams that `kds` leaves out."""
from differing.case import BEYOND, LEFT, Scene
from differing.faults import Refused
from differing.steps import ZERO, b64, own


def make(stage):
    stage.begin(1, Tags={'made': 'here'}, MaxRecordSizeInKiB=1024)


scene = Scene('features', make)


@scene.case(
    'the tags that CreateStream was given',
    (LEFT, 'Tags'),
    kds='UnknownOperationException',
    says='kept',
    place='CreateStream.Tags',
    reading='the tags of the new stream',
)
def tags(stage):
    try:
        given = stage.call('ListTagsForStream', StreamName=stage.name)['Tags']
    except Refused as refused:
        return refused.told
    return 'kept' if given == [{'Key': 'made', 'Value': 'here'}] else f'they are {given}'


def arn(stage):
    return stage.summary()['StreamARN']


scene.call(
    'StreamARN alone',
    (LEFT, 'StreamARN'),
    'DescribeStreamSummary',
    {'StreamARN': arn},
    kds='ValidationException',
    says='accepted',
    place='DescribeStreamSummary.StreamARN',
    reading='names the stream as well as StreamName does',
)
scene.call(
    'StreamName beside the StreamARN of another stream',
    (LEFT, 'StreamARN'),
    'DescribeStreamSummary',
    {'StreamName': own, 'StreamARN': lambda stage: arn(stage) + '-other'},
    kds='accepted',
)
scene.call(
    'a member that no model has', (LEFT, 'Other members'), 'ListStreams', {'Nonsense': 1, 'Limit': 1}, kds='accepted'
)
scene.call(
    'a record of 1,048,577 bytes with its key in a stream for records of 1,024 KiB',
    (LEFT, 'Sizes of records'),
    'PutRecord',
    {'StreamName': own, 'PartitionKey': 'k', 'Data': b64(bytes(1_048_576))},
    kds='accepted',
    says=('InvalidArgumentException', 'ValidationException'),
    place='CreateStream.MaxRecordSizeInKiB',
    reading='the largest record of the stream',
)
scene.call(
    'a Timestamp with milliseconds',
    (LEFT, 'Fractions of a second'),
    'GetShardIterator',
    {'StreamName': own, 'ShardId': ZERO, 'ShardIteratorType': 'AT_TIMESTAMP', 'Timestamp': 1459799926.48},
    kds='ValidationException',
    says='accepted',
    place='GetShardIterator.Timestamp',
    reading='a time to the millisecond',
)


@scene.case(
    'CreateStream with StreamMode ON_DEMAND',
    (LEFT, 'On-demand streams'),
    kds='ValidationException',
    says='accepted',
    place='CreateStream.StreamModeDetails',
    reading='a stream without a number of shards',
    takes=BEYOND,
)
def on_demand(stage):
    """Such a stream has four shards."""
    try:
        name = stage.streams.create(None, suffix='demand', counted=1, StreamModeDetails={'StreamMode': 'ON_DEMAND'})
    except Refused as refused:
        return refused.told
    stage.streams.delete(name)
    return 'accepted'
