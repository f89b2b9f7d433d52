"""Members of replies that `kds` lacks, and members of requests that it ignores."""
import time

from differing.case import LEFT, MEMBERS, Scene
from differing.replies import lacked, lacks
from differing.steps import ZERO, own

scene = Scene('members', lambda stage: stage.begin(1))
FAULTY = ('ValidationException', 'InvalidArgumentException', 'SerializationException')


lacks(
    scene,
    'DescribeStream',
    'EncryptionType StreamModeDetails',
    lambda stage: stage.call('DescribeStream', StreamName=stage.name),
    ('KeyId',),
)
lacks(
    scene,
    'DescribeStreamSummary',
    'ConsumerCount EncryptionType MaxRecordSizeInKiB StreamModeDetails',
    lambda stage: stage.call('DescribeStreamSummary', StreamName=stage.name),
    ('KeyId', 'StreamId', 'WarmThroughput'),
)
lacks(scene, 'PutRecord', 'EncryptionType', lambda stage: stage.put('a'))
lacks(
    scene,
    'PutRecords',
    'EncryptionType',
    lambda stage: stage.call('PutRecords', StreamName=stage.name, Records=[{'PartitionKey': 'a', 'Data': ''}]),
)
lacks(scene, 'ListStreams', 'StreamSummaries', lambda stage: stage.call('ListStreams', Limit=1), ('NextToken',))


@scene.case(
    'members that a record of GetRecords lacks',
    (MEMBERS, 'GetRecords'),
    kds='EncryptionType',
    says='none',
    place='GetRecords.EncryptionType',
    reading='how the record is encrypted',
)
def record(stage):
    records, _ = stage.read(stage.iterator(), 1, 1)
    return lacked(stage.model.shape_for('Record'), records[0])


scene.call(
    'a StreamARN that is no ARN, beside a StreamName',
    (MEMBERS, 'each with a StreamName'),
    'DescribeStreamSummary',
    {'StreamName': own, 'StreamARN': 'x'},
    kds='accepted',
    says=FAULTY,
    place='DescribeStreamSummary.StreamARN',
    reading='an ARN of a fixed form',
)
scene.call(
    'a StreamId alone',
    (MEMBERS, 'each with a StreamName'),
    'DescribeStreamSummary',
    {'StreamId': 'abcdefghijklmnopqrst-abc'},
    kds='ValidationException',
)
scene.call(
    'Tags that are no map',
    (MEMBERS, 'CreateStream'),
    'CreateStream',
    {'StreamName': own, 'ShardCount': 1, 'Tags': 'x'},
    kds='ResourceInUseException',
    says=FAULTY,
    place='CreateStream.Tags',
    reading='a map of tags',
)
scene.call(
    'an EnforceConsumerDeletion that is neither true nor false',
    (MEMBERS, 'DeleteStream'),
    'DeleteStream',
    {'StreamName': lambda stage: stage.streams.nobody(), 'EnforceConsumerDeletion': 'x'},
    kds='ResourceNotFoundException',
    says=FAULTY,
    place='DeleteStream.EnforceConsumerDeletion',
    reading='true or false',
)
scene.call(
    'a SequenceNumberForOrdering that is no number',
    (MEMBERS, 'PutRecord'),
    'PutRecord',
    {'StreamName': own, 'PartitionKey': 'a', 'Data': '', 'SequenceNumberForOrdering': 'x'},
    kds='accepted',
    says=FAULTY,
    place='PutRecord.SequenceNumberForOrdering',
    reading='the number of an earlier record',
)
scene.call(
    'a StreamCreationTimestamp at which there was no stream of this name',
    (MEMBERS, 'ListShards'),
    'ListShards',
    {'StreamName': own, 'StreamCreationTimestamp': 1},
    kds='accepted',
    says='ResourceNotFoundException',
    place='ListShards.StreamCreationTimestamp',
    reading='tells streams of one name apart by when they were made',
)
scene.call(
    'a ShardFilter of the type AT_TRIM_HORIZON',
    (MEMBERS, 'ListShards'),
    'ListShards',
    {'StreamName': own, 'ShardFilter': {'Type': 'AT_TRIM_HORIZON'}},
    kds='ValidationException',
    says='accepted',
    place='ListShards.ShardFilter',
    reading='lists some of the shards',
)
scene.call(
    'x as a NextToken of ListStreams',
    (LEFT, 'NextToken of ListStreams'),
    'ListStreams',
    {'NextToken': 'x', 'Limit': 1},
    kds='accepted',
    says=('InvalidArgumentException', 'ValidationException', 'ExpiredNextTokenException'),
    place='ListStreams.NextToken',
    reading='what an earlier reply gave',
)


@scene.case(
    'the times in replies',
    (LEFT, 'Milliseconds in replies'),
    kds='whole seconds',
    says='milliseconds',
    place='GetRecords.ApproximateArrivalTimestamp',
    reading='precise to the millisecond',
)
def arrival(stage):
    given = set()
    for wait in (0.137, 0.291, 0.083):
        number = stage.put('t')['SequenceNumber']
        given.add(stage.read(stage.from_number(number, ZERO), 1, 1)[0][0]['ApproximateArrivalTimestamp'])
        time.sleep(wait)
    return (
        f'texts: {sorted(given)}'
        if any(isinstance(each, str) for each in given)
        else 'whole seconds'
        if all(each == int(each) for each in given)
        else 'milliseconds'
    )
