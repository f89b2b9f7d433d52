"""The faults of planted.py that no case names, and why. An entry counts for each fault whose name begins with it."""

NOT_TOLD = '`kds` has no such member; which members a reply lacks has a case, and what they say has none'
NOT_READ = '`kds` ignores it or refuses it, so a case tells no more than that'
METRICS = '`kds` has no metrics, so this list is empty'
ONE = 'it has one value only'
TEXT = 'people read it, and no program'
BORNE = 'clients bear it'
DESCRIBED, SUMMED = 'DescribeStream.StreamDescription', 'DescribeStreamSummary.StreamDescriptionSummary'
UNNAMED = {
    **dict.fromkeys(
        (f'{described}.{name}' for described in (DESCRIBED, SUMMED)
         for name in ('StreamModeDetails', 'EncryptionType', 'KeyId')),
        NOT_TOLD,
    ),
    **dict.fromkeys((f'{SUMMED}.{name}' for name in 'StreamId ConsumerCount WarmThroughput MaxRecordSizeInKiB'.split()),
                    NOT_TOLD),
    'GetRecords.Records.EncryptionType': NOT_TOLD,
    'ListStreams.NextToken': NOT_TOLD,
    'ListStreams.StreamSummaries': NOT_TOLD,
    'PutRecord.EncryptionType': NOT_TOLD,
    'PutRecords.EncryptionType': NOT_TOLD,
    'UpdateShardCount.StreamARN': NOT_TOLD,
    f'{DESCRIBED}.EnhancedMonitoring.ShardLevelMetrics has another value': METRICS,
    f'{SUMMED}.EnhancedMonitoring.ShardLevelMetrics has another value': METRICS,
    'PutRecords.Records.ErrorMessage has another value': TEXT,
    'CreateStream.MaxRecordSizeInKiB': NOT_READ,
    'CreateStream.StreamModeDetails': NOT_READ,
    'CreateStream.Tags': NOT_READ,
    'CreateStream.WarmThroughputMiBps': NOT_READ,
    'DeleteStream.EnforceConsumerDeletion': NOT_READ,
    'ListShards.ShardFilter.ShardId': NOT_READ,
    'ListShards.ShardFilter.Timestamp': NOT_READ,
    'ListShards.ShardFilter.Type': NOT_READ,
    'ListShards.StreamCreationTimestamp': NOT_READ,
    'PutRecord.SequenceNumberForOrdering': NOT_READ,
    'UpdateShardCount.ScalingType': ONE,
    'an error has a prefix': BORNE,
    'an error has no message': BORNE,
    'an error has another message': BORNE,
    'an empty reply is {}': BORNE,
    'a reply has a member more': BORNE,
    'a reply says Connection: close': BORNE,
    'a reply is text/plain': BORNE,
}


def entries(name):
    """Those that count for a fault."""
    return [entry for entry in UNNAMED if name == entry or name.startswith((f'{entry} ', f'{entry}.'))]
