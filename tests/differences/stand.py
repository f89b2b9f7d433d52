"""A server before `kds` that does what the reference says where a client has to bear it: sequence numbers of 56
digits, streams that aren't ACTIVE for a while, times to the millisecond, members that `kds` lacks, and replies that
ask for patience. It is for the checks of `tools/differences`."""
import time

from differences.behind import Front, refuse

LONG = 56
# the state after each change, and for how many seconds
CHANGES = {
    'CreateStream': ('CREATING', 2),
    'DeleteStream': ('DELETING', 0.3),
    **{
        name: ('UPDATING', 0.3)
        for name in (
            'SplitShard',
            'MergeShards',
            'UpdateShardCount',
            'IncreaseStreamRetentionPeriod',
            'DecreaseStreamRetentionPeriod',
        )
    },
}
TIMES = ('ApproximateArrivalTimestamp', 'StreamCreationTimestamp')


def lengthened(number):
    return '49' + number.zfill(LONG - 2)


def shortened(number):
    """The number of `kds`, or None for a number that no record can have."""
    if len(number) != LONG:
        return number
    given = int(number[2:])
    return str(given) if number.startswith('49') and given < 2**64 else None


def as_service(value):
    """A reply with long numbers and fine times."""
    if isinstance(value, list):
        return [as_service(each) for each in value]
    if not isinstance(value, dict):
        return value.replace(':local:000000000000:', ':us-east-1:123456789012:') if isinstance(value, str) else value
    return {
        name: lengthened(each)
        if name.endswith('SequenceNumber')
        else each + 0.123
        if name in TIMES
        else as_service(each)
        for name, each in value.items()
    }


def completed(operation, told, state):
    """A reply with the members that `kds` lacks."""
    for record in (
        told.get('Records', [])
        if operation == 'GetRecords'
        else [told]
        if operation in ('PutRecord', 'PutRecords')
        else []
    ):
        record['EncryptionType'] = 'NONE'
    for inner in told.values():
        if isinstance(inner, dict) and 'StreamStatus' in inner:
            inner |= {
                'StreamStatus': state,
                'EncryptionType': 'NONE',
                'StreamModeDetails': {'StreamMode': 'PROVISIONED'},
            }
            if operation == 'DescribeStreamSummary':
                inner |= {'ConsumerCount': 0, 'MaxRecordSizeInKiB': 1024}
    return told


class Stand(Front):
    headers = {'x-amzn-RequestId': '3c9b5f0e-6a51-4a34-8f1e-000000000000'}

    def __init__(self, behind, address='127.0.0.1', calls=None):
        """`calls` is how many calls of each operation it takes in a second. Without it only DescribeStreamSummary has
        a limit: that of the reference."""
        super().__init__(behind, address)
        self.states, self.last, self.calls = {}, {}, calls
        # how many calls were refused for their number, and the most shards that were open at once
        self.refused, self.most = 0, 0

    def state(self, name):
        """The state of a stream. One whose DELETING is over is deleted behind."""
        state, until = self.states.get(name, ('ACTIVE', 0))
        if time.monotonic() < until:
            return state
        if state == 'DELETING' and self.states.pop(name, None):
            self.forward('DeleteStream', {'StreamName': name})
        return 'ACTIVE'

    def is_busy(self, operation):
        most = self.calls or (20 if operation == 'DescribeStreamSummary' else 10**6)
        now = time.monotonic()
        recent = [at for at in self.last.get(operation, []) if at > now - 1]
        full = len(recent) >= most
        self.last[operation] = recent if full else [*recent, now]
        self.refused += full
        return full

    def count(self):
        _, told = self.forward('ListStreams', {})
        found = [self.forward('DescribeStreamSummary', {'StreamName': name})[1] for name in told['StreamNames']]
        self.most = max(self.most, sum(each['StreamDescriptionSummary']['OpenShardCount'] for each in found))

    def answer(self, operation, members):
        with self.lock:
            if operation == 'LocalEnforceLimits':
                return refuse('UnknownOperationException')
            if self.is_busy(operation):
                return refuse(
                    'ProvisionedThroughputExceededException'
                    if operation.startswith(('Get', 'Put'))
                    else 'LimitExceededException'
                )
            return self.served(operation, members)

    def served(self, operation, members):
        name = members.get('StreamName')
        state = self.state(name) if isinstance(name, str) else 'ACTIVE'
        if state != 'ACTIVE' and (
            operation in CHANGES or (state == 'CREATING' and not operation.startswith(('Describe', 'List')))
        ):
            return refuse('ResourceInUseException')
        if 'StartingSequenceNumber' in members:
            members['StartingSequenceNumber'] = shortened(members['StartingSequenceNumber'])
            if members['StartingSequenceNumber'] is None:
                return refuse('InvalidArgumentException')
        # a stream is deleted behind when its DELETING is over
        status, told = self.forward('DescribeStreamSummary' if operation == 'DeleteStream' else operation, members)
        if status != 200:
            return status, told
        if operation in CHANGES:
            how, seconds = CHANGES[operation]
            self.states[name] = how, time.monotonic() + seconds
            self.count()
        if operation == 'DeleteStream' or told is None:
            return status, None
        told = as_service(told)
        if operation == 'UpdateShardCount':
            told['StreamARN'] = f'arn:aws:kinesis:us-east-1:123456789012:stream/{name}'
        return status, completed(operation, told, state)
