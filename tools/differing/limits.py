"""Limits on the rate of calls, and the limits on writing that `kds` turns on and off. They take more calls than a
server elsewhere allows."""
import concurrent.futures
import re
import time

from differing.case import BEYOND, DIFFERENT, LEFT, Scene
from differing.faults import Refused
from differing.steps import b64

scene = Scene('limits', lambda stage: stage.begin(1))
NONE, SOME = 'none refused', 'some refused'
TOO_MUCH = 'ProvisionedThroughputExceededException'


def at_once(stage, count, operation, **members):
    """So many calls at once: the replies, and the names of the errors."""

    def one(_):
        try:
            return stage.call(operation, patient=False, **members)
        except Refused as refused:
            return refused.name

    with stage.endpoint.hurried(), concurrent.futures.ThreadPoolExecutor(count) as pool:
        given = list(pool.map(one, range(count)))
    if not stage.here:
        time.sleep(6)
    return [each for each in given if not isinstance(each, str)], {each for each in given if isinstance(each, str)}


def told(names, error):
    return NONE if not names else SOME if names == {error} else f'some refused: {sorted(names)}'


@scene.case(
    '16 GetRecords of one shard at once',
    (LEFT, 'Limits on reading'),
    kds=NONE,
    says=SOME,
    place='GetRecords',
    reading='five a second from each shard',
    takes=BEYOND,
)
def reading(stage):
    _, names = at_once(stage, 16, 'GetRecords', ShardIterator=stage.iterator(), Limit=1)
    return told(names, TOO_MUCH)


@scene.case(
    '30 DescribeStreamSummary at once',
    (LEFT, 'Limits on other calls'),
    kds=NONE,
    says=SOME,
    place='DescribeStreamSummary',
    reading='twenty a second in an account',
    takes=BEYOND,
)
def describing(stage):
    _, names = at_once(stage, 30, 'DescribeStreamSummary', StreamName=stage.name)
    return told(names, 'LimitExceededException')


@scene.case(
    '1,500 records into one shard within a second',
    (DIFFERENT, 'Limits on writing'),
    kds=NONE,
    says=SOME,
    place='PutRecords',
    reading='a shard takes 1,000 records a second',
    takes=BEYOND,
)
def writing(stage):
    replies, names = at_once(
        stage, 3, 'PutRecords', StreamName=stage.name, Records=[{'PartitionKey': 'w', 'Data': b64(b'x')}] * 500
    )
    refused = [record for reply in replies for record in reply['Records'] if record.get('ErrorCode')]
    if refused:
        stage.kept.message = refused[0]['ErrorMessage']
    return SOME if refused else told(names, TOO_MUCH)


@scene.case(
    'two records of 600,000 bytes within a second, after LocalEnforceLimits',
    (DIFFERENT, 'Limits on writing'),
    kds='the second is refused',
    says='no such operation',
    place='PutRecords',
    reading='the limits are always on',
    takes=BEYOND,
)
def enforced(stage):
    """A second may end between the two, so it is tried again."""
    try:
        stage.call('LocalEnforceLimits', StreamName=stage.name, Enforce=True)
    except Refused:
        return 'no such operation'
    try:
        for _ in range(5):
            reply = stage.call(
                'PutRecords', StreamName=stage.name, Records=[{'PartitionKey': 'w', 'Data': b64(bytes(600_000))}] * 2
            )
            if reply['FailedRecordCount']:
                stage.kept.message, name = (reply['Records'][1][member] for member in ('ErrorMessage', 'ErrorCode'))
                return 'the second is refused' + (f' by {name}' if name != TOO_MUCH else '')
    finally:
        stage.call('LocalEnforceLimits', StreamName=stage.name, Enforce=False)
    return 'none is refused'


@scene.case(
    'what the ErrorMessage of a throttled record names',
    (DIFFERENT, 'A throttled record'),
    kds='nothing',
    says='account, stream, shard',
    place='PutRecords.ErrorMessage',
    reading='names the account, the stream and the shard',
    takes=BEYOND,
)
def message(stage):
    text = stage.kept.message
    found = [
        name
        for name, there in (
            ('account', re.search(r'(?<!\d)\d{12}(?!\d)', text.replace('shardId-', 'shardId-x'))),
            ('stream', stage.name in text),
            ('shard', 'shardId-' in text),
        )
        if there
    ]
    return ', '.join(found) or 'nothing'
