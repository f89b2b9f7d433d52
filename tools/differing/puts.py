"""Records that are put and read back, and puts that are refused."""
import base64

from differing.case import OWN, Scene
from differing.steps import KEYS, own

scene = Scene('puts', lambda stage: stage.begin(2))
ERRORS = (OWN, 'Errors and messages')


@scene.same(
    'bytes and keys of records that are read', 'as they were put', place='PutRecord.Data', reading='bytes of any kind'
)
def bytes_back(stage):
    wanted = [('ä', bytes(range(256))), ('漢"\\', b''), ('\u2028', b'\xff' * 1000), ('Ab', bytes(range(256)) * 400)]
    puts = [stage.put(key, data, ExplicitHashKey='0') for key, data in wanted]
    records, _ = stage.read(stage.from_number(puts[0]['SequenceNumber'], puts[0]['ShardId']), 4)
    given = [(record['PartitionKey'], base64.b64decode(record['Data'])) for record in records]
    return 'as they were put' if given == wanted else f'{len(given)} records: {given!r}'[:80]


@scene.same(
    'order of 20 records of one shard, put one by one',
    'kept',
    place='PutRecord.SequenceNumber',
    reading='gives the order within a shard',
)
def order(stage):
    puts = [stage.put(f'o{at}', ExplicitHashKey='0')['SequenceNumber'] for at in range(20)]
    shard = stage.open_shards()[0][2]
    records, _ = stage.read(stage.from_number(puts[0], shard), 20)
    given = [record['SequenceNumber'] for record in records]
    return 'kept' if given == puts and sorted(puts, key=int) == puts else 'not kept'


@scene.same(
    'replies of PutRecords',
    'in the order of the request',
    place='PutRecords.Records',
    reading='replies stand in the order of the records',
)
def natural(stage):
    asked = [{'PartitionKey': f'n{at}', 'ExplicitHashKey': '0', 'Data': ''} for at in range(5)]
    told, shard = stage.call('PutRecords', StreamName=stage.name, Records=asked), stage.open_shards()[0][2]
    if told['FailedRecordCount'] or {reply['ShardId'] for reply in told['Records']} != {shard}:
        return f'{told["FailedRecordCount"]} failed, in {sorted({reply["ShardId"] for reply in told["Records"]})}'
    numbers = [reply['SequenceNumber'] for reply in told['Records']]
    records, _ = stage.read(stage.from_number(min(numbers, key=int), shard), 5)
    keys = {record['SequenceNumber']: record['PartitionKey'] for record in records}
    return (
        'in the order of the request'
        if [keys.get(number) for number in numbers] == [f'n{at}' for at in range(5)]
        else f'{keys}'
    )


@scene.case(
    'keys of 256 and of 257 characters',
    (OWN, 'Length of a partition key'),
    kds='accepted, accepted, ValidationException',
    place='PutRecord.PartitionKey',
    reading='at most 256 characters',
)
def lengths(stage):
    """Of three bytes each; of four bytes, which are two units of UTF-16; and one character too many."""
    return ', '.join(
        stage.outcome('PutRecord', StreamName=stage.name, PartitionKey=key, Data='')
        for key in ('漢' * 256, '😀' * 256, 'a' * 257)
    )


scene.call(
    'an ExplicitHashKey of 2^128',
    ERRORS,
    'PutRecord',
    {'StreamName': own, 'PartitionKey': 'a', 'Data': '', 'ExplicitHashKey': str(KEYS)},
    kds='ValidationException',
)
scene.call(
    'Data that is not base64',
    ERRORS,
    'PutRecord',
    {'StreamName': own, 'PartitionKey': 'a', 'Data': '?'},
    kds='ValidationException',
)
scene.call(
    'PutRecords of no record', ERRORS, 'PutRecords', {'StreamName': own, 'Records': []}, kds='ValidationException'
)
scene.call(
    'PutRecords of 501 records',
    ERRORS,
    'PutRecords',
    {'StreamName': own, 'Records': [{'PartitionKey': 'a', 'Data': ''}] * 501},
    kds='ValidationException',
)
