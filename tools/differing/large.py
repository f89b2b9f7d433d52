"""Records and requests of 10 MiB."""
from differing.case import OWN, Scene
from differing.steps import b64, own

scene = Scene('large', lambda stage: stage.begin(1, MaxRecordSizeInKiB=10_240))
BYTES = (OWN, 'Bytes of a record, of a PutRecords and of a batch')
REFUSED = ('ValidationException', 'InvalidArgumentException')
MOST = 10_485_760


def record(size):
    """A record of `size` bytes, with its key."""
    return {'PartitionKey': 'k', 'Data': b64(bytes(size - 1))}


scene.call(
    'a record of 10,485,760 bytes with its key',
    BYTES,
    'PutRecord',
    {'StreamName': own, **record(MOST)},
    kds='accepted',
    says='accepted',
    place='PutRecord.Data',
    reading='at most 10 MiB with its key',
)
scene.call(
    'a record of 10,485,761 bytes with its key',
    BYTES,
    'PutRecord',
    {'StreamName': own, **record(MOST + 1)},
    kds='ValidationException',
    says=REFUSED,
    place='PutRecord.Data',
    reading='at most 10 MiB with its key',
)
scene.call(
    'two records of 10,485,761 bytes in all',
    BYTES,
    'PutRecords',
    {'StreamName': own, 'Records': [record(MOST // 2), record(MOST // 2 + 1)]},
    kds='ValidationException',
    says=REFUSED,
    place='PutRecords.Records',
    reading='at most 10 MiB in a request',
)
