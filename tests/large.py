#!/usr/bin/env python3
"""The built program at its limits on bytes, records, batches put and read, \
lines of a schedule and bodies of requests, a worker that reads ahead, and many
shards, rows, tenures, workers and user records. The texts are too long to be kept, so they are made here."""
import base64
import sys

from lib import aggregate as aggregates
from lib.checks import Tally, asked, program, run as limited
from lib.lines import iterator as token

RECORD = 10_485_760
LINE = 16_777_216
BODY = 16_777_216

tally = Tally()
check = tally.check


def run(word, data):
    """The status, the output and the error output of the program by this word."""
    done = limited([KDS, word], word, input=data, capture_output=True)
    return done.returncode, done.stdout, done.stderr


def blob(size):
    return base64.b64encode(bytes(size)).decode()


def iterator(position):
    return token(1, 0, position, 1000)


def records():
    """Each line of a schedule, and its line of output."""
    place = '{{"SequenceNumber":"{}","ShardId":"shardId-000000000000"}}'.format
    fault = '400 {{"__type":"ValidationException","message":"{} is not valid"}}'.format
    put = '1000 api PutRecord {{"StreamName":"s","Data":"{}","PartitionKey":"a"}}'.format
    pair = ('1000 api PutRecords {{"StreamName":"s","Records":'
            '[{{"Data":"{}","PartitionKey":"a"}},{{"Data":"{}","PartitionKey":"a"}}]}}'.format)
    get = '1000 api GetRecords {{"ShardIterator":"{}"}}'.format
    batch = '200 {{"MillisBehindLatest":0,"NextShardIterator":"{}","Records":[{}]}}'.format
    record = '{{"ApproximateArrivalTimestamp":1,"Data":"{}","PartitionKey":"a","SequenceNumber":"{}"}}'.format
    half = RECORD // 2 - 1
    return [
        ('1000 api CreateStream {"StreamName":"s","ShardCount":1}', '200'),
        (put(blob(RECORD - 1)), '200 ' + place(1)),
        (put(blob(RECORD)), fault('Data')),
        (put(''), '200 ' + place(2)),
        (get(iterator(0)), batch(iterator(2), record(blob(RECORD - 1), 1))),
        (get(iterator(2)), batch(iterator(3), record('', 2))),
        (pair(blob(half), blob(half + 1)), fault('Records')),
        (pair(blob(half), blob(half)), '200 {"FailedRecordCount":0,"Records":[' + place(3) + ',' + place(4) + ']}'),
        (get(iterator(2)), batch(iterator(4), record('', 2) + ',' + record(blob(half), 3))),
    ]


def enforced():
    """Under limits on throughput: a shard takes 1,048,576 bytes or 1,000 records within one second."""
    fault = '{"__type":"ProvisionedThroughputExceededException","message":"rate exceeded"}'
    failed = '{"ErrorCode":"ProvisionedThroughputExceededException","ErrorMessage":"rate exceeded"}'
    place = '{{"SequenceNumber":"{}","ShardId":"shardId-000000000000"}}'.format
    entry = '{{"Data":"{}","PartitionKey":"a"}}'.format
    create = '{} api CreateStream {{"StreamName":"{}","ShardCount":1}}'.format
    limits = '{} api LocalEnforceLimits {{"StreamName":"{}","Enforce":{}}}'.format
    put = '{} api PutRecord {{"StreamName":"{}","Data":"","PartitionKey":"a"}}'.format
    many = '{} api PutRecords {{"StreamName":"{}","Records":[{}]}}'.format
    told = '200 {{"FailedRecordCount":{},"Records":[{}]}}'.format
    items = ','.join([entry('')] * 500)
    places = [','.join(place(n) for n in range(first, first + 500)) for first in (1, 501)]
    return [
        (create(5000, 's'), '200'),
        (limits(5000, 's', 'true'), '200'),
        (many(5000, 's', entry(blob(1_048_575)) + ',' + entry('')), told(1, place(1) + ',' + failed)),
        (put(5999, 's'), '400 ' + fault),
        (put(6000, 's'), '200 ' + place(2)),
        (limits(6000, 's', 'false'), '200'),
        (many(6000, 's', entry(blob(2_000_000))), told(0, place(3))),
        (limits(6000, 's', 'true'), '200'),
        (put(6999, 's'), '400 ' + fault),
        (many(7000, 's', entry(blob(2_000_000)) + ',' + entry('')), told(1, place(4) + ',' + failed)),
        (create(8000, 't'), '200'),
        (limits(8000, 't', 'true'), '200'),
        (many(8000, 't', items), told(0, places[0])),
        (many(8500, 't', items), told(0, places[1])),
        (many(8999, 't', items), told(500, ','.join([failed] * 500))),
        (put(8999, 't'), '400 ' + fault),
        (put(9000, 't'), '200 ' + place(1001)),
    ]


def usual_batch():
    """GetRecords without a limit: of 10,001 records it gives 10,000, and the next one gives the last."""
    place = '{{"SequenceNumber":"{}","ShardId":"shardId-000000000000"}}'.format
    record = '{{"ApproximateArrivalTimestamp":1,"Data":"eA==","PartitionKey":"a","SequenceNumber":"{}"}}'.format
    item = '{"Data":"eA==","PartitionKey":"a"}'
    lines = [('1000 api CreateStream {"StreamName":"s","ShardCount":1}', '200')]
    for first in range(1, 10_002, 500):
        count = min(500, 10_002 - first)
        lines.append((
            '1000 api PutRecords {"StreamName":"s","Records":[' + ','.join([item] * count) + ']}',
            '200 {"FailedRecordCount":0,"Records":[' + ','.join(map(place, range(first, first + count))) + ']}',
        ))
    for first, behind in ((0, 10_001), (10_001, 10_002)):
        given = ','.join(map(record, range(max(first, 1), behind)))
        lines.append((f'1000 api GetRecords {{"ShardIterator":"{iterator(first)}"}}',
                      f'200 {{"MillisBehindLatest":0,"NextShardIterator":"{iterator(behind)}","Records":[{given}]}}'))
    return lines


def read_ahead():
    """A worker reads 2,500 records in three batches before it hands out the first."""
    place = '{{"SequenceNumber":"{}","ShardId":"shardId-000000000000"}}'.format
    item = '{"Data":"eA==","PartitionKey":"a"}'
    lines = [('3000 api CreateStream {"StreamName":"s","ShardCount":1}', '200')]
    for first in range(1, 2501, 500):
        lines.append((
            '3000 api PutRecords {"StreamName":"s","Records":[' + ','.join([item] * 500) + ']}',
            '200 {"FailedRecordCount":0,"Records":[' + ','.join(map(place, range(first, first + 500))) + ']}',
        ))
    lines.append(('3000 worker w1 tally', 'worker 1000'))
    survey = 'survey = ok 1 1'
    begins = ['survey = ok 1 0', 'make 1/0 = ok', survey, 'take 1/0 0 w1 = ok tenure 1 counter 1 start TRIM_HORIZON',
              'open 1 = ok']
    turns = [
        f'read 1 {position} 1000 = ok reach {last + 1} more'
        + ''.join(f' {n}' for n in range(max(position, 1), last + 1))
        for position, last in ((0, 1000), (1001, 2000), (2001, 2500))
    ]
    for counter, last in ((1, 1000), (2, 2000), (3, 2500)):
        turns += [f'give 1 = ok delivered {last + 1}', f'mark 1 {counter} {last} = ok counter {counter + 1}']
    steps = begins + [text for turn in turns for text in (survey, turn)]
    return lines + [('3000 step 1000', text) for text in steps]


def aggregate():
    """One record of 9 MB with 100,000 user records, and a worker that reads them. It asks for a checkpoint at the first
    record once it was handed the second, since not all user records come before the last one of the batch."""
    users = [(b'key', None, bytes(80)) for _ in range(100_000)]
    keys = [aggregates.bytes_field(1, b'key')]
    records = [aggregates.bytes_field(3, b''.join(aggregates.record_fields([b'key'], [], user))) for user in users]
    payload = aggregates.frame(b''.join(keys + records))
    assert 8_500_000 < len(payload) < RECORD, len(payload)
    place = '{{"SequenceNumber":"{}","ShardId":"shardId-000000000000"}}'.format
    put = '4000 api PutRecord {{"StreamName":"s","Data":"{}","PartitionKey":"a"}}'.format
    lines = [
        ('4000 api CreateStream {"StreamName":"s","ShardCount":1}', '200'),
        (put(base64.b64encode(payload).decode()), '200 ' + place(1)),
        (put('aGk='), '200 ' + place(2)),
        ('4000 worker w1 users', 'worker 1000'),
    ]
    survey = 'survey = ok 1 1'
    steps = ['survey = ok 1 0', 'make 1/0 = ok', survey, 'take 1/0 0 w1 = ok tenure 1 counter 1 start TRIM_HORIZON',
             'open 1 = ok', survey, 'read 1 0 1000 = ok reach 3 more 1 2', survey, 'give 1 = ok delivered 3', survey,
             'mark 1 1 1 = ok counter 2']
    return lines + [('4000 step 1000', text) for text in steps]


def tenures():
    """One row, taken and freed 11,000 times."""
    lines = [('5000 api CreateStream {"StreamName":"s","ShardCount":1}', '200'), ('5000 raw 1 make 1/0', 'ok')]
    for number in range(1, 11_001):
        counter = 2 * (number - 1)
        lines.append((f'5000 raw 1 take 1/0 {counter} w1',
                      f'ok tenure {number} counter {counter + 1} start TRIM_HORIZON'))
        lines.append((f'5000 raw 1 free {number} {counter + 1}', f'ok counter {counter + 2}'))
    return lines + [('5000 raw 1 rows', 'ok 1 1/0 - 22000 TRIM_HORIZON 0')]


def all_shards():
    """A worker makes the rows of 500 shards, and takes them all; then all rows are listed."""
    lines = [('6000 api CreateStream {"StreamName":"s","ShardCount":500}', '200'),
             ('6000 worker w1 tally', 'worker 1000')]
    steps = ['survey = ok 500 0']
    steps += [f'make 1/{shard} = ok' for shard in range(500)]
    steps += ['survey = ok 500 500']
    steps += [f'take 1/{shard} 0 w1 = ok tenure {shard + 1} counter 1 start TRIM_HORIZON' for shard in range(500)]
    rows = '; '.join(f'1/{shard} w1 1 TRIM_HORIZON 0' for shard in range(500))
    return lines + [('6000 step 1000', text) for text in steps] + [('6000 raw 1 rows', f'ok 500 {rows}')]


def seven_workers():
    """Seven workers, each of which surveys."""
    lines = [('7000 api CreateStream {"StreamName":"s","ShardCount":1}', '200')]
    lines += [(f'7000 worker w{number} tally', f'worker {999 + number}') for number in range(1, 8)]
    return lines + [(f'7000 step {999 + number}', 'survey = ok 1 0') for number in range(1, 8)]


def request(body, length=None):
    head = (
        'POST / HTTP/1.1\r\nX-Amz-Target: Kinesis_20131202.ListStreams\r\n'
        f'Content-Type: application/x-amz-json-1.1\r\nContent-Length: {length or len(body)}\r\n\r\n'
    )
    return head.encode() + body


def replayed(name, lines):
    """Runs lines of a schedule, and compares their lines of output."""
    status, out, err = run('replay', ''.join(line + '\n' for line, _ in lines).encode())
    check(f'{name}: status', '0', str(status))
    check(f'{name}: errors', '', err.decode())
    given = out.decode().splitlines()
    check(f'{name}: lines', str(len(lines)), str(len(given)))
    for place, ((_, wanted), text) in enumerate(zip(lines, given), 1):
        check(f'{name}: line {place}', wanted, text)


def main():
    global KDS  # the program to be checked
    asked(__doc__, 'tests/large.py')
    KDS = program()
    replayed('records', records())
    replayed('limits on throughput', enforced())
    replayed('10,001 records', usual_batch())
    replayed('records read ahead', read_ahead())
    replayed('an aggregate of 9 MB', aggregate())
    replayed('11,000 tenures', tenures())
    replayed('500 shards', all_shards())
    replayed('seven workers', seven_workers())

    check('longest line', (3, b'', b'line 1: not a schedule line\n'), run('replay', b'1' * LINE + b'\n'))
    check('too long a line', (9, b'', b'input too long\n'), run('replay', b'1' * (LINE + 1) + b'\n'))

    names = b'{"HasMoreStreams":false,"StreamNames":[]}'
    listed = b'HTTP/1.1 200 OK\r\nContent-Type: application/x-amz-json-1.1\r\nContent-Length: 41\r\n\r\n' + names
    refused = b'HTTP/1.1 413 Content Too Large\r\nContent-Length: 0\r\nConnection: close\r\n\r\n'
    body = b'{' + b' ' * (BODY - 2) + b'}'
    check('longest body', (0, listed, b''), run('answer', request(body)))
    check('too long a body', (10, refused, b'message refused\n'), run('answer', request(b'{}', BODY + 1)))

    return tally.end()


if __name__ == '__main__':
    sys.exit(main())
