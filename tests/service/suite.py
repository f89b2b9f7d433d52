"""The program as boto3 sees it: every operation of the profile, every type of iterator, each error as its class in
botocore, limits, routing, children through splits and merges, threads, paginators.

Expected values come from the API Reference, from hashlib, and from what the test itself put."""
import base64
import collections
import concurrent.futures
import hashlib
import threading
import time
import unittest

import boto3
from botocore.config import Config
from botocore.exceptions import ClientError

from lib.responses import responses
from lib.server import IDLE, request, serving

KEYS = 2**128
FIVE = ('TRIM_HORIZON', 'LATEST', 'AT_SEQUENCE_NUMBER', 'AFTER_SEQUENCE_NUMBER', 'AT_TIMESTAMP')


def token(text):
    return base64.b64encode(text.encode()).decode()


class Suite(unittest.TestCase):
    @classmethod
    def setUpClass(cls):
        cls.context = serving(members=33)
        cls.server = cls.context.__enter__()
        cls.kinesis = cls.client()
        cls.names = iter(range(10**6))

    @classmethod
    def tearDownClass(cls):
        cls.kinesis.close()
        cls.context.__exit__(None, None, None)

    @classmethod
    def client(cls, server=None, pool=32):
        return boto3.client(
            'kinesis',
            endpoint_url=(server or cls.server).endpoint,
            region_name='us-east-1',
            aws_access_key_id='any',
            aws_secret_access_key='any',
            config=Config(retries={'total_max_attempts': 1}, parameter_validation=False, max_pool_connections=pool),
        )

    def stream(self, shards=1):
        """A new stream, which is deleted when the test ends."""
        name = f'suite-{next(self.names)}'
        self.kinesis.create_stream(StreamName=name, ShardCount=shards)
        self.addCleanup(self.kinesis.delete_stream, StreamName=name)
        return name

    def put(self, name, key, data=b'x', **more):
        return self.kinesis.put_record(StreamName=name, PartitionKey=key, Data=data, **more)

    def shards(self, name, **more):
        return self.kinesis.list_shards(StreamName=name, **more)['Shards']

    def iterator(self, name, shard, kind, **more):
        reply = self.kinesis.get_shard_iterator(StreamName=name, ShardId=shard, ShardIteratorType=kind, **more)
        return reply['ShardIterator']

    def read(self, name, shard, kind='TRIM_HORIZON', **more):
        """All records of a shard from a place on, and the children at its end."""
        at = self.iterator(name, shard, kind, **more)
        records = []
        while True:
            reply = self.kinesis.get_records(ShardIterator=at)
            records += reply['Records']
            at = reply.get('NextShardIterator')
            if at is None or not reply['Records']:
                return records, reply.get('ChildShards', [])

    def refused(self, error, call, **more):
        with self.assertRaises(error) as caught:
            call(**more)
        return caught.exception.response['Error']

    # ---- every operation

    def test_life_of_a_stream(self):
        name = self.stream(2)
        self.assertIn(name, self.kinesis.list_streams(Limit=10000)['StreamNames'])
        told = self.kinesis.describe_stream(StreamName=name)['StreamDescription']
        self.assertEqual((told['StreamName'], told['StreamStatus'], told['RetentionPeriodHours']), (name, 'ACTIVE', 24))
        self.assertEqual(len(told['Shards']), 2)
        self.assertFalse(told['HasMoreShards'])
        self.assertLess(abs(told['StreamCreationTimestamp'].timestamp() - time.time()), 60)
        summary = self.kinesis.describe_stream_summary(StreamName=name)['StreamDescriptionSummary']
        self.assertEqual((summary['OpenShardCount'], summary['StreamARN']), (2, told['StreamARN']))
        self.assertTrue(self.kinesis.get_waiter('stream_exists'))
        self.kinesis.get_waiter('stream_exists').wait(StreamName=name, WaiterConfig={'Delay': 0, 'MaxAttempts': 1})

    def test_deleted_stream_is_gone(self):
        name = f'suite-{next(self.names)}'
        self.kinesis.create_stream(StreamName=name, ShardCount=1)
        self.kinesis.delete_stream(StreamName=name)
        self.refused(self.kinesis.exceptions.ResourceNotFoundException, self.kinesis.describe_stream, StreamName=name)
        self.kinesis.get_waiter('stream_not_exists').wait(StreamName=name, WaiterConfig={'Delay': 0, 'MaxAttempts': 1})

    def test_put_record_and_get_records(self):
        name = self.stream()
        first = self.put(name, 'a', b'hello')
        second = self.put(name, 'b', bytes(range(256)))
        self.assertLess(int(first['SequenceNumber']), int(second['SequenceNumber']))
        records, _ = self.read(name, first['ShardId'])
        self.assertEqual([r['Data'] for r in records], [b'hello', bytes(range(256))])
        self.assertEqual([r['PartitionKey'] for r in records], ['a', 'b'])
        self.assertEqual(records[0]['SequenceNumber'], first['SequenceNumber'])
        self.assertLess(abs(records[0]['ApproximateArrivalTimestamp'].timestamp() - time.time()), 60)

    def test_put_records(self):
        name = self.stream(3)
        items = [{'PartitionKey': f'k{i}', 'Data': f'{i}'.encode()} for i in range(500)]
        reply = self.kinesis.put_records(StreamName=name, Records=items)
        self.assertEqual(reply['FailedRecordCount'], 0)
        numbers = [int(r['SequenceNumber']) for r in reply['Records']]
        self.assertEqual(numbers, sorted(set(numbers)))
        placed = collections.Counter(r['ShardId'] for r in reply['Records'])
        for shard, count in placed.items():
            records, _ = self.read(name, shard)
            self.assertEqual(len(records), count)

    def test_limit_of_get_records(self):
        name = self.stream()
        for i in range(7):
            self.put(name, f'{i}', b'')
        at = self.iterator(name, 'shardId-000000000000', 'TRIM_HORIZON')
        seen = []
        for wanted in (3, 3, 1, 0):
            reply = self.kinesis.get_records(ShardIterator=at, Limit=3)
            self.assertEqual(len(reply['Records']), wanted)
            seen += [r['PartitionKey'] for r in reply['Records']]
            at = reply['NextShardIterator']
        self.assertEqual(seen, [f'{i}' for i in range(7)])

    def test_retention(self):
        name = self.stream()

        def hours():
            told = self.kinesis.describe_stream_summary(StreamName=name)
            return told['StreamDescriptionSummary']['RetentionPeriodHours']

        self.kinesis.increase_stream_retention_period(StreamName=name, RetentionPeriodHours=8760)
        self.assertEqual(hours(), 8760)
        self.kinesis.decrease_stream_retention_period(StreamName=name, RetentionPeriodHours=48)
        self.assertEqual(hours(), 48)
        error = self.kinesis.exceptions.InvalidArgumentException
        self.refused(error, self.kinesis.decrease_stream_retention_period, StreamName=name, RetentionPeriodHours=72)
        self.refused(error, self.kinesis.increase_stream_retention_period, StreamName=name, RetentionPeriodHours=24)

    def test_update_shard_count(self):
        name = self.stream(2)
        told = self.kinesis.update_shard_count(StreamName=name, TargetShardCount=3, ScalingType='UNIFORM_SCALING')
        self.assertEqual((told['StreamName'], told['CurrentShardCount'], told['TargetShardCount']), (name, 2, 3))
        left = [s for s in self.shards(name) if 'EndingSequenceNumber' not in s['SequenceNumberRange']]
        self.assertEqual(sorted(int(s['HashKeyRange']['StartingHashKey']) for s in left),
                         [i * (KEYS // 3) for i in range(3)])

    def test_local_enforce_limits(self):
        """No SDK has it, so it is sent plainly; then what boto3 puts is throttled, and retried by nobody."""
        name = self.stream()
        halves = [{'PartitionKey': 'a', 'Data': bytes(524_287)}] * 3
        for enforce, failed in ((b'true', 1), (b'false', 0)):
            with self.server.connect() as connection:
                connection.sendall(request('LocalEnforceLimits',
                                           b'{"StreamName":"%s","Enforce":%s}' % (name.encode(), enforce)))
                self.assertEqual(responses(connection, 1), [(200, b'')])
            told = self.kinesis.put_records(StreamName=name, Records=halves)
            self.assertEqual(told['FailedRecordCount'], failed)
            self.assertEqual(told['Records'][-1].get('ErrorCode'),
                             'ProvisionedThroughputExceededException' if failed else None)

    # ---- iterators

    def test_every_type_of_iterator(self):
        name = self.stream()
        placed = [self.put(name, 'a', f'{i}'.encode()) for i in range(4)]
        shard, second = placed[0]['ShardId'], placed[1]['SequenceNumber']
        ago = int(time.time()) - 100
        reads = {
            'TRIM_HORIZON': ({}, 4),
            'LATEST': ({}, 0),
            'AT_SEQUENCE_NUMBER': ({'StartingSequenceNumber': second}, 3),
            'AFTER_SEQUENCE_NUMBER': ({'StartingSequenceNumber': second}, 2),
            'AT_TIMESTAMP': ({'Timestamp': ago}, 4),
        }
        self.assertEqual(set(reads), set(FIVE))
        for kind, (more, count) in reads.items():
            records, _ = self.read(name, shard, kind, **more)
            self.assertEqual(len(records), count, kind)
        records, _ = self.read(name, shard, 'AT_TIMESTAMP', Timestamp=int(time.time()) + 100)
        self.assertEqual(records, [])

    def test_latest_sees_what_comes_later(self):
        name = self.stream()
        self.put(name, 'a', b'before')
        at = self.iterator(name, 'shardId-000000000000', 'LATEST')
        self.put(name, 'a', b'after')
        records = self.kinesis.get_records(ShardIterator=at)['Records']
        self.assertEqual([r['Data'] for r in records], [b'after'])

    # ---- errors

    def test_resource_not_found(self):
        error = self.kinesis.exceptions.ResourceNotFoundException
        name = self.stream()
        for call, more in (
            (self.kinesis.describe_stream, {}),
            (self.kinesis.describe_stream_summary, {}),
            (self.kinesis.delete_stream, {}),
            (self.kinesis.list_shards, {}),
            (self.kinesis.put_record, {'PartitionKey': 'a', 'Data': b''}),
            (self.kinesis.put_records, {'Records': [{'PartitionKey': 'a', 'Data': b''}]}),
            (self.kinesis.split_shard, {'ShardToSplit': 'shardId-000000000000', 'NewStartingHashKey': '1'}),
        ):
            self.assertEqual(self.refused(error, call, StreamName='nobody', **more)['Message'], 'stream not found')
        told = self.refused(error, self.kinesis.get_shard_iterator, StreamName=name, ShardId='shardId-000000000009',
                            ShardIteratorType='LATEST')
        self.assertEqual(told['Message'], 'shard not found')

    def test_resource_in_use(self):
        name = self.stream()
        self.refused(self.kinesis.exceptions.ResourceInUseException, self.kinesis.create_stream, StreamName=name,
                     ShardCount=1)

    def test_limit_exceeded(self):
        error = self.kinesis.exceptions.LimitExceededException
        self.stream(400)
        self.refused(error, self.kinesis.create_stream, StreamName='one-more', ShardCount=101)

    def test_invalid_argument(self):
        error = self.kinesis.exceptions.InvalidArgumentException
        name = self.stream(3)
        first, _, third = [s['ShardId'] for s in self.shards(name)]
        at_end = {'ShardToSplit': first, 'NewStartingHashKey': '0'}
        self.assertEqual(self.refused(error, self.kinesis.split_shard, StreamName=name, **at_end)['Message'],
                         'split key out of range')
        apart = {'ShardToMerge': first, 'AdjacentShardToMerge': third}
        self.assertEqual(self.refused(error, self.kinesis.merge_shards, StreamName=name, **apart)['Message'],
                         'shards are not adjacent')
        self.kinesis.split_shard(StreamName=name, ShardToSplit=first, NewStartingHashKey='1000')
        again = {'ShardToSplit': first, 'NewStartingHashKey': '1000'}
        self.assertEqual(self.refused(error, self.kinesis.split_shard, StreamName=name, **again)['Message'],
                         'shard is closed')
        late = {'ShardId': third, 'ShardIteratorType': 'AT_SEQUENCE_NUMBER', 'StartingSequenceNumber': '99999'}
        self.refused(error, self.kinesis.get_shard_iterator, StreamName=name, **late)
        for spelled in ('', 'AAAA', token('KI1:1:0:00:1'), token('KI1:1:0:0:1').rstrip('=')):
            told = self.refused(error, self.kinesis.get_records, ShardIterator=spelled)
            self.assertEqual(told['Message'], 'ShardIterator is not valid')

    def test_expired_tokens(self):
        old = int(time.time() * 1000) - 300_001
        self.refused(self.kinesis.exceptions.ExpiredIteratorException, self.kinesis.get_records,
                     ShardIterator=token(f'KI1:1:0:0:{old}'))
        self.refused(self.kinesis.exceptions.ExpiredNextTokenException, self.kinesis.list_shards,
                     NextToken=token(f'KT1:1:0:{old}'))

    def test_validation(self):
        name = self.stream()
        error = ClientError
        for call, more, message in (
            (self.kinesis.create_stream, {'StreamName': 'a b', 'ShardCount': 1}, 'StreamName is not valid'),
            (self.kinesis.create_stream, {'StreamName': 'a', 'ShardCount': 501}, 'ShardCount is not valid'),
            (self.kinesis.create_stream, {'ShardCount': 1}, 'StreamName is missing'),
            (self.kinesis.put_record, {'StreamName': name, 'PartitionKey': '', 'Data': b''},
             'PartitionKey is not valid'),
            (self.kinesis.put_record,
             {'StreamName': name, 'PartitionKey': 'a', 'Data': b'', 'ExplicitHashKey': str(KEYS)},
             'ExplicitHashKey is not valid'),
            (self.kinesis.put_records, {'StreamName': name, 'Records': []}, 'Records is not valid'),
            (self.kinesis.put_records, {'StreamName': name, 'Records': [{'PartitionKey': 'a', 'Data': b''}] * 501},
             'Records is not valid'),
            (self.kinesis.put_records,
             {'StreamName': name, 'Records': [{'PartitionKey': 'a', 'Data': b''}, {'Data': b''}]},
             'Records.2.PartitionKey is missing'),
            (self.kinesis.get_shard_iterator,
             {'StreamName': name, 'ShardId': 'shardId-0', 'ShardIteratorType': 'LATEST'},
             'ShardId is not valid'),
            (self.kinesis.list_shards, {'StreamName': name, 'ShardFilter': {'Type': 'AT_LATEST'}},
             'ShardFilter is not valid'),
            (self.kinesis.get_records, {'ShardIterator': token('KI1:1:0:0:1'), 'Limit': 10001}, 'Limit is not valid'),
        ):
            told = self.refused(error, call, **more)
            self.assertEqual((told['Code'], told['Message']), ('ValidationException', message))

    def test_fraction_of_a_second(self):
        """boto3 sends whole seconds; other SDKs send a fraction, which is refused."""
        body = (b'{"StreamName":"%s","ShardId":"shardId-000000000000","ShardIteratorType":"AT_TIMESTAMP",'
                b'"Timestamp":1.5}'
                % self.stream().encode())
        with self.server.connect() as connection:
            connection.sendall(request('GetShardIterator', body))
            self.assertEqual(responses(connection, 1),
                             [(400, b'{"__type":"ValidationException","message":"Timestamp is not valid"}')])

    def test_operation_outside_the_profile(self):
        name = self.stream()
        told = self.refused(ClientError, self.kinesis.list_tags_for_stream, StreamName=name)
        self.assertEqual(told['Code'], 'UnknownOperationException')

    # ---- limits and texts

    def test_payload_at_the_limit(self):
        name = self.stream()
        most = 10_485_760 - len('key')
        placed = self.put(name, 'key', b'\xff' * most)
        records, _ = self.read(name, placed['ShardId'])
        self.assertEqual(records[0]['Data'], b'\xff' * most)
        told = self.refused(ClientError, self.put, name=name, key='key', data=b'\xff' * (most + 1))
        self.assertEqual(told['Message'], 'Data is not valid')

    def test_put_records_at_the_limit(self):
        name = self.stream()
        each = 2_097_152 - 1
        items = [{'PartitionKey': 'a', 'Data': bytes(each)} for _ in range(5)]
        self.assertEqual(self.kinesis.put_records(StreamName=name, Records=items)['FailedRecordCount'], 0)
        told = self.refused(ClientError, self.kinesis.put_records, StreamName=name,
                            Records=items + [{'PartitionKey': 'a', 'Data': b''}])
        self.assertEqual(told['Message'], 'Records is not valid')

    def test_keys_in_unicode(self):
        name = self.stream()
        keys = ['ä', '漢' * 256, '😀', 'a"b\\c', '\u2028', 'tab\there', '\x01']
        for key in keys:
            self.put(name, key)
        records, _ = self.read(name, 'shardId-000000000000')
        self.assertEqual([r['PartitionKey'] for r in records], keys)
        self.refused(ClientError, self.put, name=name, key='漢' * 257)

    # ---- routing

    def test_keys_go_where_their_md5_says(self):
        name = self.stream(7)
        ranges = [(int(s['HashKeyRange']['StartingHashKey']), int(s['HashKeyRange']['EndingHashKey']), s['ShardId'])
                  for s in self.shards(name)]
        self.assertEqual([r[0] for r in ranges], [0] + [r[1] + 1 for r in ranges[:-1]])
        self.assertEqual(ranges[-1][1], KEYS - 1)
        for i in range(300):
            key = f'key-{i}-{"ß" * (i % 5)}'
            spot = int.from_bytes(hashlib.md5(key.encode()).digest(), 'big')
            home = next(shard for low, high, shard in ranges if low <= spot <= high)
            self.assertEqual(self.put(name, key)['ShardId'], home, key)
        for low, high, shard in ranges:
            for spot in (low, high):
                self.assertEqual(self.put(name, 'a', ExplicitHashKey=str(spot))['ShardId'], shard)

    def test_consumer_follows_children(self):
        name = self.stream()
        half = str(KEYS // 2)
        self.kinesis.split_shard(StreamName=name, ShardToSplit='shardId-000000000000', NewStartingHashKey=half) \
            if self.put_many(name, 0, 50) else None
        self.put_many(name, 50, 100)
        self.kinesis.merge_shards(StreamName=name, ShardToMerge='shardId-000000000002',
                                  AdjacentShardToMerge='shardId-000000000001')
        self.put_many(name, 100, 150)
        waiting, done, seen = ['shardId-000000000000'], set(), []
        order = {}
        while waiting:
            shard = waiting.pop(0)
            records, children = self.read(name, shard)
            done.add(shard)
            for record in records:
                number = int(record['SequenceNumber'])
                self.assertGreater(number, order.get(record['PartitionKey'], 0))
                order[record['PartitionKey']] = number
                seen.append(int(record['Data']))
            waiting += [c['ShardId'] for c in children
                        if set(c['ParentShards']) <= done and c['ShardId'] not in done and c['ShardId'] not in waiting]
        self.assertEqual(sorted(seen), list(range(150)))
        self.assertEqual(done, {f'shardId-00000000000{i}' for i in range(4)})

    def put_many(self, name, low, high):
        for i in range(low, high):
            self.put(name, f'key-{i % 10}', f'{i}'.encode())
        return True

    # ---- threads

    def test_producers_and_consumers_at_once(self):
        name = self.stream(4)
        writers, each = 8, 150
        ended = threading.Event()

        def produce(writer):
            client = self.client()
            placed = []
            for i in range(0, each, 3):
                key, data = f'w{writer}-{i % 7}', f'{writer}:{i}'.encode()
                placed.append((client.put_record(StreamName=name, PartitionKey=key, Data=data), data))
                many = [{'PartitionKey': key, 'Data': f'{writer}:{i + j}'.encode()} for j in (1, 2)]
                reply = client.put_records(StreamName=name, Records=many)
                placed += list(zip(reply['Records'], [item['Data'] for item in many]))
            client.close()
            return placed

        def consume(shard):
            client = self.client()
            at = client.get_shard_iterator(StreamName=name, ShardId=shard,
                                           ShardIteratorType='TRIM_HORIZON')['ShardIterator']
            records, last = [], False
            while True:
                reply = client.get_records(ShardIterator=at, Limit=50)
                records += reply['Records']
                at = reply['NextShardIterator']
                if last and not reply['Records']:
                    client.close()
                    return records
                last = ended.is_set()

        shards = [s['ShardId'] for s in self.shards(name)]
        with concurrent.futures.ThreadPoolExecutor(writers + len(shards)) as pool:
            readers = {shard: pool.submit(consume, shard) for shard in shards}
            placed = [place for done in [pool.submit(produce, w) for w in range(writers)] for place in done.result()]
            ended.set()
            read = {shard: reader.result(60) for shard, reader in readers.items()}
        wanted = {shard: [] for shard in shards}
        for place, data in placed:
            wanted[place['ShardId']].append((int(place['SequenceNumber']), data))
        for shard in shards:
            given = [(int(r['SequenceNumber']), r['Data']) for r in read[shard]]
            self.assertEqual(given, sorted(wanted[shard]), shard)
        numbers = [int(place['SequenceNumber']) for place, _ in placed]
        self.assertEqual(sorted(numbers), list(range(1, writers * each + 1)))

    def test_more_threads_than_places(self):
        """Two clients of ten threads each, at a server with 17 places: all are answered, though
        each client keeps its connections."""
        threads, puts = 10, 20
        with serving(members=17) as server:
            clients = [self.client(server, threads) for _ in range(2)]
            clients[0].create_stream(StreamName='crowded', ShardCount=1)

            def produce(client, thread):
                return [int(client.put_record(StreamName='crowded', PartitionKey=thread,
                                              Data=str(i).encode())['SequenceNumber'])
                        for i in range(puts)]

            with concurrent.futures.ThreadPoolExecutor(2 * threads) as pool:
                made = {f'{i} {j}': pool.submit(produce, client, f'{i} {j}') for i, client in enumerate(clients)
                        for j in range(threads)}
                placed = {thread: done.result() for thread, done in made.items()}
            at = clients[0].get_shard_iterator(StreamName='crowded', ShardId='shardId-000000000000',
                                               ShardIteratorType='TRIM_HORIZON')
            records = clients[0].get_records(ShardIterator=at['ShardIterator'])['Records']
            self.assertEqual([int(r['SequenceNumber']) for r in records], list(range(1, 2 * threads * puts + 1)))
            for thread, numbers in placed.items():
                own = [(int(r['SequenceNumber']), r['Data']) for r in records if r['PartitionKey'] == thread]
                self.assertEqual(own, [(number, str(i).encode()) for i, number in enumerate(numbers)])
            clients[0].delete_stream(StreamName='crowded')
            for client in clients:
                client.close()

    def test_a_pause_longer_than_the_idle_limit(self):
        """The pooled connection was closed meanwhile; the client opens another, and its caller sees nothing of it."""
        name, client = self.stream(), self.client()
        first = client.put_record(StreamName=name, PartitionKey='a', Data=b'before')
        time.sleep(IDLE + 2)
        second = client.put_record(StreamName=name, PartitionKey='a', Data=b'after')
        client.close()
        self.assertEqual([int(put['SequenceNumber']) for put in (first, second)], [1, 2])

    # ---- paginators

    def test_pages_of_describe_stream(self):
        name = self.stream(25)
        paginator = self.kinesis.get_paginator('describe_stream')
        pages = list(paginator.paginate(StreamName=name, PaginationConfig={'PageSize': 10}))
        self.assertEqual([len(p['StreamDescription']['Shards']) for p in pages], [10, 10, 5])
        found = [s['ShardId'] for p in pages for s in p['StreamDescription']['Shards']]
        self.assertEqual(found, [f'shardId-{i:012}' for i in range(25)])

    def test_pages_of_list_shards(self):
        name = self.stream(5)
        reply = self.kinesis.list_shards(StreamName=name, MaxResults=2)
        found = reply['Shards']
        while 'NextToken' in reply:
            reply = self.kinesis.list_shards(NextToken=reply['NextToken'], MaxResults=2)
            found += reply['Shards']
        self.assertEqual([s['ShardId'] for s in found], [f'shardId-{i:012}' for i in range(5)])
        # The paginator sends StreamName beside NextToken, which the service refuses.
        pages = self.kinesis.get_paginator('list_shards').paginate(StreamName=name, PaginationConfig={'PageSize': 2})
        with self.assertRaises(ClientError) as caught:
            list(pages)
        self.assertEqual(caught.exception.response['Error']['Message'], 'StreamName is not valid')

    def test_pages_of_list_streams(self):
        names = sorted(self.stream() for _ in range(5))
        found, after = [], {}
        while True:
            reply = self.kinesis.list_streams(Limit=2, **after)
            found += reply['StreamNames']
            if not reply['HasMoreStreams']:
                break
            after = {'ExclusiveStartStreamName': reply['StreamNames'][-1]}
        self.assertEqual([n for n in found if n in names], names)
        self.assertEqual(found, sorted(found))
