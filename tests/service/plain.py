"""What the server answers over plain sockets, where no SDK is there: at one address alone, moments of the machine's
clock, and the two operations that no other client of this folder asks without boto3. Expected values come from the
API Reference and docs/formats.md."""
import errno
import json
import socket
import time
import unittest

from lib.responses import responses
from lib.server import request, serving

KEYS = 2**128
FIRST = 'shardId-000000000000'


class Plain(unittest.TestCase):
    def setUp(self):
        context = serving(members=3)
        self.server = context.__enter__()
        self.addCleanup(context.__exit__, None, None, None)
        self.connection = self.server.connect()
        self.addCleanup(self.connection.close)

    def ask(self, operation, status=200, **members):
        self.connection.sendall(request(operation, json.dumps(members).encode()))
        (given, body), = responses(self.connection, 1)
        self.assertEqual(given, status, body)
        return json.loads(body) if body else None

    def records(self, name, shard=FIRST):
        start = self.ask('GetShardIterator', StreamName=name, ShardId=shard, ShardIteratorType='TRIM_HORIZON')
        return self.ask('GetRecords', ShardIterator=start['ShardIterator'])['Records']

    def test_no_other_address_answers(self):
        """127.0.0.2 is this machine too: a server that listened at every address would answer there."""
        with socket.socket() as other:
            other.settimeout(10)
            self.assertEqual(other.connect_ex(('127.0.0.2', self.server.port)), errno.ECONNREFUSED)

    def test_moments_are_the_machines(self):
        before = int(time.time())
        self.ask('CreateStream', StreamName='s', ShardCount=1)
        self.ask('PutRecord', StreamName='s', PartitionKey='a', Data='')
        between = time.time()
        time.sleep(1.1)
        self.ask('PutRecord', StreamName='s', PartitionKey='a', Data='')
        first, second = (record['ApproximateArrivalTimestamp'] for record in self.records('s'))
        self.assertTrue(before <= first <= between < second + 1 <= time.time() + 1, (before, first, between, second))
        self.assertLess(first, second)
        made = self.ask('DescribeStreamSummary', StreamName='s')['StreamDescriptionSummary']['StreamCreationTimestamp']
        self.assertTrue(before <= made <= first)

    def test_local_enforce_limits(self):
        """1,048,576 bytes a second and shard: of three records of half of that the third is refused."""
        self.ask('CreateStream', StreamName='s', ShardCount=1)
        half = 'A' * (524_288 * 4 // 3 // 4 * 4)
        three = [{'PartitionKey': 'a', 'Data': half}] * 3
        self.assertEqual(self.ask('PutRecords', StreamName='s', Records=three)['FailedRecordCount'], 0)
        self.assertIsNone(self.ask('LocalEnforceLimits', StreamName='s', Enforce=True))
        time.sleep(1.1)
        told = self.ask('PutRecords', StreamName='s', Records=three)
        codes = [record.get('ErrorCode') for record in told['Records']]
        self.assertEqual((told['FailedRecordCount'], codes),
                         (1, [None, None, 'ProvisionedThroughputExceededException']))
        self.assertIsNone(self.ask('LocalEnforceLimits', StreamName='s', Enforce=False))
        self.assertEqual(self.ask('PutRecords', StreamName='s', Records=three)['FailedRecordCount'], 0)
        self.assertEqual(self.ask('LocalEnforceLimits', 400, StreamName='nobody', Enforce=True)['__type'],
                         'ResourceNotFoundException')

    def test_update_shard_count(self):
        self.ask('CreateStream', StreamName='s', ShardCount=2)
        told = self.ask('UpdateShardCount', StreamName='s', TargetShardCount=3, ScalingType='UNIFORM_SCALING')
        self.assertEqual(told, {'CurrentShardCount': 2, 'StreamName': 's', 'TargetShardCount': 3})
        shards = self.ask('ListShards', StreamName='s')['Shards']
        open_ones = [shard for shard in shards if 'EndingSequenceNumber' not in shard['SequenceNumberRange']]
        starts = sorted(int(shard['HashKeyRange']['StartingHashKey']) for shard in open_ones)
        self.assertEqual(starts, [i * (KEYS // 3) for i in range(3)])
