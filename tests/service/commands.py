"""The program as the AWS CLI sees it: some twenty `aws kinesis` commands, each with what it prints."""
import base64
import json
import os
import shutil
import subprocess
import unittest

from lib.server import serving

AWS = shutil.which('aws')


@unittest.skipUnless(AWS, 'there is no aws on this machine')
class Commands(unittest.TestCase):
    @classmethod
    def setUpClass(cls):
        cls.context = serving(members=5)
        cls.server = cls.context.__enter__()
        # Version 2 takes blobs in base64 where it isn't told otherwise, version 1 as they are.
        version = subprocess.run([AWS, '--version'], capture_output=True, text=True).stdout
        cls.raw = ['--cli-binary-format', 'raw-in-base64-out'] if version.startswith('aws-cli/2') else []

    @classmethod
    def tearDownClass(cls):
        cls.context.__exit__(None, None, None)

    def run_aws(self, operation, *words, raw=False):
        environment = {
            'PATH': os.environ['PATH'],
            'HOME': os.environ.get('HOME', '/'),
            'AWS_ACCESS_KEY_ID': 'any',
            'AWS_SECRET_ACCESS_KEY': 'any',
            'AWS_MAX_ATTEMPTS': '1',
            'AWS_PAGER': '',
        }
        command = [AWS, 'kinesis', operation, '--endpoint-url', self.server.endpoint, '--region', 'us-east-1',
                   '--output', 'json', *words]
        return subprocess.run(command + (self.raw if raw else []), env=environment, capture_output=True, text=True,
                              timeout=120)

    def aws(self, operation, *words, raw=False):
        done = self.run_aws(operation, *words, raw=raw)
        self.assertEqual(done.returncode, 0, done.stderr)
        return json.loads(done.stdout) if done.stdout.strip() else None

    def refused(self, error, operation, *words, raw=False):
        done = self.run_aws(operation, *words, raw=raw)
        self.assertNotEqual(done.returncode, 0)
        self.assertIn(error, done.stderr)

    def test_a_session(self):
        name = ('--stream-name', 'cli')
        zero = ('--shard-id', 'shardId-000000000000')
        self.assertIsNone(self.aws('create-stream', *name, '--shard-count', '1'))
        self.refused('ResourceInUseException', 'create-stream', *name, '--shard-count', '1')
        self.assertEqual(self.aws('list-streams')['StreamNames'], ['cli'])
        described = self.aws('describe-stream', *name)['StreamDescription']
        self.assertEqual((described['StreamStatus'], len(described['Shards'])), ('ACTIVE', 1))
        summary = self.aws('describe-stream-summary', *name)['StreamDescriptionSummary']
        self.assertEqual(summary['OpenShardCount'], 1)
        put = self.aws('put-record', *name, '--partition-key', 'a', '--data', 'hello', raw=True)
        self.assertEqual(put, {'ShardId': 'shardId-000000000000', 'SequenceNumber': '1'})
        explicit = self.aws('put-record', *name, '--partition-key', 'a', '--data', 'x', '--explicit-hash-key',
                            '0', raw=True)
        self.assertEqual(explicit['SequenceNumber'], '2')
        many = self.aws('put-records', *name, '--records', 'Data=one,PartitionKey=a',
                        'Data=two,PartitionKey=b', raw=True)
        self.assertEqual((many['FailedRecordCount'], [r['SequenceNumber'] for r in many['Records']]), (0, ['3', '4']))
        iterator = self.aws('get-shard-iterator', *name, *zero, '--shard-iterator-type',
                            'TRIM_HORIZON')['ShardIterator']
        records = self.aws('get-records', '--shard-iterator', iterator)['Records']
        self.assertEqual([base64.b64decode(r['Data']) for r in records], [b'hello', b'x', b'one', b'two'])
        after = ('--shard-iterator-type', 'AFTER_SEQUENCE_NUMBER', '--starting-sequence-number', '3')
        iterator = self.aws('get-shard-iterator', *name, *zero, *after)['ShardIterator']
        self.assertEqual(len(self.aws('get-records', '--shard-iterator', iterator, '--limit', '5')['Records']), 1)
        moment = ('--shard-iterator-type', 'AT_TIMESTAMP', '--timestamp', '1700000000')
        self.assertIn('ShardIterator', self.aws('get-shard-iterator', *name, *zero, *moment))
        self.aws('increase-stream-retention-period', *name, '--retention-period-hours', '48')
        self.aws('decrease-stream-retention-period', *name, '--retention-period-hours', '24')
        half = str(2**127)
        self.aws('split-shard', *name, '--shard-to-split', 'shardId-000000000000', '--new-starting-hash-key', half)
        self.assertEqual(len(self.aws('list-shards', *name)['Shards']), 3)
        self.aws('merge-shards', *name, '--shard-to-merge', 'shardId-000000000001', '--adjacent-shard-to-merge',
                 'shardId-000000000002')
        shards = self.aws('list-shards', *name)['Shards']
        self.assertEqual(shards[3]['AdjacentParentShardId'], 'shardId-000000000002')
        self.refused('InvalidArgumentException', 'split-shard', *name, '--shard-to-split', 'shardId-000000000000',
                     '--new-starting-hash-key', half)
        self.assertIsNone(self.aws('delete-stream', *name))
        self.refused('ResourceNotFoundException', 'describe-stream', *name)
        self.assertEqual(self.aws('list-streams')['StreamNames'], [])
