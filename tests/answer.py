#!/usr/bin/env python3
"""The built program and a real client: the requests that boto3 sends are recorded on a listener of this program's own,
and then go through a pipe, cut at random places, into `kds answer`. Each must have its response in JSON. Where boto3
isn't there, this says so and checks nothing."""
import json
import os
import random
import signal
import socketserver
import subprocess
import sys
import tempfile
import threading
import time

from lib.checks import SECONDS, Tally, asked, fail, program
from lib.lines import iterator
from lib.responses import found_in

try:
    import boto3
    from botocore.config import Config
except ImportError:
    boto3 = None

SEEDS = range(1, 6)
JSON = 'application/x-amz-json-1.1'
CANNED = f'HTTP/1.1 200 OK\r\nContent-Type: {JSON}\r\nContent-Length: 2\r\n\r\n{{}}'.encode()


class Recorder(socketserver.StreamRequestHandler):
    """Keeps the bytes of each request, and answers it with an empty object."""

    def handle(self):
        while True:
            head = b''
            while not head.endswith(b'\r\n\r\n'):
                line = self.rfile.readline()
                if not line:
                    return
                head += line
            length = 0
            for line in head.split(b'\r\n')[1:]:
                name, _, value = line.partition(b':')
                if name.strip().lower() == b'content-length':
                    length = int(value)
            self.server.requests.append(head + self.rfile.read(length))
            self.wfile.write(CANNED)


def record():
    """The requests of one client, in order."""
    with socketserver.ThreadingTCPServer(('127.0.0.1', 0), Recorder) as server:
        server.daemon_threads = True
        server.requests = []
        threading.Thread(target=server.serve_forever, daemon=True).start()
        client = boto3.client(
            'kinesis',
            endpoint_url=f'http://127.0.0.1:{server.server_address[1]}',
            region_name='us-east-1',
            aws_access_key_id='key',
            aws_secret_access_key='secret',
            config=Config(retries={'total_max_attempts': 1}, proxies={}),
        )
        shard = 'shardId-{:012}'.format
        token = iterator(1, 0, 0, time.time_ns() // 1_000_000)
        client.create_stream(StreamName='s', ShardCount=1)
        client.put_record(StreamName='s', Data=b'hi', PartitionKey='a')
        client.get_shard_iterator(StreamName='s', ShardId=shard(0), ShardIteratorType='TRIM_HORIZON')
        client.get_records(ShardIterator=token, Limit=10)
        client.list_shards(StreamName='s')
        client.split_shard(StreamName='s', ShardToSplit=shard(0), NewStartingHashKey=str(2**127))
        client.merge_shards(StreamName='s', ShardToMerge=shard(1), AdjacentShardToMerge=shard(2))
        client.put_record(StreamName='none', Data=b'', PartitionKey='a')
        server.shutdown()
        return server.requests


def answer(data, seed):
    """The status, the output and the error output of the program on these bytes, cut at random places."""
    chance = random.Random(seed)
    errors = tempfile.TemporaryFile()
    asking = subprocess.Popen([KDS, 'answer'], stdin=subprocess.PIPE, stdout=subprocess.PIPE, stderr=errors)
    limit = threading.Timer(SECONDS, asking.kill)
    limit.daemon = True
    limit.start()
    output = []
    reader = threading.Thread(target=lambda: output.append(asking.stdout.read()))
    reader.start()
    place = 0
    while place < len(data):
        size = chance.choice([1, 2, chance.randint(1, 40), chance.randint(1, 400)])
        try:
            os.write(asking.stdin.fileno(), data[place:place + size])
        except BrokenPipeError:
            break
        place += size
        time.sleep(0.001)
    asking.stdin.close()
    reader.join()
    limit.cancel()
    if asking.wait() == -signal.SIGKILL:
        fail(f'seed {seed}: it has not ended within {SECONDS} seconds')
    with errors:
        errors.seek(0)
        return asking.returncode, output[0], errors.read().decode(errors='replace')


def responses(data):
    """The status and the body of each response."""
    found = found_in(data)
    assert found is not None, 'they are not whole responses'
    for one in found:
        assert (one.status, one.reason) in ((200, 'OK'), (400, 'Bad Request')), one
        assert sorted(one.headers) == ['Content-Length', 'Content-Type'], one
        assert one.headers['Content-Type'] == JSON, one
    return [(one.status, json.loads(one.body) if one.body else None) for one in found]


def check(tally, requests):
    wanted = [200, 200, 200, 200, 200, 200, 200, 400]
    data = b''.join(requests)
    for seed in SEEDS:
        status, output, errors = answer(data, seed)
        tally.check(f'seed {seed}: status and errors', (0, ''), (status, errors))
        found = responses(output)
        codes = [code for code, _ in found]
        tally.check(f'seed {seed}: responses', wanted, codes)
        if codes == wanted:
            tally.check(f'seed {seed}: the first ones',
                        [None, {'SequenceNumber': '1', 'ShardId': 'shardId-000000000000'}],
                        [body for _, body in found[:2]])
            tally.check(f'seed {seed}: records', ['aGk='], [record['Data'] for record in found[3][1]['Records']])
            tally.check(f'seed {seed}: the refusal', 'ResourceNotFoundException', found[7][1]['__type'])
    status, output, errors = answer(data[:-1], 0)
    tally.check('cut: status and errors', (7, 'input ended inside a message\n'), (status, errors))
    tally.check('cut: responses', len(requests) - 1, len(responses(output)))


def main():
    global KDS  # the program to be checked
    asked(__doc__, 'tests/answer.py')
    if not boto3:
        print('skipped: there is no boto3 on this machine')
        return 0
    KDS = program()
    recorded = record()
    others = [request for request in recorded if f'Content-Type: {JSON}\r\n'.encode() not in request]
    if others:
        fail(f'boto3 {boto3.__version__} sent another content type: {others[0]}')
    tally = Tally()
    check(tally, recorded)
    return tally.end(f'boto3 {boto3.__version__}: {len(recorded)} requests, {len(SEEDS)} cuttings: ')


if __name__ == '__main__':
    sys.exit(main())
