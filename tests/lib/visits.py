"""Clients that ask for much and then stay idle: what memory the server has while they stay, and after they left."""
import base64
import concurrent.futures
import json
import time

from lib.responses import responses
from lib.server import request

MOST_BODY = 16_700_000
LIST = request('ListStreams', b'{}')
BATCH, PAYLOAD = 400, 10_000


def refused(size):
    """A put of `size` bytes into a stream that isn't there."""
    body = b'{"StreamName":"none","PartitionKey":"a","Data":"%s"}'
    return request('PutRecord', body % (b'A' * ((size - len(body)) // 4 * 4)))


def no_object():
    """A body of a request, of nearly the most bytes, that is JSON and no object."""
    return request('ListStreams', b'"%s"' % (b'x' * MOST_BODY))


def batch():
    """A PutRecords of 4 MB."""
    data = base64.b64encode(bytes(PAYLOAD)).decode()
    items = [{'PartitionKey': f'key-{i}', 'Data': data} for i in range(BATCH)]
    return request('PutRecords', json.dumps({'StreamName': 's', 'Records': items}).encode())


def made(server, record):
    """Puts a record of `record` bytes, on a connection of its own, and returns a request that reads it."""
    with server.connect() as connection:
        data = base64.b64encode(bytes(record))
        connection.sendall(request('PutRecord', b'{"StreamName":"s","PartitionKey":"a","Data":"%s"}' % data))
        connection.sendall(request(
            'GetShardIterator',
            b'{"StreamName":"s","ShardId":"shardId-000000000000","ShardIteratorType":"TRIM_HORIZON"}'))
        (first, _), (second, iterator) = responses(connection, 2)
    assert (first, second) == (200, 200)
    return request('GetRecords', iterator)


def settled(server, threads):
    """The bytes of memory that the server has once it has `threads` threads and nothing changes any more."""
    end = time.monotonic() + 30
    before = -1
    while time.monotonic() < end:
        now = server.resident()
        if server.threads() <= threads and now == before:
            break
        before = now
        time.sleep(0.3)
    return before


def come(server, asked):
    """A connection that asked, one request behind the other's answer."""
    connection = server.connect()
    for data, wanted in asked:
        connection.sendall(data)
        found = [status for status, _ in responses(connection, 1)]
        assert found == [wanted], found
    return connection


def visit(server, kind):
    """Clients of a kind come, ask, stay and leave, in each round. Returns what the server has more, in bytes, than
    before the first: while the last ones stay, and after they left, each without what it must keep of their records."""
    with server.connect() as connection:
        connection.sendall(request('CreateStream', b'{"StreamName":"s","ShardCount":1}', close=True))
        assert [status for status, _ in responses(connection, 1)] == [200]
    asked = [*kind.asked, *([(made(server, kind.record), 200)] if kind.record else [])]
    before = settled(server, 2)
    for _ in range(kind.rounds):
        with concurrent.futures.ThreadPoolExecutor(kind.clients) as pool:
            held = list(pool.map(lambda _: come(server, asked), range(kind.clients)))
        stay = settled(server, kind.clients + 1) - before
        for connection in held:
            connection.close()
        left = settled(server, 2) - before
    return stay - kind.own, left - kind.own


class Kind:
    """Some clients: what each asks, with the status of its answer, and how often they come; a size of a record that is
    made to be read; and the bytes that the server must keep of their records."""

    def __init__(self, name, clients, asked, rounds=1, record=None, own=0):
        self.name, self.clients, self.asked = name, clients, asked
        self.rounds, self.record, self.own = rounds, record, own


def kinds():
    yield Kind('each lists streams', 16, [(LIST, 200)])
    for size in (1_000_000, 4_000_000, 10_000_000):
        yield Kind(f'each has a put of {size:,} bytes refused, and lists streams thrice', 16,
                   [(refused(size), 400), *3 * [(LIST, 200)]])
    yield Kind('each has a body of 16.7 MB refused', 16, [(no_object(), 400)])
    yield Kind('each reads a record of 9 MB, 12 MB as text', 16, [], record=9_000_000)
    # a record takes some 150 bytes beside its payload (docs/performance.md)
    yield Kind('each puts 400 records of 10 kB at once', 64, [(batch(), 200)], own=64 * BATCH * (PAYLOAD + 150))
    yield Kind('each has a body of 16.7 MB refused, in four rounds', 32, [(no_object(), 400)], rounds=4)
