"""What clients do that nobody asked for: bytes one by one, connections left half open, garbage, huge heads, wrong
lengths, thousands of requests at once, resets in mid-answer, readers that stop, more clients than there are places,
clients that stay. After each a normal client is served, and the memory of the server stays bounded."""
import contextlib
import json
import random
import resource
import select
import signal
import socket
import struct
import subprocess
import threading
import time
import unittest

from lib.responses import responses
from lib.server import FULL, IDLE, ROOT, Server, free_port, request, serving

MEMBERS = 9
MEGABYTE = 1 << 20
LIST = request('ListStreams', b'{}')
NAMES = b'{"HasMoreStreams":false,"StreamNames":["s"]}'


def reset(connection):
    """Closes a connection so that the other side sees a reset."""
    connection.setsockopt(socket.SOL_SOCKET, socket.SO_LINGER, struct.pack('ii', 1, 0))
    connection.close()


class Unfriendly(unittest.TestCase):
    @classmethod
    def setUpClass(cls):
        cls.context = serving(members=MEMBERS)
        cls.server = cls.context.__enter__()
        with cls.server.connect() as connection:
            connection.sendall(request('CreateStream', b'{"StreamName":"s","ShardCount":1}'))
            assert responses(connection, 1) == [(200, b'')]

    @classmethod
    def tearDownClass(cls):
        cls.context.__exit__(None, None, None)

    def setUp(self):
        self.before = self.server.resident()

    def tearDown(self):
        """A normal client is served, and no memory was kept."""
        with self.server.connect() as connection:
            connection.sendall(LIST)
            self.assertEqual(responses(connection, 1), [(200, NAMES)])
        self.assertLess(self.server.resident() - self.before, 64 * MEGABYTE)

    def status_of(self, data):
        with self.server.connect() as connection:
            connection.sendall(data)
            connection.shutdown(socket.SHUT_WR)
            return [status for status, _ in responses(connection, 10)]

    def test_byte_by_byte(self):
        with self.server.connect() as connection:
            connection.setsockopt(socket.IPPROTO_TCP, socket.TCP_NODELAY, 1)
            for byte in LIST:
                connection.sendall(bytes([byte]))
            self.assertEqual(responses(connection, 1), [(200, NAMES)])

    def test_half_open(self):
        held = [self.server.connect() for _ in range(MEMBERS)]
        for connection in held:
            connection.sendall(LIST[:-3])
        for connection in held:
            connection.sendall(LIST[-3:])
            self.assertEqual(responses(connection, 1), [(200, NAMES)])
            connection.close()

    def test_garbage(self):
        source = random.Random(1)
        for size in (1, 10, 1000, 100_000):
            with self.server.connect() as connection:
                try:
                    connection.sendall(source.randbytes(size))
                    connection.shutdown(socket.SHUT_WR)
                    connection.recv(1000)
                except ConnectionError:
                    pass
        self.assertEqual(self.status_of(b'\x00\x01\x02 / HTTP/1.1\r\n\r\n'), [400])
        self.assertEqual(self.status_of(b'\x16\x03\x01\x02\x00\x01\x00\x01\xfc\x03\x03'), [400])

    def test_huge_heads(self):
        head = b'POST / HTTP/1.1\r\n'
        self.assertEqual(self.status_of(head + b'X: ' + b'y' * 20_000), [431])
        self.assertEqual(self.status_of(head + b'X: y\r\n' * 65 + b'\r\n'), [400])
        self.assertEqual(self.status_of(head + b'X: ' + b'y' * 300_000), [431])

    def test_wrong_lengths(self):
        head = b'POST / HTTP/1.1\r\n'
        for lines, status in (
            (b'', 411),
            (b'Content-Length: x\r\n', 400),
            (b'Content-Length: -1\r\n', 400),
            (b'Content-Length: 1\r\nContent-Length: 1\r\n', 400),
            (b'Content-Length: 99999999999999999999\r\n', 400),
            (b'Content-Length: 9999999999\r\n', 413),
            (b'Transfer-Encoding: chunked\r\nContent-Length: 2\r\n', 501),
        ):
            self.assertEqual(self.status_of(head + lines + b'\r\n'), [status], lines)
        self.assertEqual(self.status_of(b'GET / HTTP/1.1\r\nContent-Length: 0\r\n\r\n'), [405])
        self.assertEqual(self.status_of(b'POST /x HTTP/1.1\r\nContent-Length: 0\r\n\r\n'), [404])

    def test_refused_while_sending(self):
        """The answer to a refused head reaches a client that is still sending its body."""
        for _ in range(20):
            with self.server.connect() as connection:
                connection.sendall(b'POST / HTTP/1.1\r\nContent-Length: 99999999\r\n\r\n' + b'x' * 200_000)
                self.assertEqual(responses(connection, 1), [(413, b'')])

    def test_body_that_ends_early(self):
        self.assertEqual(self.status_of(b'POST / HTTP/1.1\r\nContent-Length: 100\r\n\r\n{'), [])

    def test_ten_thousand_requests_at_once(self):
        count = 10_000
        with self.server.connect() as connection:
            connection.setblocking(False)
            left, given = memoryview(LIST * count), bytearray()
            end = time.monotonic() + 60
            answer = b'Content-Length: %d\r\n\r\n' % len(NAMES) + NAMES
            while given.count(answer) < count:
                self.assertLess(time.monotonic(), end)
                readable, writable, _ = select.select([connection], [connection] if left else [], [], 10)
                if readable:
                    piece = connection.recv(1 << 18)
                    self.assertTrue(piece)
                    given += piece
                if writable:
                    left = left[connection.send(left[: 1 << 16]):]

    def test_resets_in_mid_answer(self):
        for at in range(0, len(LIST), 7):
            connection = self.server.connect()
            connection.sendall(LIST * 3 + LIST[:at])
            reset(connection)
        time.sleep(0.2)

    def test_readers_that_stop(self):
        """Connections that ask for much and read nothing hold one answer and a little more, each."""
        body = b'{"StreamName":"s","PartitionKey":"a","Data":"%s"}' % (b'QUFB' * 80_000)
        with self.server.connect() as connection:
            for _ in range(4):
                connection.sendall(request('PutRecord', body))
            self.assertEqual([status for status, _ in responses(connection, 4)], [200] * 4)
            connection.sendall(request('GetShardIterator',
                                       b'{"StreamName":"s","ShardId":"shardId-000000000000",'
                                       b'"ShardIteratorType":"TRIM_HORIZON"}'))
            iterator = json.loads(responses(connection, 1)[0][1])['ShardIterator']
        ask = request('GetRecords', json.dumps({'ShardIterator': iterator}).encode())
        before = self.server.resident()
        held = [self.server.connect() for _ in range(MEMBERS - 2)]
        for connection in held:
            connection.settimeout(0.5)
            try:
                connection.sendall(ask * 200)
            except TimeoutError:
                pass
        time.sleep(1)
        self.assertLess(self.server.resident() - before, (MEMBERS - 2) * 8 * MEGABYTE)
        for connection in held:
            reset(connection)
        self.before = before

    def test_more_clients_than_places(self):
        """Those that find no place wait, and are served as soon as one is free."""
        held = [self.server.connect() for _ in range(MEMBERS)]
        for connection in held:
            connection.sendall(LIST)
            self.assertEqual(responses(connection, 1), [(200, NAMES)])
        more = [self.server.connect() for _ in range(20)]
        for connection in more:
            connection.sendall(request('ListStreams', b'{}', close=True))
        for connection in held:
            connection.close()
        for connection in more:
            self.assertEqual(responses(connection, 1), [(200, NAMES)])
            connection.close()

    def test_threads_end(self):
        for _ in range(3 * MEMBERS):
            with self.server.connect() as connection:
                connection.sendall(LIST)
                responses(connection, 1)
        end = time.monotonic() + 10
        while self.server.threads() > 2 and time.monotonic() < end:
            time.sleep(0.05)
        self.assertLessEqual(self.server.threads(), 2)


class Places(unittest.TestCase):
    """Clients that stay give their places back: none keeps another client from being served."""

    def serve(self, members):
        context = serving(members)
        self.server = context.__enter__()
        self.addCleanup(context.__exit__, None, None, None)

    def clients(self, count):
        """So many clients that were each answered once."""
        made = [self.server.connect() for _ in range(count)]
        for connection in made:
            self.addCleanup(connection.close)
            connection.settimeout(2 * FULL)
            connection.sendall(request('ListStreams', b'{}'))
            self.assertEqual([status for status, _ in responses(connection, 1)], [200])
        return made

    def much(self, connection):
        """Puts a record whose text has 8 MB, and returns an iterator that reads it."""
        connection.sendall(request('CreateStream', b'{"StreamName":"s","ShardCount":1}'))
        connection.sendall(request('PutRecord',
                                   b'{"StreamName":"s","PartitionKey":"a","Data":"%s"}' % (b'QUFB' * 2_000_000)))
        connection.sendall(request('GetShardIterator',
                                   b'{"StreamName":"s","ShardId":"shardId-000000000000",'
                                   b'"ShardIteratorType":"TRIM_HORIZON"}'))
        return json.loads(responses(connection, 3)[-1][1])['ShardIterator']

    def assert_given_up(self, held):
        """After the time that an idle client has while all places are in use, another one is served. These connections
        are ended then or, where a place is free again, after the time that an idle client has."""
        self.assert_served_within(4)
        for connection in held:
            self.assert_ended(connection)

    def assert_served_within(self, seconds):
        begin = time.monotonic()
        self.clients(1)
        self.assertLess(time.monotonic() - begin, seconds)

    def assert_ended(self, connection):
        """The server has closed it, or reset it."""
        connection.settimeout(IDLE + 2)
        with contextlib.suppress(ConnectionResetError):
            while connection.recv(1 << 20):
                pass

    def test_the_last_one_is_idle(self):
        self.serve(17)
        *others, _ = self.clients(17)
        for connection in others:
            connection.close()
        self.assert_served_within(2)

    def test_the_last_one_is_busy(self):
        """And so is one that never stops asking, in whichever place it is."""
        self.serve(3)
        others, ended = self.clients(3), threading.Event()

        def ask():
            while not ended.is_set():
                others[-1].sendall(request('ListStreams', b'{}'))
                responses(others[-1], 1)

        asking = threading.Thread(target=ask)
        asking.start()
        try:
            for connection in others[:-1]:
                connection.close()
            self.assert_served_within(2)
        finally:
            ended.set()
            asking.join()

    def test_all_stay(self):
        self.serve(17)
        held = self.clients(17)
        self.assert_given_up(held)

    def test_half_requests(self):
        """Half a head, half a body, a request and a half."""
        self.serve(3)
        held = self.clients(3)
        for connection, part in zip(held, (LIST[:40], LIST[:-1], LIST + LIST[:-1])):
            connection.sendall(part)
        self.assert_given_up(held)

    def test_readers_that_read_nothing(self):
        self.serve(2)
        held = self.clients(2)
        iterator = self.much(held[0])
        for connection in held:
            connection.sendall(request('GetRecords', json.dumps({'ShardIterator': iterator}).encode()) * 4)
        self.assert_served_within(FULL + 2)

    def test_a_pause_below_the_limit(self):
        """In the middle of a head, and between two requests: both are answered."""
        self.serve(3)
        inside, between = self.clients(2)
        inside.sendall(LIST[:40])
        time.sleep(IDLE - 2)
        inside.sendall(LIST[40:])
        between.sendall(LIST)
        self.assertEqual([[status for status, _ in responses(it, 1)] for it in (inside, between)], [[200], [200]])

    def test_a_place_that_is_free_again(self):
        """A connection that was open while all places were in use pauses as long as any other, once one is free."""
        self.serve(2)
        gone, held = self.clients(2)
        for _ in range(10):
            time.sleep(0.5)
            for connection in (gone, held):
                connection.sendall(LIST)
                self.assertEqual([status for status, _ in responses(connection, 1)], [200])
        gone.close()
        time.sleep(IDLE - 4)
        held.sendall(LIST)
        self.assertEqual([status for status, _ in responses(held, 1)], [200])

    def test_a_reader_that_pauses(self):
        """It asks for two answers of 8 MB, reads nothing for 6 seconds, and gets both whole."""
        self.serve(2)
        connection, = self.clients(1)
        iterator = self.much(connection)
        connection.sendall(request('GetRecords', json.dumps({'ShardIterator': iterator}).encode()) * 2)
        time.sleep(6)
        found = responses(connection, 2)
        self.assertEqual([(status, len(body) > 8_000_000 and bool(json.loads(body)['Records']))
                          for status, body in found], [(200, True), (200, True)])

    def test_closed_ones_that_stay(self):
        """A client that was told `Connection: close`, or whose head was refused, and doesn't close."""
        self.serve(2)
        closed, refused = self.clients(2)
        closed.sendall(request('ListStreams', b'{}', close=True))
        refused.sendall(b'GET / HTTP/1.1\r\nContent-Length: 0\r\n\r\n')
        self.assertEqual([[status for status, _ in responses(it, 1)] for it in (closed, refused)], [[200], [405]])
        self.assert_served_within(3)

    def test_a_closed_one_that_goes_on_sending(self):
        """A client that was told `Connection: close`, and sends a byte every 0.3 seconds: what it sends is
        dropped for some seconds in all."""
        self.serve(1)
        connection, = self.clients(1)
        connection.sendall(request('ListStreams', b'{}', close=True))
        self.assertEqual([status for status, _ in responses(connection, 1)], [200])
        ended = threading.Event()

        def send():
            with contextlib.suppress(OSError):
                while not ended.wait(0.3):
                    connection.sendall(b'x')

        sending = threading.Thread(target=send)
        sending.start()
        try:
            self.assert_served_within(IDLE)
        finally:
            ended.set()
            sending.join()

    def test_what_a_closed_one_still_sends(self):
        """It is dropped: no reset tells the client, before it has sent all, that nobody reads it."""
        self.serve(1)
        connection, = self.clients(1)
        connection.sendall(request('ListStreams', b'{}', close=True))
        self.assertEqual([status for status, _ in responses(connection, 1)], [200])
        for _ in range(5):
            time.sleep(0.02)
            connection.sendall(b'x')

    def test_no_thread_can_be_made(self):
        """Where the system has no room for a thread's stack, the thread that accepts serves, and then accepts again."""
        self.serve(3)
        room = self.server.mapped() + MEGABYTE
        resource.prlimit(self.server.process.pid, resource.RLIMIT_AS, (room, room))
        for _ in range(5):
            connection, = self.clients(1)
            self.assertEqual(self.server.threads(), 1)
            connection.close()


class Stops(unittest.TestCase):
    """The process of the server is stopped and goes on, as by Ctrl-Z and `fg`. Each stop interrupts each read."""

    def setUp(self):
        self.server = self.enterContext(serving(4))

    def opened(self):
        """An idle connection, half a head and half a body, each with the rest of its request."""
        held = []
        for sent in (0, 40, len(LIST) - 1):
            connection = self.enterContext(self.server.connect())
            connection.sendall(LIST + LIST[:sent])
            self.assertEqual([status for status, _ in responses(connection, 1)], [200])
            held.append((connection, LIST[sent:]))
        return held

    def stop(self, count, seconds):
        for _ in range(count):
            for sign in (signal.SIGSTOP, signal.SIGCONT):
                time.sleep(seconds)
                self.server.process.send_signal(sign)

    def test_they_end_no_connection(self):
        """One stop as a person makes it, and some more."""
        held = self.opened()
        self.stop(1, 1)
        self.stop(10, 0.02)
        for connection, rest in held:
            connection.sendall(rest)
            self.assertEqual([status for status, _ in responses(connection, 1)], [200])

    def test_many_count_as_silence(self):
        """A read that is interrupted counts as one that waited, so a number of stops ends each connection before its
        time."""
        held, begin = self.opened(), time.monotonic()
        self.stop(60, 0.02)
        for connection, _ in held:
            with contextlib.suppress(ConnectionResetError):
                self.assertEqual(connection.recv(1), b'')
        self.assertLess(time.monotonic() - begin, IDLE - 2)


class Ending(unittest.TestCase):
    def test_signals_end_it_at_once(self):
        for sign in (signal.SIGINT, signal.SIGTERM):
            server = Server(3)
            with server.connect() as connection:
                connection.sendall(LIST[:20])
                self.assertLess(server.stop(sign), 5)

    def test_port_in_use(self):
        with serving(2) as server:
            done = subprocess.run([ROOT / 'kds', 'serve', str(server.port), '2'], stdin=subprocess.DEVNULL,
                                  capture_output=True, timeout=60)
            self.assertEqual((done.returncode, done.stdout, done.stderr.splitlines()[0]), (8, b'', b'door fault'))

    def test_words(self):
        port = str(free_port())
        for words in (['0', '2'], ['65536', '2'], [port, '0'], [port, '65'], ['0' + port, '2'], [port],
                      [port, '2', 'x']):
            done = subprocess.run([ROOT / 'kds', 'serve', *words], stdin=subprocess.DEVNULL,
                                  capture_output=True, timeout=60)
            self.assertEqual((done.returncode, done.stdout), (2, b''), words)
