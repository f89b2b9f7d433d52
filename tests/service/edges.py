"""What a server does where memory or descriptors run out, and where a client gave up before its connection was accepted
(docs/clients.md). And the greatest moment of a schedule, which is later than any that a clock has."""
import contextlib
import errno
import json
import os
import pathlib
import resource
import shutil
import socket
import struct
import subprocess
import tempfile
import threading
import time
import unittest
from unittest import mock

from lib.responses import responses
from lib.server import ROOT, request, serving

PLACES = 4
MEGABYTE = 1 << 20
# How many objects make a body of 1.5 MB, which takes a hundred times its size while it is read. And how many more bytes
# of addresses a server may have for it. Among those that it has are 64 MB for the small blocks of each thread.
OBJECTS, ROOM = 200_000, 4 * MEGABYTE
LIST = request('ListStreams', b'{}')
ANSWER = [(200, b'{"HasMoreStreams":false,"StreamNames":[]}')]
# How many looks, this many seconds apart, find how often a server works. One that waits is found at work in a few at
# most. One that tries again at once, without end, is so in each, also where the machine is busy.
LOOKS, APART, AT_WORK = 20, 0.1, 5
MEMORY, DOOR = (6, b'out of memory\n'), (8, b'door fault\n')


def reset(connection):
    """Closes a connection so that the other side sees a reset."""
    connection.setsockopt(socket.SOL_SOCKET, socket.SO_LINGER, struct.pack('ii', 1, 0))
    connection.close()


def put(more=''):
    """The bytes of a request that puts a record, with more members."""
    return request('PutRecord', f'{{"StreamName":"s","PartitionKey":"a","Data":""{more}}}'.encode())


def works(pid):
    """Whether a thread of a process runs, or would run if it got a processor."""
    tasks = pathlib.Path(f'/proc/{pid}/task').glob('*/stat')
    return any(task.read_text().rpartition(')')[2].split()[0] == 'R' for task in tasks)


class Edge(unittest.TestCase):
    """A server, and what is asked of it and of its connections."""

    def serve(self, members=PLACES):
        self.server = self.enterContext(serving(members))
        return self.server

    def connect(self):
        return self.enterContext(self.server.connect())

    def asked(self, connection, data=LIST, wanted=ANSWER):
        connection.sendall(data)
        self.assertEqual(responses(connection, 1), wanted)

    def closed(self, connection):
        """The server closes a connection, with no byte of a response."""
        with contextlib.suppress(ConnectionResetError):
            self.assertEqual(connection.recv(1), b'')

    def waits(self, connection):
        """The server neither answers a connection nor closes it."""
        connection.settimeout(0.5)
        with self.assertRaises(TimeoutError):
            connection.recv(1)

    def limit_files(self, more=0):
        """Lets the server have no descriptor above those that it has, but for `more`."""
        pid = self.server.process.pid
        last = max(int(file.name) for file in pathlib.Path(f'/proc/{pid}/fd').iterdir())
        was = resource.prlimit(pid, resource.RLIMIT_NOFILE)
        resource.prlimit(pid, resource.RLIMIT_NOFILE, (last + 1 + more, was[1]))
        return was

    def rests(self, connection):
        """The server waits, and doesn't try again and again. An open connection is served meanwhile, since one that
        pauses for two seconds may be closed."""
        found = 0
        for _ in range(LOOKS):
            self.asked(connection)
            time.sleep(APART)
            found += works(self.server.process.pid)
        self.assertLessEqual(found, AT_WORK)

    def ends(self, wanted):
        """The server ends by itself, with this status and text."""
        status = self.server.process.wait(30)
        self.assertEqual((status, self.server.process.stderr.read()), wanted)


class Caller(threading.Thread):
    """Puts records over a connection, one after the other. If it paused for two seconds it would be closed, since a
    server whose memory ran out has no place that is free."""

    def __init__(self, connection):
        super().__init__(daemon=True)
        self.connection, self.numbers, self.ended = connection, [], threading.Event()

    def run(self):
        while not self.ended.wait(0.1):
            self.connection.sendall(put())
            (status, body), = responses(self.connection, 1)
            self.numbers.append((status, int(json.loads(body)['SequenceNumber'])))

    def is_served(self):
        """Whether a record that it puts from now on gets its answer."""
        wanted = len(self.numbers) + 2
        while self.is_alive() and len(self.numbers) < wanted:
            time.sleep(0.02)
        return len(self.numbers) >= wanted

    def end(self):
        """Closes the connection, and gives what was answered."""
        self.ended.set()
        self.join()
        self.connection.close()
        return self.numbers


class Memory(Edge):
    def use_up(self, members=PLACES):
        """Has memory run out on another connection than that of the caller which this returns. The server closes the
        other one without any part of a response."""
        self.serve(members)
        older, busy = self.connect(), self.connect()
        self.asked(busy, request('CreateStream', b'{"StreamName":"s","ShardCount":1}'), [(200, b'')])
        caller = Caller(older)
        caller.start()
        self.assertTrue(caller.is_served())
        room = self.server.mapped() + ROOM
        resource.prlimit(self.server.process.pid, resource.RLIMIT_AS, (room, room))
        with contextlib.suppress(ConnectionError):
            busy.sendall(put(',"More":[' + '{"":0},' * OBJECTS + '0]'))
        self.closed(busy)
        self.assertTrue(caller.is_served())
        return caller

    def end(self, caller):
        """The open connection is served to its end, and then the server ends. The put that ran out of memory was
        executed as a whole or not at all."""
        self.assertTrue(caller.is_served())
        answers = caller.end()
        numbers = [number for _, number in answers]
        self.assertEqual({status for status, _ in answers}, {200})
        self.assertEqual(numbers, sorted(set(numbers)))
        self.assertIn(numbers[-1] - len(numbers), (0, 1))
        self.ends(MEMORY)

    def test_open_connections_are_served_to_their_end(self):
        """The connection that the server was waiting for is closed, and later ones wait."""
        caller = self.use_up()
        self.closed(self.connect())
        later = self.connect()
        self.waits(later)
        self.end(caller)
        self.closed(later)

    def test_no_further_place_is_given(self):
        """All places were in use, so the server wasn't waiting for a connection when memory ran out."""
        caller = self.use_up(2)
        waiting = self.connect()
        self.waits(waiting)
        self.end(caller)

    def test_memory_and_the_door(self):
        """No descriptor is left besides: the status is that of memory."""
        caller = self.use_up()
        self.limit_files()
        self.closed(self.connect())
        self.end(caller)


class Descriptors(Edge):
    def test_none_is_left(self):
        """The open connection is served to its end, and then the server ends: it couldn't accept."""
        self.serve()
        older = self.connect()
        self.asked(older)
        self.limit_files()
        self.closed(self.connect())
        self.rests(older)
        older.close()
        self.ends(DOOR)

    def test_one_is_left(self):
        """A connection takes two: it is closed, and once there are more, the next one is served."""
        self.serve()
        older = self.connect()
        self.asked(older)
        was = self.limit_files(1)
        for _ in range(3):
            self.closed(self.connect())
        self.rests(older)
        resource.prlimit(self.server.process.pid, resource.RLIMIT_NOFILE, was)
        self.asked(self.connect())
        self.asked(older)


class GivenUp(Edge):
    def test_reset_while_all_places_are_in_use(self):
        self.serve(1)
        older = self.connect()
        self.asked(older)
        for _ in range(20):
            reset(self.server.connect())
            given_up = self.server.connect()
            given_up.sendall(LIST)
            reset(given_up)
        waiting = self.connect()
        self.asked(older)
        older.close()
        self.asked(waiting)

    @unittest.skipUnless(shutil.which('cc'), 'there is no cc on this machine')
    def test_accept_says_so(self):
        """Some systems say it by an error of accept; a signal is another reason to try again."""
        self.serve_behind(errno.ECONNABORTED, errno.ECONNRESET, errno.EINTR, *[errno.ECONNABORTED] * 100)
        self.rests(self.connect())

    @unittest.skipUnless(shutil.which('cc'), 'there is no cc on this machine')
    def test_accept_says_another(self):
        """Without memory or descriptors of the system it ends."""
        for error in (errno.EMFILE, errno.ENFILE, errno.ENOBUFS, errno.ENOMEM):
            with self.subTest(error=errno.errorcode[error]):
                self.serve_behind(error)
                self.ends(DOOR)

    def serve_behind(self, *errors):
        """A server whose first calls of accept fail with these errors."""
        folder = pathlib.Path(self.enterContext(tempfile.TemporaryDirectory()))
        library = folder / 'accept.so'
        subprocess.run(['cc', '-O2', '-fPIC', '-shared', '-o', library, ROOT / 'tests' / 'service' / 'accept.c'],
                       check=True)
        there = {'LD_PRELOAD': str(library), 'ERRORS': ' '.join(map(str, errors))}
        with mock.patch.dict(os.environ, there):
            self.serve()


class Moments(unittest.TestCase):
    def replay(self, text, *words):
        command = [ROOT / 'kds', 'replay', *words]
        done = subprocess.run(command, input=text.encode(), capture_output=True, check=False, timeout=60)
        return done.returncode, done.stdout.decode(), done.stderr.decode().splitlines()[:1]

    def test_the_greatest(self):
        """2^62 - 1, and moments longer by a digit than those of a clock. A time in an answer is in whole seconds."""
        list_streams = '{} api ListStreams {{}}\n'.format
        for moment in (10**13 - 1, 10**13, 10**13 + 1, 10**15, 2**53 + 1, 2**62 - 1):
            with self.subTest(moment=moment):
                text = f'{moment} api CreateStream {{"StreamName":"s","ShardCount":1}}\n' \
                    f'{moment} api DescribeStreamSummary {{"StreamName":"s"}}\n'
                status, out, err = self.replay(text)
                self.assertEqual((status, out.count('\n'), err), (0, 2, []))
                self.assertIn(f'"StreamCreationTimestamp":{moment // 1000},', out)
                self.assertEqual(self.replay(list_streams(moment), '--journal'), (0, f'journal 2\nend {moment}\n', []))
        for moment in (2**62, 10**19, 2**64):
            with self.subTest(moment=moment):
                self.assertEqual(self.replay(list_streams(moment)), (3, '', ['line 1: not a schedule line']))
