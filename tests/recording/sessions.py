"""What `tools/record` writes is the session: the suite runs through it, its file is replayed, each reply of the
replay is compared with what the server answered then, and the journal must be sound."""
import contextlib
import copy
import io
import json
import os
import pathlib
import resource
import signal
import socket
import subprocess
import sys
import tempfile
import threading
import time
import unittest

from lib.responses import responses
from lib.server import FULL, IDLE, ROOT, free_port, request, serving
from recorder import recorder
from recorder import messages as recorder_http
from recorder import program as recorder_main
from recorder import server as recorder_server
from service import suite

# what differs in a replay: tokens and moments
LEFT_OUT = {'ShardIterator', 'NextShardIterator', 'NextToken', 'ApproximateArrivalTimestamp', 'StreamCreationTimestamp',
            'MillisBehindLatest'}


class Witness(recorder.Recorder):
    """A recorder that remembers what each line was answered."""

    def __init__(self, target, file):
        super().__init__(target, file)
        self.answers = []

    def answer(self, request):
        answer = super().answer(request)
        if request.operation:
            self.answers.append((request.operation, answer.status, answer.body))
        return answer


@contextlib.contextmanager
def recording(server, path):
    """The same server, reached through a recorder, whose file is whole at the end."""
    witness = Witness(server.port, recorder_main.made(path))
    with socket.create_server(('127.0.0.1', 0)) as door:
        def accept():
            with contextlib.suppress(OSError):
                while True:
                    threading.Thread(target=witness.serve, args=(door.accept()[0],), daemon=True).start()

        threading.Thread(target=accept, daemon=True).start()
        through = copy.copy(server)
        through.port = door.getsockname()[1]
        yield through, witness
        door.shutdown(socket.SHUT_RDWR)
    witness.end()


def without_moments(value):
    if isinstance(value, dict):
        return {name: without_moments(it) for name, it in value.items() if name not in LEFT_OUT}
    return [without_moments(it) for it in value] if isinstance(value, list) else value


def reply(body):
    return without_moments(json.loads(body)) if body else None


class Recording(unittest.TestCase):
    def test_a_session_is_replayed(self):
        with tempfile.TemporaryDirectory() as folder:
            path = pathlib.Path(folder) / 'session.txt'
            with serving(members=33) as server, recording(server, path) as (through, witness):
                given = suite.serving
                suite.serving = lambda members: contextlib.nullcontext(through)
                try:
                    tests = unittest.defaultTestLoader.loadTestsFromTestCase(suite.Suite)
                    result = unittest.TextTestRunner(stream=sys.stdout, verbosity=0).run(tests)
                finally:
                    suite.serving = given
                self.assertTrue(result.wasSuccessful())
            done = subprocess.run([ROOT / 'kds', 'replay'], stdin=path.open('rb'), capture_output=True, check=False)
            self.assertEqual((0, b''), (done.returncode, done.stderr))
            lines = done.stdout.splitlines()
            self.assertEqual(len(witness.answers), len(lines))
            self.assertGreater(len(lines), 1000)
            for (operation, status, body), line in zip(witness.answers, lines):
                head, _, text = line.partition(b' ')
                self.assertEqual((status, reply(body)), (int(head), reply(text)), operation)
            journal = subprocess.run([ROOT / 'kds', 'replay', '--journal'], stdin=path.open('rb'), capture_output=True,
                                     check=True).stdout
            verdict = subprocess.run([ROOT / 'kds', 'audit'], input=journal, capture_output=True, check=False)
            self.assertEqual((0, b'sound %d\n' % (journal.count(b'\n') - 2)), (verdict.returncode, verdict.stdout))


class Beside(unittest.TestCase):
    """Clients of one recorder, before a server with a single place."""

    def setUp(self):
        stack = contextlib.ExitStack()
        self.addCleanup(stack.close)
        self.path = pathlib.Path(stack.enter_context(tempfile.TemporaryDirectory())) / 'session.txt'
        server = stack.enter_context(serving(members=1))
        self.through, _ = stack.enter_context(recording(server, self.path))
        self.stack = stack

    def connect(self):
        connection = self.stack.enter_context(self.through.connect())
        connection.settimeout(10)
        return connection

    def assert_answered(self, connection, data, status=200):
        connection.sendall(data)
        self.assertEqual([it for it, _ in responses(connection, 1)], [status])

    def lines(self):
        return [line.split(b' ', 2)[2] for line in self.path.read_bytes().splitlines()]

    def test_idle_ones_and_halves_hold_nobody_up(self):
        first, second = self.connect(), self.connect()
        self.assert_answered(second, request('CreateStream', b'{"StreamName":"a","ShardCount":1}'))
        half = request('CreateStream', b'{"StreamName":"b","ShardCount":1}')
        first.sendall(half[:-10])
        self.assert_answered(second, request('CreateStream', b'{"StreamName":"c","ShardCount":1}'))
        self.assert_answered(first, half[-10:])
        self.assert_answered(second, request('CreateStream', b'{"StreamName":"d","ShardCount":1}'))
        self.assertEqual(self.lines(),
                         [b'CreateStream {"StreamName":"%s","ShardCount":1}' % it for it in (b'a', b'c', b'b', b'd')])

    def test_an_idle_one_is_parted_from(self):
        """As by the server: between two requests, and amid one."""
        self.assertEqual((recorder_http.IDLE, recorder_http.FULL), (IDLE, FULL))
        recorder_http.IDLE = 1
        self.addCleanup(setattr, recorder_http, 'IDLE', IDLE)
        asked, half = self.connect(), self.connect()
        self.assert_answered(asked, request('ListStreams', b'{}'))
        half.sendall(request('ListStreams', b'{}')[:-1])
        for it in (asked, half):
            self.assertEqual(it.recv(1), b'')
        # whoever sends a byte now and then isn't idle
        slow = self.connect()
        for byte in request('ListStreams', b'{}')[:4]:
            slow.sendall(bytes([byte]))
            time.sleep(0.5)
        slow.sendall(request('ListStreams', b'{}')[4:])
        self.assertEqual([it for it, _ in responses(slow, 1)], [200])
        self.assertEqual(self.lines(), [b'ListStreams {}'] * 2)

    def test_readers_that_stop_hold_nobody_up(self):
        rude, second = self.connect(), self.connect()
        self.assert_answered(second, request('CreateStream', b'{"StreamName":"a","ShardCount":1}'))
        body = b'{"StreamName":"a","PartitionKey":"a","Data":"%s"}' % (b'QUFB' * 200_000)
        self.assert_answered(second, request('PutRecord', body))
        second.sendall(request('GetShardIterator',
                               b'{"StreamName":"a","ShardId":"shardId-000000000000",'
                               b'"ShardIteratorType":"TRIM_HORIZON"}'))
        iterator = json.loads(responses(second, 1)[0][1])['ShardIterator']
        rude.sendall(request('GetRecords', json.dumps({'ShardIterator': iterator}).encode()) * 40)
        for _ in range(20):
            self.assert_answered(second, request('ListStreams', b'{}'))

    def test_what_is_no_message(self):
        """It gets the server's word on it, and no line stands for it."""
        for odd, status in ((b'POST / HTTP/1.1\r\n\r\n', 411), (b'POST / HTTP/1.1\r\nX: ' + b'y' * 20_000, 431),
                            (b'POST / HTTP/1.1\r\nContent-Length: 99999999\r\n\r\n' + b'x' * 200_000, 413)):
            self.assert_answered(self.connect(), odd, status)
        last = self.connect()
        self.assert_answered(last, request('ListStreams', b'{}', close=True))
        self.assertEqual(last.recv(1), b'')
        self.assertEqual(self.lines(), [b'ListStreams {}'])

    def test_the_last_request_of_a_connection(self):
        """The server takes 1,000,000 requests on a connection, and so does the recorder."""
        given, recorder.MOST_REQUESTS = recorder.MOST_REQUESTS, 2
        self.addCleanup(setattr, recorder, 'MOST_REQUESTS', given)
        self.assertEqual(given, 1_000_000)
        client = self.connect()
        client.sendall(request('ListStreams', b'{}') * 3)
        got = b''
        while more := client.recv(65_536):
            got += more
        self.assertEqual((got.count(b'HTTP/1.1 200 OK'), got.count(b'Connection: close'),
                          got.rindex(b'HTTP/') < got.index(b'Connection: close')), (2, 1, True))
        self.assertEqual(self.lines(), [b'ListStreams {}'] * 2)

    def test_heads_in_other_forms(self):
        """What the server does stands in the file: a tab parts a header as a space does. A line feed alone, by which
        the server would see two requests in one, comes to no server."""
        plain = request('CreateStream', b'{"StreamName":"a","ShardCount":1}')
        self.assert_answered(self.connect(), plain.replace(b': ', b':\t'))
        for odd in (plain.replace(b'\r\n', b'\n', 1), plain.replace(b'\r\n', b'\n') + plain):
            self.assert_answered(self.connect(), odd, 400)
        long = b'{"StreamName":"b","ShardCount":1,"x":"%s"}' % (b'x' * (recorder_http.MOST_BODY - 40))
        self.assert_answered(self.connect(), request('CreateStream', long), 413)
        self.assertEqual(self.lines(), [b'CreateStream {"StreamName":"a","ShardCount":1}'])


class Program(unittest.TestCase):
    """The program of the recorder."""

    def setUp(self):
        folder = tempfile.TemporaryDirectory()
        self.addCleanup(folder.cleanup)
        self.path = pathlib.Path(folder.name) / 'session.txt'
        self.port = free_port()

    def start(self, *words):
        started = subprocess.Popen([ROOT / 'tools' / 'record', *map(str, words)], stdin=subprocess.DEVNULL,
                                   stdout=subprocess.PIPE, stderr=subprocess.PIPE, text=True)
        self.addCleanup(started.kill)
        return started

    def assert_refused(self, started, said):
        out, err = started.communicate(timeout=30)
        self.assertEqual((started.returncode, out.removeprefix('recording\n'), err.count('\n')), (1, '', 1), err)
        self.assertIn(said, err)


class Command(Program):
    """It never empties a file, and says in a line why there is no recording."""

    def test_a_file_that_is_there(self):
        self.path.write_text('1 api ListStreams {}\n')
        with serving(members=1) as server:
            self.assert_refused(self.start(self.port, server.port, self.path), 'name another file')
        self.assertEqual(self.path.read_text(), '1 api ListStreams {}\n')

    def test_what_is_not_there(self):
        self.assert_refused(self.start(self.port, free_port(), self.path), 'there is no server')
        self.assertFalse(self.path.exists())
        with serving(members=1) as server:
            self.assert_refused(self.start(self.port, server.port, self.path.parent / 'no' / 'session.txt'),
                                'No such file or directory')
            with socket.create_server(('127.0.0.1', 0)) as other:
                self.assert_refused(self.start(other.getsockname()[1], server.port, self.path),
                                    'Address already in use')
        self.assertFalse(self.path.exists())

    def test_words(self):
        for words, code in (((), 2), (('0', '1', 'x'), 2), (('1', '65536', 'x'), 2), (('1', '2'), 2), (('--help',), 0)):
            started = self.start(*words)
            out, err = started.communicate(timeout=30)
            self.assertEqual((started.returncode, 'tools/record PORT TARGET FILE' in (err if code else out)),
                             (code, True), words)

    def test_a_session_ends_whole(self):
        """By an interrupt with status 0; by the end of the server with status 1. The file has what was answered."""
        for by_interrupt in (True, False):
            path, port = self.path.with_suffix(f'.{by_interrupt}'), free_port()
            with serving(members=2) as server:
                started = self.start(port, server.port, path)
                self.assertEqual(started.stdout.readline(), 'recording\n')
                with socket.create_connection(('127.0.0.1', port), timeout=10) as connection:
                    connection.sendall(request('ListStreams', b'{}'))
                    self.assertEqual([status for status, _ in responses(connection, 1)], [200])
                    if not by_interrupt:
                        server.stop()
                        connection.sendall(request('ListStreams', b'{}'))
                        self.assertEqual(responses(connection, 1), [])
            if by_interrupt:
                started.send_signal(signal.SIGINT)
                self.assertEqual((*started.communicate(timeout=30), started.returncode), ('', '', 0))
            else:
                self.assert_refused(started, 'is gone')
            self.assertRegex(path.read_bytes(), rb'\A[0-9]+ api ListStreams {}\n\Z')


PUT = ('PutRecord', b'{"StreamName":"a","PartitionKey":"a","Data":""}')
LISTED = b'HTTP/1.1 200 OK\r\nContent-Length: 44\r\n\r\n{"HasMoreStreams":false,"StreamNames":[]}   '


class Amiss(Program):
    """What would leave a file that isn't the session, or no end: one line, status 1, and whole lines up to there."""

    def recording(self, server, **words):
        """The program, recording, and a connection through it."""
        started = subprocess.Popen([ROOT / 'tools' / 'record', str(self.port), str(server), self.path],
                                   stdin=subprocess.DEVNULL, stdout=subprocess.PIPE, stderr=subprocess.PIPE,
                                   text=True, **words)
        self.addCleanup(started.kill)
        self.assertEqual(started.stdout.readline(), 'recording\n')
        return started

    def ask(self, operation, body):
        """The status of a request on a new connection; None if the connection fails, or ends without a response."""
        try:
            with socket.create_connection(('127.0.0.1', self.port), timeout=60) as connection:
                connection.sendall(request(operation, body))
                return next((status for status, _ in responses(connection, 1)), None)
        except OSError:
            return None

    def assert_replays(self, wanted):
        """The file has whole lines, and its replay answers them so."""
        self.assertRegex(self.path.read_bytes(), rb'\A(?:[0-9]+ api [A-Za-z]+ .*\n)*\Z')
        done = subprocess.run([ROOT / 'kds', 'replay'], stdin=self.path.open('rb'), capture_output=True, check=False)
        self.assertEqual((done.returncode, done.stderr, [int(line[:3]) for line in done.stdout.splitlines()]),
                         (0, b'', wanted))

    @contextlib.contextmanager
    def listener(self, answers):
        """A server that answers `answers` requests by an empty list of streams, and then nothing, and its port."""
        left, self.called = [answers], threading.Event()

        def serve(client):
            with contextlib.suppress(OSError):
                while client.recv(65_536):
                    self.called.set()
                    if left[0] > 0:
                        left[0] -= 1
                        client.sendall(LISTED)

        def accept():
            with contextlib.suppress(OSError):
                while True:
                    threading.Thread(target=serve, args=(door.accept()[0],), daemon=True).start()

        with socket.create_server(('127.0.0.1', 0)) as door:
            threading.Thread(target=accept, daemon=True).start()
            yield door.getsockname()[1]
            door.shutdown(socket.SHUT_RDWR)

    def in_process(self, target):
        """What the recorder's command says where it has less patience, and its status."""
        signs = [(sign, signal.getsignal(sign)) for sign in (signal.SIGINT, signal.SIGTERM, signal.SIGHUP)]
        given, limits = recorder_server.SILENCE, resource.getrlimit(resource.RLIMIT_NOFILE)
        recorder_server.SILENCE, said = 1, io.StringIO()
        try:
            with contextlib.redirect_stderr(said), contextlib.redirect_stdout(io.StringIO()):
                return recorder_main.main([str(self.port), str(target), str(self.path)]), said.getvalue()
        finally:
            recorder_server.SILENCE = given
            resource.setrlimit(resource.RLIMIT_NOFILE, limits)
            for sign, handler in signs:
                signal.signal(sign, handler)

    def test_one_port_for_both(self):
        self.assert_refused(self.start(self.port, self.port, self.path), f'PORT and TARGET are both {self.port}')
        self.assertFalse(self.path.exists())

    def test_streams_that_are_there(self):
        with serving(members=1) as server:
            with server.connect() as connection:
                connection.sendall(request('CreateStream', b'{"StreamName":"old","ShardCount":1}', close=True))
                self.assertEqual([status for status, _ in responses(connection, 1)], [200])
            self.assert_refused(self.start(self.port, server.port, self.path), 'has the streams old already')
        self.assertFalse(self.path.exists())

    def test_a_server_that_is_started_anew(self):
        port = free_port()
        with serving(members=2, port=port):
            started = self.recording(port)
            self.assertEqual([self.ask('CreateStream', b'{"StreamName":"a","ShardCount":1}'),
                              self.ask('PutRecord', b'{"StreamName":"a","PartitionKey":"a","Data":""}')], [200, 200])
        with serving(members=2, port=port):
            # the first may meet the old connection's end
            self.assertEqual({self.ask('ListStreams', b'{}'), self.ask('ListStreams', b'{}')}, {None})
            self.assert_refused(started, 'the server has no streams, and the lines make the streams a')
        self.assert_replays([200, 200])

    def test_a_client_that_goes_past_the_recorder(self):
        with serving(members=2) as server:
            started = self.recording(server.port)
            self.assertEqual([self.ask('CreateStream', b'{"StreamName":"%s","ShardCount":1}' % name)
                              for name in (b'a', b'b')], [200, 200])
            self.assertEqual([self.ask('DeleteStream', b'{"StreamName":"b"}'),
                              self.ask('DeleteStream', b'{"StreamName":"b"}')], [200, 400])
            time.sleep(recorder_server.LOOKED + 0.5)
            self.assertEqual(self.ask('ListStreams', b'{}'), 200)
            with server.connect() as connection:
                connection.sendall(request('CreateStream', b'{"StreamName":"past","ShardCount":1}', close=True))
                self.assertEqual([status for status, _ in responses(connection, 1)], [200])
            time.sleep(recorder_server.LOOKED + 0.5)
            self.assertIsNone(self.ask('PutRecord', b'{"StreamName":"a","PartitionKey":"a","Data":""}'))
            self.assert_refused(started, 'the server has the streams a, past, and the lines make the streams a')
        self.assert_replays([200, 200, 200, 400, 200])

    def past(self, server, *requests):
        """Requests that go to the server and not through the recorder."""
        with server.connect() as connection:
            connection.sendall(b''.join(request(*it) for it in requests))
            self.assertEqual([status for status, _ in responses(connection, len(requests))], [200] * len(requests))

    def test_a_server_that_is_started_anew_with_the_same_streams(self):
        """They were made later, which is noticed on the next connection."""
        port, made = free_port(), ('CreateStream', b'{"StreamName":"a","ShardCount":1}')
        with serving(members=2, port=port):
            started = self.recording(port)
            self.assertEqual([self.ask(*made), self.ask(*PUT)], [200, 200])
            time.sleep(1.1)
        with serving(members=2, port=port) as server:
            self.past(server, made, PUT)
            self.assertIsNone(self.ask(*PUT))
            self.assert_refused(started, 'the server has made the streams a once more: it was started anew')
        self.assert_replays([200, 200])

    def test_a_server_that_is_started_anew_between_two_requests(self):
        """The connection has ended with it, even where the streams are as old."""
        port, made = free_port(), ('CreateStream', b'{"StreamName":"a","ShardCount":1}')
        with contextlib.ExitStack() as stack, serving(members=2, port=port) as server:
            for name in ('UNUSED', 'LOOKED'):
                stack.callback(setattr, recorder_server, name, getattr(recorder_server, name))
                setattr(recorder_server, name, 60)
            through, witness = stack.enter_context(recording(server, self.path))
            self.port = through.port
            self.assertEqual([self.ask(*made), self.ask(*PUT)], [200, 200])
            server.stop()
            with serving(members=2, port=port) as another:
                self.past(another, made, PUT)
                with another.connect() as connection:
                    connection.sendall(request('DescribeStreamSummary', b'{"StreamName":"a"}'))
                    told = json.loads(responses(connection, 1)[0][1])['StreamDescriptionSummary']
                witness.server.made['a'] = told['StreamCreationTimestamp']
                self.assertIsNone(self.ask(*PUT))
                self.assertIn('ended the connection without an answer: it was started anew', witness.why)
        self.assert_replays([200, 200])

    def test_numbers_that_went_past_the_recorder(self):
        """Whatever takes a sequence number past the recorder is noticed at the next put. An interrupt
        right after it doesn't hide that."""
        made = ('CreateStream', b'{"StreamName":"a","ShardCount":1}')
        records = b','.join([b'{"PartitionKey":"a","Data":""}'] * 3)
        many = ('PutRecords', b'{"StreamName":"a","Records":[%s]}' % records)
        split = ('SplitShard', b'{"StreamName":"a","ShardToSplit":"shardId-000000000000","NewStartingHashKey":"9"}')
        scaled = ('UpdateShardCount', b'{"StreamName":"a","TargetShardCount":3,"ScalingType":"UNIFORM_SCALING"}')
        for past, number in (([PUT], 6), ([many], 8), ([split], 6), ([scaled], 7),
                             ([('DeleteStream', b'{"StreamName":"a"}'), made], None)):
            for put in (PUT, many):
                self.path, self.port = self.path.with_suffix(f'.{past[0][0]}-{put[0]}'), free_port()
                with serving(members=2) as server:
                    started = self.recording(server.port)
                    self.assertEqual([self.ask(*made), self.ask(*PUT), self.ask(*many)], [200] * 3)
                    self.past(server, *past)
                    self.assertIsNone(self.ask(*put))
                    started.send_signal(signal.SIGINT)
                    said = f'a record of a the sequence number {number}, and by the lines it has 5: ' if number else ''
                    self.assert_refused(started,
                                        said + 'it was started anew, or somebody went past the recorder; '
                                        'the file is whole up to there')
                self.assert_replays([200] * 3)

    def test_numbers_that_reshardings_take(self):
        """Each step of a resharding takes a number, and the puts after it are still the next ones."""
        with serving(members=2) as server:
            started, asked = self.recording(server.port), [('CreateStream', b'{"StreamName":"a","ShardCount":1}'), PUT]
            for count in (7, 2, 2, 64, 5, 1):
                asked += [('UpdateShardCount',
                           b'{"StreamName":"a","TargetShardCount":%d,"ScalingType":"UNIFORM_SCALING"}' % count), PUT]
            self.assertEqual([self.ask(*it) for it in asked], [200] * len(asked))
            with server.connect() as connection:
                connection.sendall(request('ListShards', b'{"StreamName":"a"}'))
                last = json.loads(responses(connection, 1)[0][1])['Shards'][-1]['ShardId']
            asked += [('SplitShard',
                       b'{"StreamName":"a","ShardToSplit":"%s","NewStartingHashKey":"9"}' % last.encode()), PUT]
            asked += [('MergeShards',
                       b'{"StreamName":"a","ShardToMerge":"shardId-%012d","AdjacentShardToMerge":"shardId-%012d"}'
                       % (int(last[8:]) + 1, int(last[8:]) + 2)), PUT]
            self.assertEqual([self.ask(*it) for it in asked[-4:]], [200] * 4)
            started.send_signal(signal.SIGINT)
            self.assertEqual((*started.communicate(timeout=30), started.returncode), ('', '', 0))
        self.assert_replays([200] * len(asked))

    def test_a_pause_longer_than_the_idle_limit(self):
        """The server ends idle connections, but not the recorder's."""
        with serving(members=1) as server:
            started = self.recording(server.port)
            self.assertEqual(self.ask('CreateStream', b'{"StreamName":"a","ShardCount":1}'), 200)
            time.sleep(IDLE + 2)
            self.assertEqual(self.ask(*PUT), 200)
            started.send_signal(signal.SIGTERM)
            self.assertEqual((*started.communicate(timeout=30), started.returncode), ('', '', 0))
        self.assert_replays([200, 200])

    def test_lines_that_a_replay_can_not_take(self):
        """The longest line that a replay takes is recorded, and a longer one is refused. Where the file would be
        too long, the recording is over."""
        made = b'{"StreamName":"a","ShardCount":1,"x":"%s"}'
        most = recorder.MOST_LINE - len(b'1796081511880 api CreateStream ') - len(made % b'')
        with serving(members=2) as server:
            started = self.recording(server.port)
            self.assertEqual([self.ask('CreateStream', made % (b'x' * (most + more))) for more in (1, 0)], [413, 200])
            started.send_signal(signal.SIGINT)
            self.assertEqual((*started.communicate(timeout=60), started.returncode), ('', '', 0))
        self.assert_replays([200])
        self.path, given = self.path.with_suffix('.short'), recorder.MOST_FILE
        recorder.MOST_FILE = 2 * len(b'1796081511880 api ListStreams {}\n')
        try:
            with serving(members=2) as server, recording(server, self.path) as (through, witness):
                self.port = through.port
                self.assertEqual([self.ask('ListStreams', b'{}') for _ in range(4)], [200, 200, None, None])
                self.assertEqual(witness.why,
                                 f'{self.path} would be longer than a replay reads; the file is whole up to there')
        finally:
            recorder.MOST_FILE = given
        self.assert_replays([200, 200])

    def test_a_stream_that_came_and_went_past_the_recorder(self):
        """It took a number, so the next stream has another one than in a replay."""
        made = [('CreateStream', b'{"StreamName":"%s","ShardCount":1}' % name) for name in (b'a', b'b')]
        with serving(members=2) as server:
            started = self.recording(server.port)
            self.assertEqual(self.ask(*made[0]), 200)
            past = b'{"StreamName":"past","ShardCount":1}', b'{"StreamName":"past"}'
            self.past(server, ('CreateStream', past[0]), ('DeleteStream', past[1]))
            self.assertEqual(self.ask(*PUT), 200)
            self.assertIsNone(self.ask(*made[1]))
            self.assert_refused(started, 'the server has made 3 streams, and the lines make 2: it was started anew, or '
                                         'somebody went past the recorder; the file is whole up to there')
        self.assert_replays([200, 200])

    def test_the_numbers_of_streams(self):
        """Those that are deleted and made again by lines are no reason to end."""
        made, gone = ('CreateStream', b'{"StreamName":"a","ShardCount":3}'), ('DeleteStream', b'{"StreamName":"a"}')
        asked = [made, made, gone, made, gone, made, PUT]
        with serving(members=2) as server:
            started = self.recording(server.port)
            statuses = [self.ask(*it) for it in asked]
            started.send_signal(signal.SIGINT)
            self.assertEqual((*started.communicate(timeout=30), started.returncode), ('', '', 0))
        self.assertEqual(statuses, [200, 400, 200, 200, 200, 200, 200])
        self.assert_replays(statuses)

    def test_a_file_that_somebody_else_changes(self):
        """Amid the recording it is told at once, and right before its end at the end."""
        anew = lambda: (self.path.unlink(), self.path.write_text(''))
        for deed, said in ((self.path.unlink, 'is gone, and the session with it'), (anew, 'is another file by now'),
                           (lambda: os.truncate(self.path, 0), 'was cut, and is not the session')):
            for by_interrupt in (True, False):
                self.port = free_port()
                self.path.unlink(missing_ok=True)
                with serving(members=2) as server:
                    started = self.recording(server.port)
                    self.assertEqual([self.ask('ListStreams', b'{}') for _ in range(2)], [200, 200])
                    deed()
                    if by_interrupt:
                        started.send_signal(signal.SIGINT)
                    self.assert_refused(started, said)

    def test_a_hangup(self):
        """It ends the recording as SIGTERM does. Where it is ignored, as by nohup, it goes on."""
        for is_ignored in (False, True):
            self.path, self.port = self.path.with_suffix(f'.{is_ignored}'), free_port()
            handler = signal.SIG_IGN if is_ignored else signal.SIG_DFL
            with serving(members=2) as server:
                started = self.recording(server.port, preexec_fn=lambda: signal.signal(signal.SIGHUP, handler))
                self.assertEqual(self.ask('ListStreams', b'{}'), 200)
                started.send_signal(signal.SIGHUP)
                if is_ignored:
                    time.sleep(0.5)
                    self.assertEqual(self.ask('ListStreams', b'{}'), 200)
                    started.send_signal(signal.SIGTERM)
                self.assertEqual((*started.communicate(timeout=30), started.returncode), ('', '', 0))
            self.assert_replays([200] * (1 + is_ignored))

    def test_many_clients_that_stay(self):
        """It takes as many descriptors as it may have. With none left it waits for those of idle clients."""
        for limits, most in (((32, 400), IDLE), ((32, 48), 5 * IDLE)):
            self.path, self.port = self.path.with_suffix(f'.{limits[1]}'), free_port()
            with serving(members=2) as server, contextlib.ExitStack() as stack:
                limit = lambda: resource.setrlimit(resource.RLIMIT_NOFILE, limits)
                started = self.recording(server.port, preexec_fn=limit)
                begin, statuses = time.monotonic(), []
                for _ in range(80):
                    client = stack.enter_context(socket.create_connection(('127.0.0.1', self.port), timeout=60))
                    client.sendall(request('ListStreams', b'{}'))
                    statuses.append(next((status for status, _ in responses(client, 1)), None))
                self.assertEqual(statuses, [200] * 80)
                self.assertLess(time.monotonic() - begin, most)
                started.send_signal(signal.SIGTERM)
                self.assertEqual((*started.communicate(timeout=30), started.returncode), ('', '', 0))
            self.assert_replays([200] * 80)

    def test_a_full_disk(self):
        """The file may have 8,192 bytes: what was answered is in it, and the server has done no more."""
        with serving(members=2) as server:
            started = self.recording(server.port,
                                     preexec_fn=lambda: resource.setrlimit(resource.RLIMIT_FSIZE, (8192, 8192)))
            statuses = [self.ask('CreateStream', b'{"StreamName":"a","ShardCount":1}')]
            statuses += [self.ask('PutRecord', b'{"StreamName":"a","PartitionKey":"a","Data":"%s"}' % (b'QUFB' * 100))
                         for _ in range(40)]
            self.assert_refused(started, 'can not be written: File too large')
            answered = statuses.count(200)
            self.assertEqual((statuses[:answered], set(statuses[answered:])), ([200] * answered, {None}))
            with server.connect() as connection:
                connection.sendall(request('PutRecord', b'{"StreamName":"a","PartitionKey":"a","Data":""}'))
                self.assertEqual(json.loads(responses(connection, 1)[0][1])['SequenceNumber'], str(answered))
        self.assert_replays([200] * answered)

    def test_a_server_that_never_answers(self):
        with self.listener(0) as target:
            self.assertEqual(self.in_process(target),
                             (1, f'record: the server at 127.0.0.1:{target} has not answered for 1 seconds\n'))
            self.assertFalse(self.path.exists())
            self.called.clear()
            started = self.start(self.port, target, self.path)
            self.assertTrue(self.called.wait(60))
            started.send_signal(signal.SIGINT)
            self.assert_refused(started, 'interrupted before the recording began')
        self.assertFalse(self.path.exists())

    def test_a_server_that_falls_silent(self):
        """With less patience it ends by itself, and an interrupt ends it in any case. The file has what was
        answered."""
        asked = request('ListStreams', b'{}')
        for by_interrupt in (True, False):
            self.path, self.port = self.path.with_suffix(f'.{by_interrupt}'), free_port()
            with self.listener(3) as target, contextlib.ExitStack() as stack:
                clients = []

                def ask():
                    for _ in range(2):
                        connection = socket.create_connection(('127.0.0.1', self.port), timeout=60)
                        clients.append(stack.enter_context(connection))
                        clients[-1].sendall(asked)
                        clients[-1].recv(1) if len(clients) == 1 else None

                if by_interrupt:
                    started = self.recording(target)
                    ask()
                    time.sleep(0.5)
                    for sign in (signal.SIGTERM, signal.SIGINT, signal.SIGTERM):
                        started.send_signal(sign)
                    begin = time.monotonic()
                    self.assertEqual((*started.communicate(timeout=30), started.returncode), ('', '', 0))
                    self.assertLess(time.monotonic() - begin, 10)
                else:
                    threading.Timer(1, ask).start()
                    self.assertEqual(self.in_process(target),
                                     (1, f'record: the server at 127.0.0.1:{target} has not answered for 1 seconds; '
                                      f'the file is whole up to there\n'))
            self.assertRegex(self.path.read_bytes(), rb'\A[0-9]+ api ListStreams {}\n\Z')

    def test_another_server(self):
        """What listens there isn't the program at all."""
        with socket.create_server(('127.0.0.1', 0)) as door:
            def answer():
                client, _ = door.accept()
                with client:
                    client.recv(1)
                    client.sendall(b'SSH-2.0-x\r\n\r\n')

            threading.Thread(target=answer, daemon=True).start()
            self.assert_refused(self.start(self.port, door.getsockname()[1], self.path),
                                'did not answer as `kds serve` does')
        self.assertFalse(self.path.exists())

    def test_a_line_for_words(self):
        for words in ((), ('--x',), ('0', '1', 'x'), ('1', '2', 'x', 'y')):
            out, err = self.start(*words).communicate(timeout=30)
            self.assertEqual((out, err.count('\n'), err.startswith('usage: tools/record PORT TARGET FILE')),
                             ('', 1, True), words)
