"""Byte streams on their way to a server through a recorder, and to a second server without one; and what there is at
the end: what each client got, what the server has, and what the recorder's file replays to."""
import base64
import collections
import contextlib
import json
import pathlib
import signal
import socket
import subprocess
import tempfile
import time
from concurrent.futures import ThreadPoolExecutor

from lib.responses import found_in, responses
from lib.server import ROOT, free_port, request, serving
from recording.bytes import STREAMS, Case

# The seconds for which a client waits for an answer or an end, and those between two pieces of a request.
WAIT, PAUSE = 20, 0.001
SHARDS = 2
# What differs between two servers, and between a server and a replay.
MOMENTS = {'ApproximateArrivalTimestamp', 'StreamCreationTimestamp', 'MillisBehindLatest', 'NextShardIterator'}

Answer = collections.namedtuple('Answer', ('status', 'body', 'closes'))


class Outcome(collections.namedtuple('Outcome', ('got', 'direct', 'ended', 'done', 'lines', 'answers', 'file'))):
    """What each case got through the recorder, and without one; the recorder's status and words; what the server has;
    the lines of the file, their answers in the replay, and what the replay has. Without a replay the answers are None,
    and `file` says why there is none."""


# ---- what clients send, and what they get

def sent(port, case):
    """Sends a case on a connection of its own, and gives the bytes that come back until the end of the connection. None
    where there is no connection, or no end."""
    try:
        connection = socket.create_connection(('127.0.0.1', port), timeout=WAIT)
    except OSError:
        return None
    with connection:
        connection.setsockopt(socket.IPPROTO_TCP, socket.TCP_NODELAY, 1)
        with contextlib.suppress(OSError):  # the other side may have refused, and take no more
            for piece in case.pieces:
                connection.sendall(piece)
                time.sleep(PAUSE if 1 < len(case.pieces) < 5 else 0)
            if case.goes:
                return b''
            connection.shutdown(socket.SHUT_WR)
        return rest_of(connection)


def rest_of(connection):
    got = b''
    try:
        while more := connection.recv(65_536):
            got += more
    except TimeoutError:
        return None
    except OSError:
        pass
    return got


def answers_in(data):
    """The answers that these bytes are, or None where they are none."""
    found = found_in(data)
    return found and [Answer(one.status, one.body, one.headers.get('Connection') == 'close') for one in found]


def told(body, left_out=frozenset()):
    """What a body says, but for moments and these members."""
    def without(value):
        if isinstance(value, dict):
            return {name: without(it) for name, it in value.items() if name not in MOMENTS | left_out}
        return [without(it) for it in value] if isinstance(value, list) else value

    return without(json.loads(body)) if body else None


# ---- the servers and the recorder

class Bench:
    """A recorder before a new server, and a second new server. Both servers have the same streams."""

    def __init__(self, recorder, stack):
        self.file = pathlib.Path(stack.enter_context(tempfile.TemporaryDirectory())) / 'session.txt'
        self.server, self.second = (stack.enter_context(serving(members=16)) for _ in range(2))
        self.process, self.port = self.begun(recorder, stack)
        for port in (self.port, self.second.port):
            self.make_streams(port)

    def begun(self, recorder, stack):
        """The recorder's process, and its port. Another client may take a free port first: then it is another one."""
        for _ in range(5):
            port, pipe = free_port(), subprocess.PIPE
            words = [recorder, str(port), str(self.server.port), self.file]
            process = stack.enter_context(subprocess.Popen(words, stdin=subprocess.DEVNULL, stdout=pipe, stderr=pipe))
            stack.callback(process.kill)
            if process.stdout.readline() == b'recording\n':
                return process, port
            said = process.stderr.read()
            if b'Address already in use' not in said:
                break
        raise SystemExit(f'{recorder} did not begin: {said!r}')

    @staticmethod
    def make_streams(port):
        bodies = [json.dumps({'StreamName': name, 'ShardCount': SHARDS}).encode() for name in STREAMS]
        made = answers_in(sent(port, Case('', [request('CreateStream', body) for body in bodies])))
        assert [answer.status for answer in made] == [200] * len(STREAMS)

    def ended(self):
        """Interrupts the recorder, and gives its status and words."""
        self.process.send_signal(signal.SIGINT)
        _, words = self.process.communicate(timeout=60)
        return self.process.returncode, words.decode()


def questions(now):
    """What a server and a replay are asked at the end: the operations and their bodies."""
    tokens = [f'KI1:{stream + 1}:{shard}:1:{now}' for stream in range(len(STREAMS)) for shard in range(SHARDS)]
    asked = [('ListStreams', {}), *(('DescribeStream', {'StreamName': name}) for name in STREAMS)]
    asked += [('GetRecords', {'ShardIterator': base64.b64encode(token.encode()).decode()}) for token in tokens]
    return [(operation, json.dumps(members).encode()) for operation, members in asked]


def asked_of(server):
    """What the server has. It is asked past the recorder."""
    asked = questions(int(time.time() * 1000))
    with server.connect() as connection:
        connection.sendall(b''.join(request(*it) for it in asked))
        return [told(body) for _, body in responses(connection, len(asked))]


def replayed(file):
    """The lines of the file, what each is answered in a replay, and what the replay has at the end."""
    lines = [line + b'\n' for line in file.read_bytes().split(b'\n')[:-1]]
    now = int(lines[-1].split(b' ')[0])
    asked = [b'%d api %s %s\n' % (now, operation.encode(), body) for operation, body in questions(now)]
    done = subprocess.run([ROOT / 'kds', 'replay'], input=b''.join(lines + asked), capture_output=True, check=False)
    if done.returncode != 0:
        return lines, None, f'the replay ended with {done.returncode}: {done.stderr.decode()}'
    answers = [Answer(int(line[:3]), line[4:], False) for line in done.stdout.split(b'\n')[:-1]]
    return lines, answers[:len(lines)], [told(answer.body) for answer in answers[len(lines):]]


def tried(cases, recorder, clients=1):
    """What there is after these cases, which are numbered. `clients` is how many of them are sent at a time."""
    with contextlib.ExitStack() as stack:
        bench = Bench(recorder, stack)
        coming = []
        for port in (bench.port, bench.second.port):
            pool = stack.enter_context(ThreadPoolExecutor(clients))
            coming.append(pool.map(lambda case, port=port: sent(port, case), cases.values()))
        got, direct = (dict(zip(cases, its)) for its in coming)
        ended = bench.ended()
        return Outcome(got, direct, ended, asked_of(bench.server), *replayed(bench.file))
