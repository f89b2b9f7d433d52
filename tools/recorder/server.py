"""The server behind the recorder, and what its answers tell: whether it is still the one of the recording, and whether
somebody else calls it."""
import base64
import contextlib
import errno
import json
import re
import socket
import time

from recorder.messages import Request, answer_from

HOST = '127.0.0.1'
# The seconds for which the server may be silent. One whose places are all taken answers when one is free, and an idle
# client has its place for 10.
SILENCE = 30
# The seconds after which an unused connection to the server is made anew. A server whose places are all taken ends one
# that is idle for somewhat longer, and a request that meets its end may or may not have been done.
UNUSED = 0.3
# The seconds after which the server is asked once more which streams there are.
LOOKED = 1
# Where there are no descriptors left, and the seconds after which that is tried again. Idle clients give theirs back.
NO_DESCRIPTORS, AGAIN = (errno.EMFILE, errno.ENFILE), 0.2
# The operations that make streams, or take sequence numbers.
FOLLOWED = (b'CreateStream', b'DeleteStream', b'SplitShard', b'MergeShards', b'UpdateShardCount', b'PutRecord',
            b'PutRecords')
# the member that tells when a stream was made
MADE = 'StreamCreationTimestamp'
ANOTHER = 'it was started anew, or somebody went past the recorder'


class Trouble(Exception):
    """Why there is no recording, in a line."""


def asked(operation, **members):
    """The bytes of a question of the recorder's own, which changes nothing in the server."""
    body = json.dumps(members).encode()
    return Request(b'Kinesis_20131202.' + operation, b'application/x-amz-json-1.1', body, False).anew()


def connected(port):
    """A connection to the server."""
    return socket.create_connection((HOST, port), timeout=SILENCE)


@contextlib.contextmanager
def understood(port):
    """What is done in it goes by answers of the program."""
    try:
        yield
    except TimeoutError:
        raise Trouble(silent(port)) from None
    except (OSError, ValueError, TypeError, LookupError):
        raise Trouble(f'what listens at {HOST}:{port} did not answer as `kds serve` does') from None


def streams_by(told):
    """The streams that a server has, each with the second in which it was made. A server that was started anew has made
    them later. `told` gives the server's answer to a question. There are at most 64 streams, so one page has all."""
    names = told(b'ListStreams')['StreamNames']
    return {name: told(b'DescribeStreamSummary', StreamName=name)['StreamDescriptionSummary'][MADE] for name in names}


def streams_of(source, port):
    """The streams of a server, which is asked on a new connection."""
    def told(operation, **members):
        source.sendall(asked(operation, **members))
        return json.loads(answer_from(source).body)

    with understood(port):
        return streams_by(told)


def silent(port):
    return f'the server at {HOST}:{port} has not answered for {SILENCE} seconds'


def listed(names):
    return f'the streams {", ".join(sorted(names))}' if names else 'no streams'


def numbers_in(answer):
    """The sequence numbers that an accepted put got."""
    reply = json.loads(answer.body)
    return [int(it['SequenceNumber']) for it in reply.get('Records', [reply]) if 'SequenceNumber' in it]


class Server:
    """The server of a recording. On each new connection, and at least each second before a request, it is asked for its
    streams: these are to be the streams that the lines made, and each is to be as old."""

    def __init__(self, port):
        self.port = port
        self.socket = None
        self.used = self.looked = 0.0
        self.is_cut = False
        # Of each stream that the lines made: when that was, and the number of its last record or step of a resharding.
        self.made = {}
        self.last = {}
        # how many streams the lines have made in all
        self.count = 0

    def begin(self):
        """Before a request. Raises Trouble where the server isn't the one of the recording."""
        now = time.monotonic()
        if now - self.used > UNUSED:
            self.part()
        if not self.socket:
            self.connect()
        elif now - self.looked > LOOKED:
            with understood(self.port):
                self.compare(streams_by(self.told))

    def connect(self):
        self.reach()
        self.compare(streams_of(self.socket, self.port))

    def reach(self):
        end = time.monotonic() + SILENCE
        while not self.socket:
            try:
                self.socket = connected(self.port)
            except OSError as error:
                if error.errno not in NO_DESCRIPTORS or time.monotonic() > end:
                    raise Trouble(f'the server at {HOST}:{self.port} is gone') from None
                time.sleep(AGAIN)

    def compare(self, streams):
        """The streams that the server has are to be those that it made for the lines."""
        if set(streams) != set(self.made):
            raise Trouble(f'the server has {listed(streams)}, and the lines make {listed(self.made)}: {ANOTHER}')
        anew = [name for name, made in streams.items() if made != self.made[name]]
        if anew:
            raise Trouble(f'the server has made {listed(anew)} once more: {ANOTHER}')
        self.used = self.looked = time.monotonic()

    def part(self):
        if self.socket:
            self.socket.close()
            self.socket = None

    def cut(self):
        """Lets whoever waits for an answer wait no longer."""
        self.is_cut = True
        waited = self.socket
        if waited:
            waited.shutdown(socket.SHUT_RDWR)

    def answer(self, request):
        """The answer to the bytes of a request."""
        if not self.socket:
            self.reach()
        try:
            self.socket.sendall(request)
            answer = answer_from(self.socket)
        except TimeoutError:
            raise Trouble(silent(self.port)) from None
        except (OSError, ValueError):
            self.part()
            raise self.lost() from None
        self.used = time.monotonic()
        if answer.closes:
            self.part()
        return answer

    def told(self, operation, **members):
        """What the server says to a question of the recorder's own."""
        return json.loads(self.answer(asked(operation, **members)).body)

    def lost(self):
        """Why there was no answer."""
        if not self.is_cut:
            self.connect()
        return Trouble(f'the server at {HOST}:{self.port} ended the connection without an answer: it was started anew, '
                       'or the recorder stood still')

    def follow(self, name, body, answer):
        """Keeps which streams there are, and how far the numbers of each are. Raises Trouble where an answer doesn't
        fit."""
        if answer.status == 200 and name in FOLLOWED:
            with understood(self.port):
                self.follow_stream(name, json.loads(body)['StreamName'], answer)

    def follow_stream(self, name, stream, answer):
        if (stream in self.last) == (name == b'CreateStream'):
            raise Trouble(f'the server has done {name.decode()} of {stream}, '
                          f'and the lines make {listed(self.made)}: {ANOTHER}')
        if name == b'CreateStream':
            summary = self.told(b'DescribeStreamSummary', StreamName=stream)['StreamDescriptionSummary']
            self.made[stream], self.last[stream] = summary[MADE], 0
            self.follow_count(stream)
        elif name == b'DeleteStream':
            del self.made[stream], self.last[stream]
        elif name in (b'SplitShard', b'MergeShards'):
            self.last[stream] += 1
        elif name == b'UpdateShardCount':
            self.last[stream] += self.steps(stream)
        else:
            for number in numbers_in(answer):
                self.last[stream] += 1
                if number != self.last[stream]:
                    raise Trouble(f'the server has given a record of {stream} the sequence number {number}, '
                                  f'and by the lines it has {self.last[stream]}: {ANOTHER}')

    def follow_count(self, stream):
        """A new stream has the next number. One that was made and deleted past the recorder has taken a number."""
        self.count += 1
        iterator = self.told(b'GetShardIterator', StreamName=stream, ShardId='shardId-000000000000',
                             ShardIteratorType='TRIM_HORIZON')['ShardIterator']
        number = int(re.match(rb'KI1:(\d+):', base64.b64decode(iterator))[1])
        if number != self.count:
            raise Trouble(f'the server has made {number} streams, and the lines make {self.count}: {ANOTHER}')

    def steps(self, stream):
        """How many numbers a resharding just took: each step is the last number of the shards that it closed."""
        ends, page = set(), {'StreamName': stream}
        while page:
            listing = self.told(b'ListShards', **page)
            ranges = [shard['SequenceNumberRange'] for shard in listing['Shards']]
            ends |= {int(it['EndingSequenceNumber']) for it in ranges if 'EndingSequenceNumber' in it}
            page = {'NextToken': listing['NextToken']} if 'NextToken' in listing else None
        return len([end for end in ends if end > self.last[stream]])
