"""HTTP as the recorder reads and writes it. A client's bytes are read once, by the rules of the server
(docs/formats.md, "HTTP"), and a request is written anew from what was read. So the server sees no byte that could be
read in two ways."""
import collections
import re

# The server's limits: the bytes of a head, its headers, the bytes of a body, the requests of a connection.
MOST_HEAD, MOST_HEADERS, MOST_BODY, MOST_REQUESTS = 16_384, 64, 16_777_216, 1_000_000
# The seconds after which it ends a connection that sends nothing, and at most one that takes nothing of its answer.
IDLE, FULL = 10, 30
OPERATION = re.compile(rb'Kinesis_20131202\.([A-Za-z0-9]{1,64})')
JSON = re.compile(rb'application/x-amz-json-1\.1(?:;.*)?')
PHRASES = {400: b'Bad Request', 404: b'Not Found', 405: b'Method Not Allowed', 411: b'Length Required',
           413: b'Content Too Large', 431: b'Request Header Fields Too Large', 501: b'Not Implemented'}

TOKEN = rb"[!#$%&'*+\-.^_`|~0-9A-Za-z]+"
TARGET = rb'[\x21-\x7e\x80-\xff]+'
VALUE = rb'[\t\x20-\x7e\x80-\xff]*'
VERSION = [b'H', b'T', b'T', b'P', b'/', b'1', rb'\.', b'[01]']


def whole(*parts):
    """A line of these parts."""
    return re.compile(b''.join(b'(%s)' % part for part in parts))


def begun(*parts):
    """What a line of these parts may begin with."""
    return re.compile(b''.join(b'(?:' + part for part in parts) + b')?' * len(parts))


START = whole(TOKEN, b' ', TARGET, b' ', b''.join(VERSION), b'\r\n')
START_BEGUN = begun(TOKEN, b' ', TARGET, b' ', *VERSION, b'\r')
FIELD = whole(TOKEN, b':', VALUE, b'\r\n')
FIELD_BEGUN = begun(TOKEN, b':', VALUE, b'\r')


class Refused(Exception):
    """What came is no request that the server takes. The exception has the status of the answer."""


class Ended(Exception):
    """The connection has ended."""


def matched(pattern, line):
    found = pattern.fullmatch(line)
    if not found:
        raise Refused(400)
    return found


def is_text(target):
    try:
        target.decode()
    except UnicodeDecodeError:
        return False
    return True


class Head:
    """A head, as far as it has come. The rules are the server's but for one: a line feed alone doesn't end a line."""

    def __init__(self):
        self.size = 0
        self.start = None
        self.fields = []

    def take(self, unread):
        """Reads on in the bytes that begin with this head, and says whether it is whole. What can't become a head is
        refused at once."""
        front = bytes(unread[:MOST_HEAD])
        while end := front.find(b'\n', self.size) + 1:
            line, self.size = front[self.size:end], end
            if line != b'\r\n':
                self.take_line(line)
            elif self.start:
                return True
        self.take_begun(front[self.size:])
        if len(front) == MOST_HEAD:
            raise Refused(431)
        return False

    def take_line(self, line):
        if self.start:
            name, _, value, _ = matched(FIELD, line).groups()
            self.fields.append((name.lower(), value.strip(b' \t')))
            return
        method, _, target, _, version, _ = matched(START, line).groups()
        if not is_text(target):
            raise Refused(400)
        self.start = method, target, version

    def take_begun(self, line):
        if line != b'\r':
            matched(FIELD_BEGUN if self.start else START_BEGUN, line)
        _, *rest = line.split(b' ')
        if not self.start and len(rest) > 1 and not is_text(rest[0]):
            raise Refused(400)

    def values(self, name):
        return [value for its, value in self.fields if its == name]

    def only(self, name):
        """The value of the one header of this name, or None if no header or more than one has it."""
        values = self.values(name)
        return values[0] if len(values) == 1 else None

    def length(self):
        """The length of the body. The cases stand in the order in which the server looks at them."""
        length = self.only(b'content-length')
        if len(self.fields) > MOST_HEADERS:
            raise Refused(400)
        if self.values(b'transfer-encoding'):
            raise Refused(501)
        if not self.values(b'content-length'):
            raise Refused(411)
        if length is None or not re.fullmatch(rb'[0-9]{1,19}', length):
            raise Refused(400)
        if int(length) > MOST_BODY:
            raise Refused(413)
        if self.start[0] != b'POST':
            raise Refused(405)
        if self.start[1] != b'/':
            raise Refused(404)
        return int(length)

    def closes(self):
        """Whether the connection ends after the answer."""
        return self.start[2] == b'HTTP/1.0' or b'close' in [value.lower() for value in self.values(b'connection')]


class Request(collections.namedtuple('Request', ('target', 'kind', 'body', 'closes'))):
    """A request: its X-Amz-Target and Content-Type, each None where there isn't just one, its body, and whether its
    connection ends after the answer."""

    @property
    def operation(self):
        """The operation, where a line can say what the request says. None where the server doesn't look at the body."""
        named = OPERATION.fullmatch(self.target or b'')
        return named[1] if named and JSON.fullmatch(self.kind or b'') else None

    def anew(self):
        """The bytes that the server gets. The head has no blanks, so it is no longer than the one that was read."""
        lines = [b'POST / HTTP/1.1']
        lines += [b'X-Amz-Target:' + self.target] if self.target is not None else []
        lines += [b'Content-Type:' + self.kind] if self.kind is not None else []
        return b'\r\n'.join([*lines, b'Content-Length:%d' % len(self.body), b'', self.body])


class Requests:
    """The requests that come over a connection."""

    def __init__(self, source):
        self.source = source
        self.unread = bytearray()

    def more(self):
        self.source.settimeout(IDLE)
        try:
            piece = self.source.recv(65_536)
        except TimeoutError:
            raise Ended from None
        if not piece:
            raise Ended
        self.unread += piece

    def next(self):
        """The next request, whole. What follows is left for the next call."""
        head = Head()
        while not head.take(self.unread):
            self.more()
        end = head.size + head.length()
        while len(self.unread) < end:
            self.more()
        body = bytes(self.unread[head.size:end])
        del self.unread[:end]
        return Request(head.only(b'x-amz-target'), head.only(b'content-type'), body, head.closes())


class Answer(collections.namedtuple('Answer', ('status', 'lines', 'body', 'closes'))):
    """An answer: its status, the lines of its head without Connection, its body, and whether the server then parts."""

    def response(self, closes):
        """The bytes that the client gets."""
        return b'\r\n'.join([*self.lines, *([b'Connection: close'] if closes else []), b'', self.body])


def refusal(status):
    """The bytes that a client gets whose request is refused."""
    lines = [b'HTTP/1.1 %d %s' % (status, PHRASES[status]), b'Content-Length: 0']
    return Answer(status, lines, b'', True).response(True)


def answer_from(source):
    """The server's next answer. ValueError where what comes is none."""
    data = bytearray()
    while (end := data.find(b'\r\n\r\n')) < 0:
        piece = source.recv(65_536) if len(data) <= MOST_HEAD else b''
        if not piece:
            raise ValueError('no answer')
        data += piece
    lines = bytes(data[:end]).split(b'\r\n')
    status = re.fullmatch(rb'HTTP/1\.1 ([0-9]{3}) .*', lines[0])
    fields = [line.lower().split(b':', 1) for line in lines[1:]]
    lengths = [value.strip() for name, value in fields if name == b'content-length']
    if not status or len(lengths) != 1:
        raise ValueError('no answer')
    begin, end = end + 4, end + 4 + int(lengths[0])
    while len(data) < end:
        piece = source.recv(1 << 20)
        if not piece:
            raise ValueError('no answer')
        data += piece
    kept = [line for line in lines if not line.lower().startswith(b'connection:')]
    return Answer(int(status[1]), kept, bytes(data[begin:end]), [b'connection', b' close'] in fields)
