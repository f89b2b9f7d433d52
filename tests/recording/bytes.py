"""Byte streams for a server of HTTP, made from a seed: requests that are right, and what is wrong or odd in requests.
Each request has a tag in its body, and each record has the tag as its key. So whatever is found later tells which
request it is of. Nothing here reads HTTP."""
import base64
import json
import random

STREAMS = ('first', 'second')
JSON = b'application/x-amz-json-1.1'
NAMES = (b'X-Amz-Target', b'Content-Type', b'Content-Length')
METHODS = (b'GET', b'PUT', b'HEAD', b'OPTIONS', b'post', b'Post', b'POSTS', b'PO ST', b'P\x00ST', b'PRI', b'')
PATHS = (b'/x', b'//', b'/?a=b', b'*', b'http://localhost/', b'/\xc3\xa4', b'/\xff', b'/\x00', b'', b'/ ', b'/#', b'.')
VERSIONS = (b'HTTP/1.0', b'HTTP/2.0', b'HTTP/2', b'HTTP/0.9', b'HTTP/1.2', b'HTTP/1.10', b'http/1.1', b'HTTP/1.1 ',
            b'HTTP/1,1', b'')
KINDS = (b'application/json', b'application/x-amz-json-1.0', JSON.title(), JSON + b';', JSON + b'; charset=utf-8',
         JSON + b' ;a', JSON + b'2', b'"' + JSON + b'"', b'text/plain', b'')
TARGETS = (b'Kinesis_20131202.', b'kinesis_20131202.PutRecord', b'Kinesis_20131202.putrecord', b'PutRecord', b'',
           b'Kinesis_20131202.PutRecord.', b'Kinesis_20131202. PutRecord', b'Kinesis_20131202.Put Record',
           b'Kinesis_20131202.PutR\xc3\xa9cord', b'Kinesis_20131202.' + b'P' * 65, b'DynamoDB_20120810.PutItem')
OTHERS = ((b'Expect', b'100-continue'), (b'Connection', b'close'), (b'Connection', b'CLOSE'), (b'Upgrade', b'h2c'),
          (b'Connection', b'keep-alive'), (b'Connection', b'close, x'), (b'connection', b'\tclose '), (b'Host', b''),
          (b'Host', b'a'), (b'X', b'\x80\xff'), (b'X', b'a\x00b'), (b'X', b'\x7f'), (b'X', b'a\rb'), (b'X\x00', b''),
          (b'', b'x'), (b'\xc3\xa4', b'x'), (b'X Y', b'z'), (b'TE', b'trailers'), (b'Proxy-Connection', b'close'))
GARBAGE = (b'\x16\x03\x01\x02\x00\x01\x00\x01\xfc\x03\x03', b'PRI * HTTP/2.0\r\n\r\nSM\r\n\r\n', b'GET /\r\n', b'POST',
           b'SSH-2.0-OpenSSH_9.2\r\n', b'\r\n\r\n\r\n', b'\n', b'\x00', b'\xff\xfe', b'{"StreamName":"first"}',
           b' POST / HTTP/1.1\r\n\r\n', b'HTTP/1.1 200 OK\r\nContent-Length: 0\r\n\r\n', b'0\r\n\r\n')


class Message:
    """The parts of a request, each as it is to be sent."""

    def __init__(self, operation, body):
        values = (b'Kinesis_20131202.' + operation, JSON, b'%d' % len(body))
        self.before = b''
        self.start = [b'POST', b' ', b'/', b' ', b'HTTP/1.1', b'\r\n']
        self.fields = [self.field(*it) for it in ((b'Host', b'localhost'), *zip(NAMES, values))]
        self.last = b'\r\n'
        self.body = body

    @staticmethod
    def field(name, value):
        return [name, b':', b' ', value, b'', b'\r\n']

    def of(self, name):
        """The first field of this name. StopIteration where it was left out."""
        return next(field for field in self.fields if field[0].lower() == name.lower())

    def add(self, rng, name, value):
        self.fields.insert(rng.randrange(len(self.fields) + 1), self.field(name, value))

    def lines(self):
        return [self.start, *self.fields]

    def head(self):
        return self.before + b''.join(part for line in self.lines() for part in line) + self.last

    def bytes(self):
        return self.head() + self.body

    def pad(self, size):
        """Makes the head as long as this, by one more field."""
        self.fields.append(self.field(b'X-Pad', b''))
        self.fields[-1][3] = b'p' * (size - len(self.head()))


# ---- what a request asks

def put(tag, stream=STREAMS[0]):
    data = base64.b64encode(tag.encode()).decode()
    return b'PutRecord', {'Tag': tag, 'StreamName': stream, 'PartitionKey': tag, 'Data': data}


def plain(tag):
    """A request that is right."""
    operation, members = put(tag)
    return Message(operation, json.dumps(members).encode())


def asked(rng, tag):
    """An operation, and the members of its body."""
    stream = rng.choice(STREAMS)
    records = [{'PartitionKey': f'{tag}-{i}', 'Data': ''} for i in range(rng.randint(1, 3))]
    return rng.choice([put(tag, stream)] * 6 + [
        (b'PutRecords', {'Tag': tag, 'StreamName': stream, 'Records': records}),
        (b'DescribeStreamSummary', {'Tag': tag, 'StreamName': stream}),
        (b'ListStreams', {'Tag': tag}),
        (b'PutRecord', {'Tag': tag, 'StreamName': stream, 'PartitionKey': tag}),
        (b'PutRecord', {'Tag': tag, 'StreamName': 'none', 'PartitionKey': tag, 'Data': ''}),
        (b'NoSuchOperation', {'Tag': tag})])


def written(rng, members):
    """JSON, and what is nearly JSON."""
    text = json.dumps(members, indent=rng.choice((None, None, None, 1, '\t'))).encode()
    return rng.choice([text] * 12 + [
        text.replace(b'\n', b'\r\n'), text + b'\n', b'\n\n' + text, text[:-1], b'[' + text + b']',
        text.replace(b'"', b'"\n', 3), text + b'\xff', b'\xef\xbb\xbf' + text, text.decode().encode('utf-16')])


# ---- what is odd in a request

def tabs(rng, message):
    field = message.of(rng.choice(NAMES))
    field[2], field[4] = rng.choice(((b'\t', b''), (b' ', b'\t'), (b'\t \t', b' \t'), (b' \t', b'')))


def blanks(rng, message):
    field = message.of(rng.choice(NAMES))
    field[2], field[4] = rng.choice(((b'', b''), (b'  ', b''), (b' ', b'  '), (b' ' * 50, b' ' * 50)))


def line_feeds(rng, message):
    for line in rng.choice((message.fields, [message.start], [rng.choice(message.fields)], message.lines())):
        line[-1] = b'\n'
    message.last = rng.choice((b'\n', b'\r\n'))


def line_ends(rng, message):
    ends = (b'\r', b'\n\r', b'\r\r\n', b'', b'\r\n\r\n', b'\x0b', b'\x85')
    rng.choice(message.lines())[-1] = rng.choice(ends)


def blank_before_colon(rng, message):
    message.of(rng.choice(NAMES))[1] = rng.choice((b' :', b'\t:', b'  :', b'', b'::', b'='))


def folded(rng, message):
    message.of(rng.choice(NAMES))[4] = b'\r\n' + rng.choice((b' ', b'\t', b'  x', b' \r\n\t'))


def doubled(rng, message):
    field = list(rng.choice(message.fields))
    field[0] = rng.choice((field[0], field[0].upper(), field[0].lower()))
    field[2], field[4] = rng.choice(((b' ', b''), (b'\t', b''), (b' ', b' '), (b'', b'\t'), (b' ', b'x')))
    message.fields.insert(rng.randrange(len(message.fields) + 1), field)


def lying_length(rng, message):
    field, length = message.of(b'Content-Length'), len(message.body)
    less, more = max(0, length - rng.randint(1, 60)), length + rng.randint(1, 300)
    field[3] = rng.choice((b'%d' % less, b'%d' % more, b'0', b'00%d' % length, b'+%d' % length, b'-1', b'0x10', b'',
                           b'%019d' % length, b'%020d' % length, b'%d, %d' % (length, length), b'%d.0' % length,
                           b'%d ;' % length, b'16777217', b'9' * 19, b'9' * 30))


def letter_cases(rng, message):
    for field in message.fields:
        field[0] = rng.choice((field[0].upper(), field[0].lower(), field[0].swapcase()))


def long_head(rng, message):
    message.pad(rng.choice((rng.randint(16_370, 16_400), 16_383, 16_384, 16_385, 17_000, 40_000)))


def many_headers(rng, message):
    count = rng.choice((64, 65, 66, 200)) - len(message.fields)
    message.fields += [message.field(b'X-%d' % i, b'') for i in range(count)]


def odd_start(rng, message):
    place, values = rng.choice(((0, METHODS), (2, PATHS), (4, VERSIONS)))
    message.start[place] = rng.choice(values)


def odd_gaps(rng, message):
    message.start[rng.choice((1, 3))] = rng.choice((b'  ', b'\t', b'', b' \t', b'\r\n', b'\x00'))


def odd_kind(rng, message):
    message.of(b'Content-Type')[3] = rng.choice(KINDS)


def odd_target(rng, message):
    message.of(b'X-Amz-Target')[3] = rng.choice(TARGETS)


def other_header(rng, message):
    message.add(rng, *rng.choice(OTHERS))


def chunked(rng, message):
    codings = (b'chunked', b'identity', b'', b'gzip, chunked', b'\tchunked')
    message.add(rng, rng.choice((b'Transfer-Encoding', b'transfer-encoding')), rng.choice(codings))
    if rng.random() < 0.7:
        message.fields.remove(message.of(b'Content-Length'))
    message.body = b'%x\r\n%s\r\n0\r\n\r\n' % (len(message.body), message.body)


def left_out(rng, message):
    message.fields.remove(rng.choice(message.fields))


def before(rng, message):
    message.before = rng.choice((b'\r\n', b'\n', b'\r\n\r\n', b'\r', b' ', b'\t\r\n', b'\r\n\n', b'\r\n' * 40))


def one_byte_more(rng, message):
    line = rng.choice(message.lines())
    part = rng.randrange(len(line))
    at = rng.randint(0, len(line[part]))
    line[part] = line[part][:at] + bytes([rng.randrange(256)]) + line[part][at:]


ODD = (tabs, blanks, line_feeds, line_ends, blank_before_colon, folded, doubled, lying_length, letter_cases, long_head,
       many_headers, odd_start, odd_gaps, odd_kind, odd_target, other_header, chunked, left_out, before, one_byte_more)


# ---- byte streams

class Case:
    """What a client sends on a connection of its own, in pieces, and whether it goes without waiting for an answer. The
    name says what is odd. It is empty where nothing is."""

    def __init__(self, name, pieces, goes=False):
        self.name = name
        self.pieces = pieces
        self.goes = goes

    @property
    def data(self):
        return b''.join(self.pieces)


def cut(rng, count, tag):
    """Two requests in two pieces, or the beginning of one. In each second case the cut is one byte further."""
    data = plain(f'{tag}-0').bytes()
    at = count // 2 % len(data) + 1
    if count % 2:
        return Case(f'ended behind {at} bytes', [data[:at]])
    return Case('', [data[:at], data[at:] + plain(f'{tag}-1').bytes()])


def mixed(rng, _, tag):
    """Some requests, of which some are odd, in one piece or some."""
    names, data = [], b''
    for i in range(rng.choice((1, 1, 2, 3))):
        operation, members = asked(rng, f'{tag}-{i}')
        data += made_odd(rng, Message(operation, written(rng, members)), names).bytes()
        if rng.random() < 0.05:
            data += rng.choice(GARBAGE)
            names.append('garbage')
    if rng.random() < 0.05:
        data = data[:rng.randint(1, len(data))]
        names.append('ended')
    if rng.random() < 0.02:
        ends = range(min(len(data), 3000) + 1)
    else:
        ends = sorted({0, *(rng.randint(1, len(data)) for _ in range(rng.choice((0, 0, 0, 1, 2)))), len(data)})
    return Case(' '.join(names), [data[begin:end] for begin, end in zip(ends, ends[1:])], rng.random() < 0.03)


def made_odd(rng, message, names):
    for odd in rng.choices(ODD, k=rng.choice((0, 1, 1, 1, 2))):
        try:
            odd(rng, message)
            names.append(odd.__name__)
        except StopIteration:
            pass  # the field that this one takes was left out
    return message


def garbage(rng, _, tag):
    rest = plain(f'{tag}-0').bytes()[rng.randint(1, 200):]
    long = b'a' * rng.choice((16_383, 16_384, 20_000))
    return Case('garbage', [rng.choice((rng.choice(GARBAGE), rng.randbytes(rng.randint(1, 400)), rng.randbytes(20_000),
                                        rest, long, b'POST /' + long, b'POST / HTTP/1.1\r\nX:' + long))])


def case_of(seed, number):
    """The case of this number. Its tags begin with `c`, its number and a hyphen."""
    rng = random.Random(f'{seed} {number}')
    make = cut if number % 10 == 0 else garbage if number % 31 == 1 else mixed
    return make(rng, number // 10, f'c{number}')
