"""Responses over HTTP as `kds` writes them: those that come on a connection, and those that some bytes are."""
import collections
import itertools
import re

# The names of the headers stand as they came.
Response = collections.namedtuple('Response', ('status', 'reason', 'headers', 'body'))
HEAD = re.compile(rb'HTTP/1\.1 (\d{3}) ([A-Z][^\r\n]*)\r\n((?:[\w-]+: [^\r\n]*\r\n)*)\r\n')


def read(reader):
    """Each response that comes, until the end. The last one may be cut there."""
    while line := reader.readline():
        headers = {}
        while (header := reader.readline()) not in (b'\r\n', b''):
            name, _, value = header.decode('latin-1').partition(':')
            headers[name] = value.strip()
        _, status, reason = line.decode('latin-1').rstrip('\r\n').split(' ', 2)
        yield Response(int(status), reason, headers, reader.read(int(headers.get('Content-Length', 0))))


def responses(connection, count):
    """The next `count` responses of a connection, or fewer where it ends: pairs of a status and a body."""
    return [(one.status, one.body) for one in itertools.islice(read(connection.makefile('rb')), count)]


def found_in(data):
    """The responses that these bytes are, each whole; None where they are anything else."""
    found, at = [], 0
    while at < len(data):
        head = HEAD.match(data, at)
        lines = head[3].decode('latin-1').split('\r\n')[:-1] if head else []
        headers = dict(line.split(': ', 1) for line in lines)
        if len(headers) != len(lines) or not headers.get('Content-Length', '').isdecimal():
            return None
        at = head.end() + int(headers['Content-Length'])
        if at > len(data):
            return None
        found.append(Response(int(head[1]), head[2].decode('latin-1'), headers, data[head.end():at]))
    return found
