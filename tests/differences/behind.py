"""A server that stands before another one, and may change what is asked of it and what it answers. It is for the
checks of `tools/differences`."""
import contextlib
import http.client
import json
import sys
import threading
from http.server import BaseHTTPRequestHandler, ThreadingHTTPServer


class Front(ThreadingHTTPServer):
    """`behind` is the port of the other server on this machine."""

    daemon_threads = True
    request_queue_size = 128
    headers = {}

    def __init__(self, behind, address='127.0.0.1'):
        super().__init__((address, 0), Handler)
        self.behind, self.lock = behind, threading.Lock()
        self.endpoint = f'http://{address}:{self.server_port}'

    def forward(self, operation, body, kind='application/x-amz-json-1.1'):
        """Status and reply of the server behind. `body` is bytes, or members."""
        connection = http.client.HTTPConnection('127.0.0.1', self.behind)
        with contextlib.closing(connection):
            text = body if isinstance(body, bytes) else json.dumps(body).encode()
            connection.request(
                'POST', '/', text, {'X-Amz-Target': f'Kinesis_20131202.{operation}', 'Content-Type': kind}
            )
            reply = connection.getresponse()
            told = reply.read()
            return reply.status, json.loads(told) if told else None

    def answer(self, operation, members):
        """Status and reply: what a server of this kind changes. Without a status no answer is sent."""
        return self.forward(operation, members)

    def handle_error(self, request, client_address):
        """A client that ends its connection early is no fault."""
        if not isinstance(sys.exc_info()[1], ConnectionError):
            super().handle_error(request, client_address)


def refuse(name):
    return 400, {'__type': name, 'message': 'refused'}


class Handler(BaseHTTPRequestHandler):
    protocol_version = 'HTTP/1.1'
    disable_nagle_algorithm = True

    def log_message(self, *_):
        """Nothing is printed."""

    def body(self):
        if self.headers.get('Transfer-Encoding') != 'chunked':
            return self.rfile.read(int(self.headers.get('Content-Length') or 0))
        pieces = []
        while size := int(self.rfile.readline(), 16):
            pieces.append(self.rfile.read(size))
            self.rfile.readline()
        self.rfile.readline()
        return b''.join(pieces)

    def do_POST(self):
        body, kind = self.body(), self.headers['Content-Type']
        operation = self.headers['X-Amz-Target'].partition('.')[2]
        try:
            members = json.loads(body)
        except ValueError:
            status, told = self.server.forward(operation, body, kind)
        else:
            status, told = self.server.answer(operation, members)
        if status is None:
            self.close_connection = True
            return
        text = b'' if told is None else json.dumps(told).encode()
        self.send_response(status)
        for name, value in {'Content-Type': kind, 'Content-Length': str(len(text)), **self.server.headers}.items():
            self.send_header(name, value)
        self.end_headers()
        self.wfile.write(text)


@contextlib.contextmanager
def standing(front):
    """Serves in this process."""
    thread = threading.Thread(target=front.serve_forever, daemon=True)
    thread.start()
    try:
        yield front
    finally:
        front.shutdown()
        front.server_close()
