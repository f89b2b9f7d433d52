"""The recording itself: which requests are handed on, in which order, and the lines that stand for them."""
import contextlib
import os
import socket
import threading
import time

from recorder.messages import FULL, MOST_REQUESTS, Ended, Refused, Requests, refusal
from recorder.server import Server, Trouble

# A moment is below this one.
MOST_AT = 2**62
# What a replay reads: the bytes of a line before its end, and of all lines.
MOST_LINE, MOST_FILE = 16_777_216, 1_073_741_824
# The seconds for which what a client still sends is awaited, once its connection has ended. It would lose the last
# response else.
REST = 1


def one_line(body):
    """The body on one line. A tab says the same as a line feed between the parts of JSON, and neither may stand in a
    string."""
    return body.replace(b'\n', b'\t')


class Recorder:
    """The schedule so far. One request at a time is handed on, so that lines stand in the order of turns. Each was read
    whole before, and its response is written to its client after, so that no client is waited for in a turn."""

    def __init__(self, target, file):
        self.server = Server(target)
        self.file = file
        self.turn = threading.Lock()
        self.at = 0
        # the bytes of the lines whose requests were answered, and why the recording is over
        self.whole = 0
        self.gone = threading.Event()
        self.why = ''

    @contextlib.contextmanager
    def in_turn(self):
        """A turn. Trouble in it ends the recording, and the file ends after the last line that was answered."""
        with self.turn:
            try:
                yield
            except Trouble as trouble:
                self.server.part()
                if not self.server.is_cut:
                    self.why = self.why or f'{trouble}; the file is whole up to there'
                self.gone.set()
            finally:
                self.take_back()

    def hand_on(self, request):
        """The answer to a request. If it names an operation, it has its line then. None where the recording is over."""
        answer = None
        with self.in_turn():
            if not self.gone.is_set():
                self.server.begin()
                answer = self.answer(request)
        return answer

    def answer(self, request):
        """The same, in a turn. The line is written first, so that the server has done nothing that the file lacks."""
        name = request.operation
        if not name:
            return self.server.answer(request.anew())
        line = self.line_of(name, request.body)
        self.write(line)
        answer = self.server.answer(request.anew())
        self.server.follow(name, request.body, answer)
        self.whole += len(line)
        return answer

    def line_of(self, name, body):
        """The line of a request. Refused where it is longer than a replay takes."""
        self.at = min(max(self.at, int(time.time() * 1000)), MOST_AT - 1)
        line = b'%d api %s %s' % (self.at, name, one_line(body))
        if len(line) > MOST_LINE:
            raise Refused(413)
        if self.whole + len(line) + 1 > MOST_FILE:
            raise Trouble(f'{self.file.name} would be longer than a replay reads')
        return line + b'\n'

    def write(self, line):
        try:
            while line:
                line = line[self.file.write(line):]
        except OSError as error:
            raise Trouble(f'{self.file.name} can not be written: {error.strerror}') from None

    def take_back(self):
        """The file ends after the last line whose request was answered."""
        if not self.file.closed and self.file.tell() != self.whole:
            os.ftruncate(self.file.fileno(), self.whole)
            self.file.seek(self.whole)

    def look(self):
        """The recording is over where its file isn't the session any more."""
        amiss = self.gone.is_set() or self.file_amiss()
        if amiss and not self.gone.is_set():
            self.why = amiss
            self.gone.set()

    def file_amiss(self):
        """What somebody else did to the file. It is never shorter than the lines that were answered."""
        whole, name = self.whole, self.file.name
        try:
            if not os.path.samestat(os.stat(name), os.fstat(self.file.fileno())):
                return f'{name} is another file by now, and the session is lost'
        except OSError as error:
            return f'{name} is gone, and the session with it: {error.strerror}'
        return f'{name} was cut, and is not the session' if os.fstat(self.file.fileno()).st_size < whole else ''

    def serve(self, client):
        """Answers the requests of a client. One that can't be read is refused, and comes to no server."""
        with client, contextlib.suppress(OSError):
            with contextlib.suppress(Ended):
                try:
                    self.serve_requests(client)
                except Refused as refused:
                    client.sendall(refusal(refused.args[0]))
            client.shutdown(socket.SHUT_WR)
            client.settimeout(REST)
            while client.recv(65_536):
                pass

    def serve_requests(self, client):
        requests = Requests(client)
        for count in range(1, MOST_REQUESTS + 1):
            request = requests.next()
            answer = self.hand_on(request)
            if not answer:
                return
            closes = request.closes or count == MOST_REQUESTS
            client.settimeout(FULL)
            client.sendall(answer.response(closes))
            if closes:
                return

    def end(self):
        """The file is whole from here on. A server that is silent is parted from, and what it was asked is no line."""
        self.look()
        self.gone.set()
        mine = self.turn.acquire(timeout=REST)
        if not mine:
            with contextlib.suppress(OSError):
                self.server.cut()
            mine = self.turn.acquire(timeout=REST)
        self.take_back()
        self.file.close()
        if mine:
            self.server.part()
            self.turn.release()
