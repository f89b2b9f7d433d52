"""The built program as a server."""
import contextlib
import os
import pathlib
import re
import select
import signal
import socket
import subprocess
import time

from lib.checks import ROOT, program

JSON = 'application/x-amz-json-1.1'
# The seconds after which the server ends a connection that sends nothing, and one that takes
# nothing of its answer (docs/clients.md).
IDLE, FULL = 10, 30


def take_checked():
    """Has `./kds` run the program that is to be checked, which is built first where that is due."""
    os.environ['KDS'] = program()


def free_port():
    with socket.socket() as probe:
        probe.bind(('127.0.0.1', 0))
        return probe.getsockname()[1]


def versions(name):
    """The programs of this name on the path: the version that each says, and the first place with it."""
    found = {}
    for folder in os.environ['PATH'].split(':'):
        place = os.path.join(folder, name)
        done = (subprocess.run([place, '--version'], capture_output=True, text=True, check=False)
                if os.access(place, os.X_OK) else None)
        told = done and re.search(r'\d+(?:\.\d+)+', done.stdout + done.stderr)
        if told:
            found.setdefault(told[0], place)
    return found


def heed_interrupts():
    """Lets an interrupt end the process again: what a shell starts in the background ignores it, and so would the
    server."""
    signal.signal(signal.SIGINT, signal.SIG_DFL)


class NotStarted(SystemExit):
    """A server that didn't begin to listen: its status, and what it said."""

    def __init__(self, status, said):
        super().__init__(f'the server did not start: status {status}, {said!r}')
        self.status, self.said = status, said


class Server:
    """A process of `kds serve`, and where it listens; or of another command that says `listening` as it does, in which
    the word PORT stands for the port. `./kds` sets what its allocator of memory is told, where it isn't set here or by
    the caller."""

    def __init__(self, members=None, port=None, tunables=None, command=None, environment=None):
        if command is None and 'KDS' not in os.environ:
            take_checked()
        self.members = members
        self.port = port or free_port()
        words = command or [ROOT / 'kds', 'serve', 'PORT', str(members)]
        more = (environment or {}) | ({} if tunables is None else {'GLIBC_TUNABLES': tunables})
        self.process = subprocess.Popen(
            [str(self.port) if word == 'PORT' else word for word in words],
            stdin=subprocess.DEVNULL,
            stdout=subprocess.PIPE,
            stderr=subprocess.PIPE,
            env=os.environ | more,
            preexec_fn=heed_interrupts,
        )
        ready, _, _ = select.select([self.process.stdout], [], [], 1200)
        line = self.process.stdout.readline() if ready else b''
        if line != b'listening\n':
            if line or not ready:
                self.process.kill()
            rest, said = self.process.communicate()
            raise NotStarted(self.process.returncode, (line + rest + said).decode(errors='replace'))

    @property
    def endpoint(self):
        return f'http://127.0.0.1:{self.port}'

    def connect(self):
        """A plain connection."""
        return socket.create_connection(('127.0.0.1', self.port), timeout=30)

    def memory(self, kind):
        status = pathlib.Path(f'/proc/{self.process.pid}/status').read_text()
        return next(int(line.split()[1]) * 1024 for line in status.splitlines() if line.startswith(kind))

    def resident(self):
        """The bytes of memory that the process has."""
        return self.memory('VmRSS')

    def mapped(self):
        """The bytes of addresses that the process has."""
        return self.memory('VmSize')

    def threads(self):
        return len(list(pathlib.Path(f'/proc/{self.process.pid}/task').iterdir()))

    def stop(self, sign=signal.SIGTERM):
        """Ends it by a signal, and gives the seconds that it took."""
        begin = time.monotonic()
        self.process.send_signal(sign)
        self.process.wait(30)
        self.process.stdout.close()
        self.process.stderr.close()
        return time.monotonic() - begin


@contextlib.contextmanager
def serving(members=None, **how):
    server = Server(members, **how)
    try:
        yield server
    finally:
        if server.process.poll() is None:
            server.stop()


def request(operation, body, close=False):
    """The bytes of a request over HTTP/1.1."""
    head = (
        f'POST / HTTP/1.1\r\nHost: localhost\r\nX-Amz-Target: Kinesis_20131202.{operation}\r\n'
        f'Content-Type: {JSON}\r\nContent-Length: {len(body)}\r\n'
    )
    return (head + ('Connection: close\r\n' if close else '') + '\r\n').encode() + body
