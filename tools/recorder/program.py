"""Stands between clients and `kds serve`, and writes what they ask as a schedule: an incident can be replayed, and its
journal be audited and looked at.

    tools/record PORT TARGET FILE

It listens on 127.0.0.1 at PORT, and hands on to 127.0.0.1 at TARGET. FILE is made, and gets the schedule. One whole
request after another is handed on, in the order in which they became whole, all on one connection; and each that names
an operation is a line of FILE at the moment when it was handed on: `AT api OPERATION BODY`. So the lines stand in the
order of the server's turns, and a replay of FILE on a machine that began empty, as the server did, gives each record
the same sequence number and shard. The server gets no byte of a client: each request is written anew from what was
read. What can't be read as one request is refused, comes to no server, and is no line. A client that is slow or idle
holds nobody up, and one that is idle for 10 s is parted from, as by the server. docs/recording.md says what else is the
same, and what isn't.

An interrupt, SIGTERM or a hangup ends it, with status 0 and FILE whole. A file that is there is left alone: name
another one. The server must be a new one, without streams, since a replay begins so too. The recording ends by itself
where FILE would no longer be the session: the server is gone, silent or was started anew; somebody went past the
recorder, so that there are other streams, or the number of a stream or a record isn't the next one; FILE can't be
written, would be too long for a replay, or was removed or cut. Each line is written before its request is handed on, so
that the server has done nothing that FILE lacks. Then, and where a port is in use or FILE can't be made, a line says
so, and the status is 1; but for one that was removed or cut, FILE has whole lines, up to there."""
import pathlib
import re
import resource
import signal
import socket
import sys
import threading
import time

from recorder.recorder import Recorder
from recorder.server import AGAIN, HOST, NO_DESCRIPTORS, Trouble, connected, listed, streams_of

# The seconds between two looks whether the recording is over.
LOOK = 0.2


def made(path):
    """The new file."""
    try:
        return path.open('xb', buffering=0)
    except FileExistsError:
        raise Trouble(f'{path} is there, and is left alone; name another file') from None
    except OSError as error:
        raise Trouble(f'{path} can not be made: {error.strerror}') from None


def door_at(port):
    try:
        return socket.create_server((HOST, port), reuse_port=False)
    except OSError as error:
        raise Trouble(f'port {port} can not be had: {error.strerror}') from None


def look_at(target):
    """Raises Trouble where there is no new server."""
    try:
        with connected(target) as server:
            names = streams_of(server, target)
    except OSError as error:
        raise Trouble(f'there is no server at {HOST}:{target}: {error.strerror or error}') from None
    if names:
        raise Trouble(f'the server at {HOST}:{target} has {listed(names)} already, and a replay begins without: '
                      'record from the start of a new server')


def accept(door, recorder, signs):
    """Serves who comes, until a signal has come or the recording is over."""
    door.settimeout(LOOK)
    while not signs and not recorder.gone.is_set():
        recorder.look()
        try:
            client, _ = door.accept()
        except TimeoutError:
            continue
        except OSError as error:
            if error.errno in NO_DESCRIPTORS:
                time.sleep(AGAIN)
                continue
            raise Trouble(f'no further client can be served: {error.strerror}; the file is whole up to there') from None
        threading.Thread(target=recorder.serve, args=(client,), daemon=True).start()


def interrupted(*_):
    """An interrupt before the recording began ends the program."""
    raise KeyboardInterrupt


def heed(handler):
    """A hangup too, but where whoever started this wants none heeded."""
    for sign in (signal.SIGINT, signal.SIGTERM, signal.SIGHUP):
        if sign != signal.SIGHUP or signal.getsignal(sign) != signal.SIG_IGN:
            signal.signal(sign, handler)


def take_descriptors():
    """As many as the system allows: each client has one."""
    _, most = resource.getrlimit(resource.RLIMIT_NOFILE)
    resource.setrlimit(resource.RLIMIT_NOFILE, (most, most))


def record(port, target, path):
    if port == target:
        raise Trouble(f'PORT and TARGET are both {port}: clients come to PORT, and the server listens at TARGET')
    with door_at(port) as door:
        look_at(target)
        recorder, signs = Recorder(target, made(path)), []
        # From here on a signal is only noted, so that none comes before the line that says why the recording ended.
        heed(lambda sign, _: signs.append(sign))
        print('recording', flush=True)
        try:
            accept(door, recorder, signs)
        finally:
            recorder.end()
        if recorder.why:
            raise Trouble(recorder.why)


def is_port(word):
    return re.fullmatch(r'[1-9][0-9]{0,4}', word) is not None and int(word) < 65_536


def main(words):
    if words in (['--help'], ['-h']):
        print(__doc__)
        return 0
    if len(words) != 3 or not all(map(is_port, words[:2])):
        print('usage: tools/record PORT TARGET FILE, two ports from 1 to 65535 and a new file; '
              'tools/record --help says more', file=sys.stderr)
        return 2
    heed(interrupted)
    take_descriptors()
    try:
        record(int(words[0]), int(words[1]), pathlib.Path(words[2]))
    except Trouble as trouble:
        print(f'record: {trouble}', file=sys.stderr)
        return 1
    except KeyboardInterrupt:
        print('record: interrupted before the recording began', file=sys.stderr)
        return 1
    return 0
