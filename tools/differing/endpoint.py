"""Calls to a server of Kinesis' JSON API, sent as they are and answered as they come: so a fraction, a wrong kind or
an unknown operation can be sent. botocore signs, and `http.client` sends, which takes no proxy, follows no
redirection and asks no other host for anything."""
import collections
import contextlib
import http.client
import json
import threading
import time
import urllib.parse

import botocore.loaders
import botocore.session
from botocore.auth import SigV4Auth
from botocore.awsrequest import AWSRequest
from botocore.credentials import Credentials
from botocore.exceptions import BotoCoreError
from botocore.model import ServiceModel

from differing.faults import BUSY, Refused, Unreachable, is_here, read, refusal

JSON = 'application/x-amz-json-1.1'
# A connection that was idle for IDLE seconds isn't used again: the server may be closing it.
IDLE = 5


def own_credentials():
    """Those of the environment or of files. The other sources of botocore's chain ask hosts that nobody named, or run
    programs."""
    session = botocore.session.Session()
    try:
        chain = session.get_component('credential_provider')
        chain.providers = [
            each for each in chain.providers if each.METHOD in ('env', 'shared-credentials-file', 'config-file')
        ]
        found = session.get_credentials()
    except BotoCoreError as error:  # a profile that isn't there, a file that can't be read
        raise Unreachable(f'no credentials: {error}') from error
    if found is None:
        raise Unreachable('no credentials in the environment (AWS_ACCESS_KEY_ID, AWS_SECRET_ACCESS_KEY) or in ~/.aws')
    return found


def model():
    """Amazon's model of the operations, as botocore has it. No file of settings is read for it."""
    told = botocore.loaders.create_loader().load_service_model('kinesis', 'service-2')
    return ServiceModel(told, service_name='kinesis')


class Endpoint:
    """`pace` is the least time in seconds between two calls of one operation."""

    def __init__(self, url, region, pace):
        self.url, self.region, self.pace = urllib.parse.urlsplit(url), region, pace
        self.here = is_here(self.url.hostname)
        self.credentials = Credentials('any', 'any') if self.here else own_credentials()
        self.mine, self.lock = threading.local(), threading.Lock()
        self.last, self.calls = {}, collections.Counter()
        self.model = model()

    @contextlib.contextmanager
    def hurried(self):
        """Calls without a pause between them."""
        pace, self.pace = self.pace, 0
        try:
            yield
        finally:
            self.pace = pace

    def await_turn(self, operation):
        with self.lock:
            now = time.monotonic()
            wait = max(0, self.last.get(operation, 0) + self.pace - now)
            self.last[operation] = now + wait
            self.calls[operation] += 1
        time.sleep(wait)

    def signed(self, operation, body, kind=JSON, secret=None):
        """The headers of a call."""
        keys = Credentials(self.credentials.access_key, secret) if secret else self.credentials
        head = {'Content-Type': kind, 'X-Amz-Target': f'Kinesis_20131202.{operation}'}
        request = AWSRequest('POST', f'{self.url.scheme}://{self.url.netloc}/', data=body, headers=head)
        SigV4Auth(keys, 'kinesis', self.region).add_auth(request)
        return dict(request.headers.items())

    def connected(self):
        kind = http.client.HTTPSConnection if self.url.scheme == 'https' else http.client.HTTPConnection
        connection = kind(self.url.hostname, self.url.port, timeout=60)
        try:
            connection.connect()
        except OSError as error:
            raise Unreachable(f'{self.url.netloc}: {error}') from error
        return connection

    def kept(self):
        """The connection of this thread."""
        connection, used = getattr(self.mine, 'connection', (None, 0))
        if connection is None or time.monotonic() > used + IDLE:
            self.drop()
            connection = self.connected()
        self.mine.connection = connection, time.monotonic()
        return connection

    def drop(self):
        connection, _ = getattr(self.mine, 'connection', (None, 0))
        if connection is not None:
            connection.close()
        self.mine.connection = None, 0

    def raw(self, operation, body, kind=JSON, secret=None, **more):
        """Status, headers by their names in small letters, and body of one call. `more` is for `http.client`."""
        self.await_turn(operation)
        head = self.signed(operation, body, kind, secret) | more.pop('headers', {})
        connection = self.kept()
        try:
            connection.request('POST', '/', more.pop('pieces', body), head, **more)
            reply = connection.getresponse()
            told = reply.status, {name.lower(): value for name, value in reply.getheaders()}, reply.read()
        except (OSError, http.client.HTTPException) as error:
            self.drop()
            raise Refused(operation, 'no answer', f'{type(error).__name__} {error}') from error
        except BaseException:  # a signal: the reply may come later, and is none of the next call
            self.drop()
            raise
        if reply.will_close:
            self.drop()
        return told

    def call(self, operation, /, *, patient=True, **members):
        """The reply of a call. One that was refused since too much is asked elsewhere is sent again."""
        for left in range(8, -1, -1):
            status, headers, body = self.raw(operation, json.dumps(members).encode())
            if status == 200:
                return read(operation, body)
            refused = refusal(operation, status, headers, body)
            if not (patient and left and refused.name in BUSY and not self.here):
                raise refused
            time.sleep(2)
        raise AssertionError

    def first_line(self, operation, body, headers, seconds=2):
        """What a server answers within some seconds to a head whose body isn't sent yet."""
        connection = self.connected()
        try:
            connection.putrequest('POST', '/')
            for name, value in (self.signed(operation, body) | {'Content-Length': str(len(body))} | headers).items():
                connection.putheader(name, value)
            connection.endheaders()
            connection.sock.settimeout(seconds)
            return connection.sock.recv(200).split(b'\r\n')[0].decode(errors='replace')
        except TimeoutError:
            return 'nothing'
        except (OSError, http.client.HTTPException) as error:
            raise Refused(operation, 'no answer', f'{type(error).__name__} {error}') from error
        finally:
            connection.close()
