"""Replies as they come: what was asked for, or an error. And which servers are on this machine."""
import json
import re


# what a server may answer instead of doing what was asked, if too much is asked at once
BUSY = ('LimitExceededException', 'ProvisionedThroughputExceededException', 'ThrottlingException')


class Refused(Exception):
    """A reply that isn't a success, or none. `status` is 0 if there was no reply."""

    def __init__(self, operation, name, message='', status=0):
        super().__init__(f'{operation}: {name} {" ".join(message.split())[:60]}'.strip())
        self.name, self.message, self.status = name, message, status

    @property
    def told(self):
        """The error's name, with the status where a client may take that otherwise."""
        return self.name if self.status in (0, 400) or 'status' in self.name else f'{self.name} with {self.status}'


class Unreachable(Exception):
    """No connection could be made, so nothing was sent."""


def read(operation, body):
    try:
        return json.loads(body) if body else {}
    except (ValueError, RecursionError) as error:
        raise Refused(operation, 'a reply that is not JSON', body[:60].decode(errors='replace'), 200) from error


def refusal(operation, status, headers, body):
    """An error as SDKs name it: by the body, or by a header."""
    try:
        told = json.loads(body)
    except (ValueError, RecursionError):
        told = None
    if not isinstance(told, dict):
        told = {}
    named = told.get('__type') or told.get('code') or headers.get('x-amzn-errortype') or f'status {status}'
    name = str(named).split(':')[0].rsplit('#', 1)[-1]
    return Refused(operation, name, str(told.get('message') or told.get('Message') or ''), status)


def is_here(host):
    return host in ('localhost', '::1') or re.fullmatch(r'127(\.\d+){3}', host or '') is not None
