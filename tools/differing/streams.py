"""The streams that were made on a server, so that each is deleted again whatever happens."""
import secrets
import time

from differing.case import Unmet
from differing.faults import BUSY, Refused, Unreachable

PREFIX = 'kds-differences-'
# the most shards that are open at once
MOST = 3
GONE = 'ResourceNotFoundException'
# no reply at all, and errors that a later call may not meet
NONE = 'no answer'
PASSING = (NONE, 'CREATING', 'UPDATING', 'DELETING', 'ResourceInUseException', *BUSY)


class Streams:
    """`made` has the most shards that may be open of each stream that may be there. A name is noted before its
    CreateStream is sent: an interrupt in the call loses nothing. `unsure` has those whose call gave no reply, so that
    the stream may still come."""

    def __init__(self, endpoint):
        self.endpoint, self.call = endpoint, endpoint.call
        self.stem = f'{PREFIX}{secrets.token_hex(4)}'
        self.made, self.unsure, self.count = {}, set(), 0
        # the seconds that a stream is waited for
        self.patience = 30 if endpoint.here else 300

    def nobody(self):
        """A random name that no stream has."""
        return f'{self.stem}-nobody'

    def room_for(self, shards):
        if sum(self.made.values()) + shards > MOST:
            raise Unmet(f'room for {shards} more of {MOST} open shards')

    def create(self, shards, suffix=None, counted=None, **more):
        """Asks for a stream, and gives its name. `counted` is how many shards it may have, if that isn't what was
        asked for."""
        counted = shards if counted is None else counted
        self.room_for(counted)
        self.count += 1
        name = f'{self.stem}-{suffix or self.count}'
        self.made[name] = counted
        self.unsure.add(name)
        try:
            self.call(
                'CreateStream', StreamName=name, **({'ShardCount': shards} if shards is not None else {}), **more
            )
        except Refused as refused:
            if refused.status == 400 and refused.name != 'status 400':  # after any other fault it may have been made
                self.forget(name)
            raise
        except Unreachable:  # it was never sent
            self.forget(name)
            raise
        self.unsure.discard(name)
        return name

    def forget(self, name):
        self.unsure.discard(name)
        self.made.pop(name, None)

    def status(self, name):
        """The state of a stream, or the error."""
        try:
            state = self.call('DescribeStreamSummary', StreamName=name)['StreamDescriptionSummary']['StreamStatus']
        except Refused as refused:
            return refused.name
        except (LookupError, TypeError):
            state = None
        return state if isinstance(state, str) else 'no StreamStatus'

    def ready(self, name):
        """Waits until a stream is ACTIVE."""
        end = time.monotonic() + self.patience
        while (now := self.status(name)) != 'ACTIVE':
            if time.monotonic() > end or now not in PASSING:
                raise Refused('DescribeStreamSummary', f'{now} after a wait for ACTIVE')
            time.sleep(0.1 if self.endpoint.here else 1)
        return name

    def delete(self, name):
        """Deletes a stream, and waits until it is gone: its shards count until then."""
        begin = time.monotonic()
        while True:
            age = time.monotonic() - begin
            if age > self.patience:
                raise Refused('DeleteStream', f'{name} is still there')
            try:
                self.call('DeleteStream', StreamName=name)
                gone = self.status(name) == GONE
            except Refused as refused:
                if refused.name not in (GONE, *PASSING) and refused.status < 500:
                    raise
                # a stream whose CreateStream gave no reply may come yet
                gone = refused.name == GONE and (name not in self.unsure or age > (2 if self.endpoint.here else 15))
            if gone:
                self.forget(name)
                return
            time.sleep(0.1 if self.endpoint.here else 2)

    def give_up(self):
        """Deletes what it can, and says of each stream that it couldn't delete why."""
        left = []
        for name in list(self.made):
            try:
                self.delete(name)
            except Exception as fault:  # the others are deleted all the same
                left.append(f'{name} ({fault})')
        return left
