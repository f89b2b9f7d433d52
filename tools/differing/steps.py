"""What the cases of a scene stand on: its stream, what one case keeps for the next, and the calls that many of them
make."""
import base64
import time

from differing.case import Unmet
from differing.faults import Refused

KEYS = 2**128
ZERO = 'shardId-000000000000'
# the operations after which a stream may not be ACTIVE for a while
CHANGING = (
    'SplitShard',
    'MergeShards',
    'UpdateShardCount',
    'IncreaseStreamRetentionPeriod',
    'DecreaseStreamRetentionPeriod',
)


def b64(data):
    return base64.b64encode(data).decode()


def own(stage):
    """The name of the scene's stream, for a member of a call."""
    return stage.name


def nobody(stage):
    return stage.streams.nobody()


class Kept:
    """What cases keep for later ones. A lack of it is no fault of the case that misses it."""

    def __getattr__(self, name):
        raise Unmet(f'what an earlier case makes: {name}')


class Stage:
    def __init__(self, streams):
        self.streams, self.endpoint, self.call = streams, streams.endpoint, streams.call
        self.model, self.here = streams.endpoint.model, streams.endpoint.here
        self.kept, self.name = Kept(), None

    def begin(self, shards, **more):
        """Makes the stream of the scene, and waits for it."""
        self.name = self.streams.create(shards, **more)
        self.streams.ready(self.name)

    def outcome(self, operation, **members):
        """'accepted', or the error's name. If a change was accepted it waits until the change is done."""
        try:
            self.call(operation, **members)
        except Refused as refused:
            return refused.told
        if operation in CHANGING:
            self.streams.ready(members['StreamName'])
        return 'accepted'

    def put(self, key, data=b'x', **more):
        return self.call('PutRecord', StreamName=self.name, PartitionKey=key, Data=b64(data), **more)

    def description(self):
        return self.call('DescribeStream', StreamName=self.name)['StreamDescription']

    def summary(self):
        return self.call('DescribeStreamSummary', StreamName=self.name)['StreamDescriptionSummary']

    def shards(self):
        return self.call('ListShards', StreamName=self.name)['Shards']

    def described(self):
        """Whether DescribeStream tells of each shard what ListShards does, in any order."""
        both = self.description()['Shards'], self.shards()
        given, wanted = ({each['ShardId']: each for each in some} for some in both)
        other = [name for name in given.keys() & wanted.keys() if given[name] != wanted[name]]
        if other:
            return f'{len(other)} are told otherwise'
        return 'those of ListShards' if given == wanted else f'{len(given)} of {len(wanted)}'

    def has_ranges(self, children):
        """Whether these shards, as GetRecords tells of them, have the hash keys that ListShards tells."""
        wanted = {each['ShardId']: bounds(each) for each in self.shards()}
        return all(wanted.get(each['ShardId']) == bounds(each) for each in children)

    def open_shards(self):
        """The range and the id of each shard that is open, by range."""
        return sorted((*bounds(shard), shard['ShardId']) for shard in self.shards() if not is_closed(shard))

    def iterator(self, shard=ZERO, kind='TRIM_HORIZON', **more):
        return self.call('GetShardIterator', StreamName=self.name, ShardId=shard, ShardIteratorType=kind, **more)[
            'ShardIterator'
        ]

    def from_number(self, number, shard=ZERO):
        return self.iterator(shard, 'AT_SEQUENCE_NUMBER', StartingSequenceNumber=number)

    def rest(self):
        """A pause between two pages that are read elsewhere."""
        if not self.here:
            time.sleep(1)

    def read(self, at, least=0, limit=None):
        """Records from an iterator on, with the last reply. It ends at `least` records, or at the end of the shard if
        `least` is None. A page may be empty before that."""
        records, told = [], {}
        for _ in range(12):
            told = self.call('GetRecords', ShardIterator=at, **({'Limit': limit} if limit else {}))
            records += told['Records']
            at = told.get('NextShardIterator')
            if at is None or (least is not None and len(records) >= least):
                break
            self.rest()
        return records, told

    def read_out(self, shard, kind='TRIM_HORIZON'):
        """The records of a closed shard from an iterator on, the last reply, and what stands for the next
        iterator."""
        records, reply = self.read(self.iterator(shard, kind), None)
        return records, reply, 'null' if reply.get('NextShardIterator') is None else 'an iterator'

    def recount(self):
        """Notes how many shards of the stream are open."""
        self.streams.made[self.name] = max(len(self.open_shards()), 1)

    def reshard(self, operation, more=0, **members):
        """A split, a merge or a new number of shards, which may open `more` further shards; and the state right after
        it."""
        self.streams.room_for(more)
        self.streams.made[self.name] += more
        try:
            self.call(operation, StreamName=self.name, **members)
            state = self.streams.status(self.name)
            self.streams.ready(self.name)
        finally:
            self.recount()
        return state

    def attempt(self, operation, more=0, **members):
        """The same, as an outcome."""
        try:
            self.reshard(operation, more, **members)
        except Refused as refused:
            return refused.told
        return 'accepted'


def bounds(shard):
    return int(shard['HashKeyRange']['StartingHashKey']), int(shard['HashKeyRange']['EndingHashKey'])


def is_closed(shard):
    return 'EndingSequenceNumber' in shard['SequenceNumberRange']
