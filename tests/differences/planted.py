"""A server before `kds` that has one fault. Most faults are made of Amazon's model: one for each member of each reply
and of each request, and two for the statuses of each operation. The others are what a server may do to several
members or over several calls."""
import base64
import copy
import dataclasses
import typing

from differences.behind import Front, refuse
from differing.operations import SERVED

# Members that name a stream. Without them a server can't do anything.
NAMING = ('StreamName', 'StreamARN', 'StreamId')
ANY = '*'
TOKENS = ('ShardIterator', 'NextToken')
NUMBERS = ('integer', 'long')
# where a member stands
ASKED, TOLD = 'asked', 'told'


@dataclasses.dataclass(frozen=True)
class Fault:
    """`ask` changes the members of a request, and may give a reply in place of the server's. `tell` changes a reply.
    Both get a memory that lasts as long as the server. `headers` are those of each reply. `member` is what a fault of
    the model changes."""

    name: str
    operation: str
    ask: typing.Callable = None
    tell: typing.Callable = None
    headers: dict = dataclasses.field(default_factory=dict)
    member: str = None


class Planted(Front):
    """`used` counts what the fault changed. Without a fault `operations` and `members` have what was seen."""

    def __init__(self, behind, fault=None):
        super().__init__(behind)
        self.fault, self.used, self.memory = fault, 0, {}
        self.headers = fault.headers if fault else {}
        self.operations, self.members = set(), set()

    def has(self, change, operation):
        return change is not None and self.fault.operation in (ANY, operation)

    def answer(self, operation, members):
        if self.fault is None:
            return self.watched(operation, members)
        asked = members
        if self.has(self.fault.ask, operation):
            asked = copy.deepcopy(members)
            with self.lock:
                given = self.fault.ask(asked, self.memory)
            self.used += asked != members or given is not None
            if given is not None:
                return given
        was = self.forward(operation, asked)
        if not self.has(self.fault.tell, operation):
            return was
        now = self.fault.tell(was[0], copy.deepcopy(was[1]), members, self.memory)
        self.used += now != was
        return now

    def watched(self, operation, members):
        status, told = self.forward(operation, members)
        with self.lock:
            self.operations.add(operation)
            self.members |= {f'{ASKED} {operation}.{path}' for path in paths(members)}
            self.members |= {f'{TOLD} {operation}.{path}' for path in paths(told)}
        return status, told


def paths(value, path=''):
    """The members of JSON, with those inside: their names, parted by points."""
    for each in value if isinstance(value, list) else [value] if isinstance(value, dict) else ():
        if not isinstance(each, dict):
            continue
        for name, inner in each.items():
            yield path + name
            yield from paths(inner, f'{path}{name}.')


# ---- faults of the model

def walk(shape, path=()):
    """Each member of a structure, and those of its own structures and lists: its path and its shape."""
    if shape.type_name == 'list':
        yield from walk(shape.member, path)
    elif shape.type_name == 'structure':
        for name, inner in shape.members.items():
            yield (*path, name), inner
            yield from walk(inner, (*path, name))


def places(value, path):
    """Where the members of this path stand: each a dictionary and a name."""
    if isinstance(value, list):
        for each in value:
            yield from places(each, path)
    elif isinstance(value, dict) and path[0] in value:
        if len(path) == 1:
            yield value, path[0]
        else:
            yield from places(value[path[0]], path[1:])


def another_text(text):
    """Ends otherwise: a digit by another digit, so that a number stays one."""
    if not text:
        return 'x'
    last = str((int(text[-1]) + 1) % 10) if text[-1] in '0123456789' else 'x' if text[-1] != 'x' else 'y'
    return text[:-1] + last


def another(shape, value):
    """Another value of the same type."""
    kind = shape.type_name
    if value is None or kind in ('structure', 'map'):
        return value
    if kind == 'list':
        return value[:-1]
    if kind == 'boolean':
        return not value
    if kind in (*NUMBERS, 'timestamp'):
        return value + {'integer': 1, 'long': 10_000, 'timestamp': 3600}[kind]
    if kind == 'blob':
        data = base64.b64decode(value)
        return base64.b64encode(data[:-1] + bytes([(data or b'\0')[-1] ^ 1])).decode()
    if getattr(shape, 'enum', None):
        return shape.enum[(shape.enum.index(value) + 1) % len(shape.enum)]
    # the last bits of a token may be those of its time
    return 'x' + value[1:] if shape.name in TOKENS else another_text(value)


def of_reply(operation, path, change, how):
    """Each value of a member of a reply becomes another one, or is taken out where `change` is None."""

    def tell(status, told, _, __):
        for holder, name in list(places(told, path)) if status == 200 else ():
            if change is None:
                del holder[name]
            else:
                holder[name] = change(holder[name])
        return status, told

    member = f'{operation}.{".".join(path)}'
    return Fault(member + how, operation, tell=tell, member=f'{TOLD} {member}')


def replies(model):
    """The members of replies, each with its shape."""
    for operation in SERVED:
        shape = model.operation_model(operation).output_shape
        for path, inner in walk(shape) if shape else ():
            yield operation, path, inner


def other_values(model):
    for operation, path, shape in replies(model):
        if shape.type_name not in ('structure', 'map'):
            yield of_reply(operation, path, lambda value, shape=shape: another(shape, value), ' has another value')


# What stands in place of a member: nothing, null, or a value of another type.
FORMS = ('is missing', 'is null', 'is of another type')
TYPES = {'string': 7, 'blob': 7, 'boolean': 'x', 'list': {'x': 7}, 'structure': [7]}


def odd_forms(model):
    """Three for each member, in the order of FORMS."""
    for operation, path, shape in replies(model):
        for form, change in zip(FORMS, (None, lambda _: None, lambda _, kind=shape.type_name: TYPES.get(kind, 'x'))):
            yield of_reply(operation, path, change, f' {form}')


def statuses(_):
    def status(operation, was, now, what):
        def tell(status, told, *_):
            return (now, told) if status == was else (status, told)

        return Fault(f'{operation}: {what} has the status {now}', operation, tell=tell)

    for operation in SERVED:
        yield status(operation, 200, 500, 'a success')
        yield status(operation, 400, 403, 'a refusal')


def ignored(model):
    """A member of a request that the server doesn't look at. One that a request must have counts as what it was at
    first."""

    def of_request(operation, path, how, ask):
        member = f'{operation}.{".".join(path)}'
        return Fault(f'{member} {how}', operation, ask, member=f'{ASKED} {member}')

    def left_out(operation, path):
        def ask(members, _):
            for holder, name in list(places(members, path)):
                del holder[name]

        return of_request(operation, path, 'is ignored', ask)

    def stuck(operation, path):
        def ask(members, memory):
            for holder, name in places(members, path):
                holder[name] = memory.setdefault('first', holder[name])

        return of_request(operation, path, 'is always the first one', ask)

    for operation in SERVED:
        shape = model.operation_model(operation).input_shape
        for path, _ in walk(shape):
            within = shape
            for name in path[:-1]:
                within = within.members[name]
                within = within.member if within.type_name == 'list' else within
            if path[-1] not in NAMING:
                yield (stuck if path[-1] in within.required_members else left_out)(operation, path)


# ---- what a server may do besides

def on_success(change):
    """A change of the reply of a success."""

    def tell(status, told, members, memory):
        if status == 200 and isinstance(told, dict):
            change(told, members, memory)
        return status, told

    return tell


def of_kind(kind, **other):
    """A GetShardIterator of this kind gets another."""

    def ask(members, _):
        if members.get('ShardIteratorType') == kind:
            for name in ('StartingSequenceNumber', 'Timestamp') * (other['ShardIteratorType'] == 'TRIM_HORIZON'):
                members.pop(name, None)
            members |= other

    return ask


def once(members, memory):
    seen = memory.setdefault('seen', set())
    if members.get('ShardIterator') in seen:
        return refuse('ExpiredIteratorException')
    seen.add(members.get('ShardIterator'))
    return None


def last_is_lost(members, _):
    members['Records'] = members['Records'][:-1] if len(members.get('Records', ())) > 1 else members.get('Records')


def last_is_told(told, members, _):
    if len(members['Records']) > len(told['Records']):
        told['Records'].append(dict(told['Records'][-1]))


def key_is_higher(members, _):
    if members.get('NewStartingHashKey', '').isdigit():
        members['NewStartingHashKey'] = str(int(members['NewStartingHashKey']) + 1)


def in_small_letters(members, _):
    if isinstance(members.get('PartitionKey'), str):
        members['PartitionKey'] = members['PartitionKey'].lower()


def cut_data(size):
    def change(told, *_):
        for record in told['Records']:
            record['Data'] = base64.b64encode(base64.b64decode(record['Data'])[:size]).decode()

    return on_success(change)


def numbers(told, *_):
    """Texts of digits are numbers."""
    for record in told['Records']:
        record['SequenceNumber'] = int(record['SequenceNumber'])


def more_for_ever(told, members, _):
    if 'NextToken' not in told and 'MaxResults' in members and told['Shards']:
        told['NextToken'] = members.get('NextToken') or 'x'


def no_closed(told, *_):
    description = told['StreamDescription']
    description['Shards'] = [
        each for each in description['Shards'] if 'EndingSequenceNumber' not in each['SequenceNumberRange']
    ]


def with_error(change):
    """A change of what a refusal says."""

    def tell(status, told, *_):
        if isinstance(told, dict) and '__type' in told:
            change(told)
        return status, told

    return tell


def all_are_500(status, told, *_):
    return 500 if status == 400 else status, told


BESIDES = (
    Fault('GetRecords gives each record twice', 'GetRecords',
          tell=on_success(lambda told, *_: told.update(Records=[each for each in told['Records'] for _ in 'ab']))),
    Fault('GetRecords gives a page from its end on', 'GetRecords',
          tell=on_success(lambda told, *_: told['Records'].reverse())),
    Fault('GetRecords cuts Data at 1,000 bytes', 'GetRecords', tell=cut_data(1000)),
    Fault('GetRecords cuts Data at 65,536 bytes', 'GetRecords', tell=cut_data(65_536)),
    Fault('GetRecords gives sequence numbers as numbers of JSON', 'GetRecords', tell=on_success(numbers)),
    Fault('GetRecords takes an iterator once', 'GetRecords', once),
    Fault('GetRecords is never behind', 'GetRecords',
          tell=on_success(lambda told, *_: told.update(MillisBehindLatest=0))),
    Fault('AT_TIMESTAMP is TRIM_HORIZON', 'GetShardIterator',
          of_kind('AT_TIMESTAMP', ShardIteratorType='TRIM_HORIZON')),
    Fault('LATEST is TRIM_HORIZON', 'GetShardIterator', of_kind('LATEST', ShardIteratorType='TRIM_HORIZON')),
    Fault('AFTER_SEQUENCE_NUMBER is AT_SEQUENCE_NUMBER', 'GetShardIterator',
          of_kind('AFTER_SEQUENCE_NUMBER', ShardIteratorType='AT_SEQUENCE_NUMBER')),
    Fault('PutRecord takes the key in small letters', 'PutRecord', in_small_letters),
    Fault('PutRecords loses its last record', 'PutRecords', last_is_lost, on_success(last_is_told)),
    Fault('PutRecords answers from its end on', 'PutRecords',
          tell=on_success(lambda told, *_: told['Records'].reverse())),
    Fault('PutRecords counts no failed record', 'PutRecords',
          tell=on_success(lambda told, *_: told.update(FailedRecordCount=0))),
    Fault('SplitShard splits one key higher', 'SplitShard', key_is_higher),
    Fault('ListStreams says that no stream follows', 'ListStreams',
          tell=on_success(lambda told, *_: told.update(HasMoreStreams=False))),
    Fault('ListShards has a NextToken for ever', 'ListShards', tell=on_success(more_for_ever)),
    Fault('DescribeStream has no closed shard', 'DescribeStream', tell=on_success(no_closed)),
    Fault('each refusal has the status 500', ANY, tell=all_are_500),
    Fault('an error has a prefix', ANY, tell=with_error(lambda told: told.update(__type='x#' + told['__type']))),
    Fault('an error has no message', ANY, tell=with_error(lambda told: told.pop('message', None))),
    Fault('an error has another message', ANY, tell=with_error(lambda told: told.update(message='x'))),
    Fault('an empty reply is {}', ANY, tell=lambda status, told, *_: (status, {} if told is None else told)),
    Fault('a reply has a member more', ANY, tell=on_success(lambda told, *_: told.update(More=1))),
    Fault('a reply says Connection: close', ANY, headers={'Connection': 'close'}),
    Fault('a reply is text/plain', ANY, headers={'Content-Type': 'text/plain'}),
)


def faults(model):
    """Those that a case must name, if it isn't in the list of unnamed.py."""
    for some in (other_values, statuses, ignored):
        yield from some(model)
    yield from BESIDES


# ---- three faults of one server, and the cases that see each: these, and no other

def another_shard(operation, status, told):
    """A record of the second shard is said to be in the first."""
    if operation == 'PutRecord' and status == 200 and told['ShardId'].endswith('1'):
        told['ShardId'] = 'shardId-000000000000'


def no_children(operation, status, told):
    """The end of a closed shard says nothing of its children."""
    if operation == 'GetRecords' and status == 200:
        told.pop('ChildShards', None)


def another_error(operation, status, told):
    if operation == 'MergeShards' and status == 400 and told['__type'] == 'ResourceNotFoundException':
        told['__type'] = 'ValidationException'


SEEN_BY = {
    another_shard: (
        'where a, abc and message digest go, and a key beyond ASCII',
        'ExplicitHashKey at both ends of each shard',
    ),
    no_children: ('the end of a closed shard', 'the child at the end of a merged shard'),
    another_error: ('MergeShards of a stream that is not there',),
}


class Three(Front):
    def answer(self, operation, members):
        status, told = self.forward(operation, members)
        for fault in SEEN_BY:
            fault(operation, status, told)
        return status, told


class Lost(Front):
    """A server whose answers to an operation don't come. What was asked for is done."""

    def __init__(self, behind, operation):
        super().__init__(behind)
        self.operation, self.count = operation, 0

    def answer(self, operation, members):
        told = self.forward(operation, members)
        if operation != self.operation:
            return told
        self.count += 1
        return (None, None) if self.count % 2 else told
