"""A story by names: the words of the logs of consumers become lines of a schedule (docs/incidents.md, "Write the log
down"). What no log has, the numbers of actors, workers, shards, tenures, counters, positions and records, is asked of a
`./kds replay` that runs beside, line by line: a command that is refused changes nothing, so a guess costs nothing."""
import datetime
import json
import pathlib
import re
import subprocess
import tempfile

ROOT = pathlib.Path(__file__).resolve().parent.parent.parent
KINDS = ('api', 'raw', 'worker', 'step', 'stop', 'hand')
NAME, NUMBER, KEY = (re.compile(r'[!-~]{1,200}'), re.compile(r'0|[1-9]\d{0,127}'),
                     re.compile(r'(0|[1-9]\d*)/(0|[1-9]\d*)'))
# What a read asks for where the log doesn't say how many records came, as the Client Library does.
READ_LIMIT, MOST_READ = 1000, 10_000
# How many records one PutRecords takes, and how many a line of a story may stand for.
MOST_PUT, MOST_RECORDS = 500, 100_000
# The replay's own numbers are below 2^64. Those of the service have 56 digits.
OWN = 2**64
END = 'end'
# Where a lease may begin that has no checkpoint at a record, and the checkpoint of one that was processed to its end.
FIRST, SHARD_END = ('TRIM_HORIZON', 'LATEST', 'AT_TIMESTAMP'), 'SHARD_END'
CAUSES = 'is a line missing, or is the clock of a host wrong?'
NO_KIND = f'the word after the time is not {", ".join(KINDS[:-1])} or {KINDS[-1]}'
FORMS = {
    'create': 'HOST create SHARD [latest]', 'take': 'HOST take SHARD [at NUMBER | at TRIM_HORIZON | at SHARD_END]',
    'open': 'HOST open SHARD [at NUMBER | at TRIM_HORIZON | at SHARD_END]', 'fetch': 'HOST fetch SHARD [N]',
    'process': 'HOST process SHARD [N] [to NUMBER]', 'checkpoint': 'HOST checkpoint SHARD [at NUMBER | at end]',
    'renew': 'HOST renew SHARD', 'release': 'HOST release SHARD', 'hand': 'HOST hand off SHARD',
    'delete': 'HOST delete SHARD', 'restarts': 'HOST restarts',
    'stream': 'stream NAME SHARD ..', 'split': 'split SHARD LOW HIGH [at HASHKEY]', 'merge': 'merge SHARD SHARD CHILD',
    'records': 'records SHARD N [to NUMBER]',
}
OF_STREAMS = ('stream', 'split', 'merge', 'records')
# What may end with the word fails: the log says that it was refused.
MAY_FAIL = ('create', 'take', 'open', 'checkpoint', 'renew', 'release', 'delete')
# How many words each raw command has after its own name when it names a shard and leaves out what the replay knows.
BY_SHARD = {'make': (1, 3), 'take': (1, 2), 'open': (1, 1), 'read': (1, 2), 'give': (1, 1), 'mark': (1, 2),
            'renew': (1, 1), 'free': (1, 1), 'cut': (1, 1)}


class Unreadable(Exception):
    """A line that can't be, with the reason."""


class Misplaced(Unreadable):
    """A line that can't be in this place; in another it might."""


class NoShard(Misplaced):
    """There is no such shard yet."""


class Lacks(Unreadable):
    """A line before which another of its own process lacks. No clock is the cause: a host's lines keep their order."""


def shown(text):
    """A piece of a file in a message: printable, and not long."""
    kept = ''.join(one if ' ' <= one <= '~' else '?' for one in text)
    return kept if len(kept) <= 80 else f'{kept[:80]} ..'


def file_of(where):
    """The file of a line, by its place."""
    return where.rpartition(': line ')[0]


def date(at):
    """A moment: those of our years as dates."""
    if at < 10**11:
        return str(at)
    told = datetime.datetime.fromtimestamp(at // 1000, datetime.timezone.utc).strftime('%Y-%m-%dT%H:%M:%S')
    return f'{told}.{at % 1000:03}Z' if at % 1000 else f'{told}Z'


def span(ms):
    """A time, in words."""
    whole = ms // 1000
    if whole < 120:
        return f'{ms / 1000:.3f}'.rstrip('0').rstrip('.') + ' s'
    parts = (whole // 60, 'min', whole % 60, 's') if whole < 7200 else (whole // 3600, 'h', whole // 60 % 60, 'min')
    return ' '.join(f'{number} {unit}' for number, unit in zip(parts[::2], parts[1::2]) if number)


def is_by_names(rest):
    """Whether a line, after its moment, is one of a story: it names what a replay has to number."""
    words = rest.split()
    if not words or words[0] not in KINDS:
        return True
    names_shard = len(words) > 3 and words[2] in BY_SHARD and is_shard(words[2], words[3:])
    return words[0] == 'raw' and (len(words) < 3 or not words[1].isdigit() or names_shard)


def is_shard(verb, words):
    """Whether a raw command names a shard where it could leave numbers to the replay."""
    if not NUMBER.fullmatch(words[0]) and not KEY.fullmatch(words[0]):
        return True
    if not KEY.fullmatch(words[0]) or verb == 'make':
        return False
    return verb not in ('take', 'cut') or not any(NUMBER.fullmatch(it) for it in words[1:])


class Replay:
    """`./kds replay`, asked line by line; or that of a program which was seen to run."""

    def __init__(self, program=None):
        # where the program has to be built first, that says so for itself
        ready = None if program else subprocess.run([str(ROOT / 'kds'), 'replay'], stdin=subprocess.DEVNULL,
                                                    stdout=subprocess.DEVNULL, check=False)
        if ready and ready.returncode:
            raise Unreadable(f"./kds replay can't run: status {ready.returncode}")
        self.errors = tempfile.TemporaryFile()
        self.child = subprocess.Popen([program or str(ROOT / 'kds'), 'replay'], stdin=subprocess.PIPE,
                                      stdout=subprocess.PIPE, stderr=self.errors)

    def __enter__(self):
        return self

    def __exit__(self, *_):
        try:
            self.child.stdin.close()
        except OSError:
            pass
        self.child.stdout.close()
        self.child.wait()
        self.errors.close()

    def ask(self, line):
        """The answer to one line."""
        try:
            self.child.stdin.write(line.encode('utf-8', 'surrogateescape') + b'\n')
            self.child.stdin.flush()
            answer = self.child.stdout.readline()
        except OSError:
            answer = b''
        if not answer.endswith(b'\n'):
            self.child.wait()
            self.errors.seek(0)
            said = self.errors.read(2000).decode('utf-8', 'replace').strip().splitlines()
            raise Unreadable('the replay ended here: '
                             + shown('; '.join(re.sub(r'^line \d+: ', '', it) for it in said[:1])
                                     or f'status {self.child.returncode}'))
        return answer[:-1].decode('utf-8', 'surrogateescape')


class Tenure:
    """What a story knows of one: its counter is the last that its own process saw."""

    def __init__(self, no, key, worker, counter, start):
        self.no, self.key, self.worker, self.counter = no, key, worker, counter
        self.start, self.ended = int(start) if start.isdigit() else 0, start == END
        self.reach = self.start + 1 if start.isdigit() else 0
        self.waiting, self.delivered, self.opened, self.tried, self.told, self.marked, self.where = (
            [], [], False, False, False, None, '')
        self.freed = False


class Names:
    """The numbers that stand for the names of a story."""

    def __init__(self, taken):
        # actors that raw lines name by number are their own
        self.taken, self.hosts, self.actors, self.workers = set(taken), {}, {}, {}
        self.streams, self.own, self.shards, self.used, self.bound = {}, set(), {}, {}, {}

    def actor(self, host, anew=False):
        """The process that a host is now."""
        if anew or host not in self.hosts:
            number = next((it for it in range(1, 1000) if it not in self.taken), None)
            if number is None:
                raise Unreadable('there are more than 999 processes in this story')
            self.taken.add(number)
            self.hosts[host] = number
            self.actors[number] = host
        return self.hosts[host]

    def worker(self, host):
        return f'w{self.workers.setdefault(host, len(self.workers) + 1)}'

    def host_of(self, worker):
        return next((host for host, number in self.workers.items() if f'w{number}' == worker), worker)

    def declare(self, stream, name, no):
        """A shard gets the name that the story has for it."""
        if (stream, name) in self.shards:
            raise Misplaced(f'the shard {name} is there already: expected a new name')
        key = f'{self.streams[stream]}/{no}'
        self.shards[stream, name] = self.used_as(key, name)
        self.own.add(stream)

    def used_as(self, key, name):
        self.used[key] = name
        return key

    def key(self, word):
        """The KEY of a shard, which is named with its stream or without it."""
        if KEY.fullmatch(word):
            return word
        stream, _, name = word.rpartition('/')
        found = [key for (of, one), key in self.shards.items() if one == name and stream in ('', of)]
        plain = re.fullmatch(r'shardId-(\d{1,12})', name)
        # a stream whose shards no line named has those of the replay itself
        found += [f'{no}/{int(plain[1])}' for of, no in self.streams.items()
                  if plain and of not in self.own and stream in ('', of)]
        if len(found) > 1:
            raise Unreadable(f'{name} is a shard of several streams: '
                             f'expected its stream too, as {next(iter(self.streams))}/{name}')
        if not found:
            raise NoShard(f'there is no shard {shown(word)} at this line: expected one that a stream, split or merge '
                          'line, or an api line, makes before it')
        return self.used_as(found[0], name)

    def stream_of(self, key):
        return next(name for name, no in self.streams.items() if str(no) == key.split('/')[0])

    def bind(self, key, number, record):
        """A number of the log is that of a record."""
        kept = self.bound.setdefault(key, {})
        for other, at in kept.items():
            if other != number and (at == record or (other < number) != (at < record)):
                raise Misplaced(f'{number} would be record {record}, and {other} is record {at}: expected numbers of a '
                                'shard to rise with its records: is a process or records line missing, or is the clock '
                                'of a host wrong?')
        kept[number] = record

    def table(self, journal):
        """The table of names, which tools/journal.html and tools/*.awk take. Its second line ties it to its
        journal: how many entries that has, and its last clock."""
        _, *entries, end = journal.decode().splitlines()
        lines = ['names 1', f'journal {len(entries)} {end.split(" ")[1]}']
        lines += [f'worker w{no} {host}' for host, no in self.workers.items()]
        lines += [f'actor {no} {host}' for no, host in self.actors.items()]
        lines += [f'shard {key} {name}'
                  for key, name in sorted(self.used.items(), key=lambda it: tuple(map(int, it[0].split('/'))))]
        for key, kept in self.bound.items():
            lines += [f'record {key.split("/")[0]}/{record} {number}'
                      for number, record in sorted(kept.items()) if number >= OWN]
        return '\n'.join(lines) + '\n'


class Story:
    """Makes a schedule, line by line. `told` has what was refused and what doesn't agree with the log, each with its
    line. The log says of a line without the word fails that it was done: `refusals` are the lines that are refused all
    the same, and `odds` those that are answered otherwise in any other way."""

    def __init__(self, replay, taken):
        self.replay, self.names = replay, Names(taken)
        self.lines, self.answers, self.told, self.holds, self.tenures, self.counters, self.refused_takes = (
            [], [], [], {}, {}, {}, {})
        self.at, self.where, self.text, self.fails, self.refusals, self.odds = 0, '', '', False, [], []
        # checkpoint lines that lack, where it is known which: the host, the rest of the line,
        # and the line before which it stands
        self.lacking = []
        # the records of each shard that lines of the story put, those that no line put, and the shards that take none
        # any more
        self.there, self.added, self.closed = {}, {}, set()
        # all lines, the number of the one that is read, and the moment at which the first stream is made
        self.all, self.number_of_line, self.beginning = [], 0, 0

    @property
    def is_otherwise(self):
        """Whether anything is told but of records that were put."""
        return any(it.startswith(tuple(f'{where}: ' for _, where, _ in self.all)) for it in self.told)

    # ---- lines of the schedule

    def keep(self, line, answer):
        self.lines.append(line)
        self.answers.append(answer)
        if answer.startswith('refused') and not self.fails:
            self.refusals.append(self.where)
            self.tell(f'{self.said()}: {answer}{self.meaning(answer)}')
        elif self.fails and not answer.startswith('refused'):
            self.differs(f'the log says that it failed, and the replay answers {shown(answer)}: {CAUSES}')
        return answer

    def said(self):
        """The line, for a terminal."""
        return re.sub(r'[^ -~]', '?', ' '.join(self.text.split()))

    def tell(self, what):
        self.told.append(f'{self.where}: {what}')

    def differs(self, how):
        """The replay answers a line otherwise than the log has it."""
        self.odds.append(self.where)
        self.tell(f'{self.said()}: {how}')

    def meaning(self, answer):
        """A refusal's value by its name."""
        _, name, *value = answer.split(' ')
        tenure = self.tenures.get(value[0]) if name == 'Lost' else None
        if name == 'Lost' and value[0] == '0':
            return ', nobody has the lease'
        if tenure:
            return f', {self.names.host_of(tenure.worker)} has the lease'
        words = self.text.split()
        if name == 'NoLease' and len(words) > 2 and words[1] == 'take':
            return f': write {words[0]} create {words[2]} before it, or begin with tools/dump --story'
        return f', {self.names.used[value[0]]}' if name == 'ParentsOpen' and value[0] in self.names.used else ''

    def raw(self, by, form, *guesses):
        """Keeps a raw line. What follows `form` are guesses, which a refusal corrects."""
        answer = ''
        for _ in range(3):
            line = f'{self.at} raw {by} {form(*guesses)}'
            answer = self.replay.ask(line)
            found = re.fullmatch(r'refused (?:Moved|OutOfPlace) (\d+)', answer)
            if not found or not guesses or guesses[0] == found[1]:
                break
            guesses = (found[1], *guesses[1:])
        self.learn(by, form(*guesses), answer)
        return self.keep(line, answer)

    def learn(self, by, command, answer):
        """What an accepted raw command changed."""
        verb, first, *more = command.split(' ') + ['', '']
        tenure = self.tenures.get(first)
        if verb == 'open' and tenure:
            tenure.tried = True
        if not answer.startswith('ok'):
            if verb == 'take':
                self.refused_takes[by, first] = f'its take, {self.where.rsplit(": ", 1)[-1]}, was {answer}'
        elif verb == 'make':
            self.counters[first] = '0'
        elif verb == 'take':
            _, _, no, _, counter, _, start = answer.split(' ')
            self.counters[first] = counter
            self.tenures[no] = self.holds[by, first] = Tenure(no, first, more[1], counter, start)
            self.tenures[no].where = self.where
        elif verb == 'read':
            _, _, reach, _, *numbers = answer.split(' ')
            tenure.reach = int(reach)
            tenure.waiting.append([int(it) for it in numbers])
        elif verb == 'open':
            tenure.opened = True
        elif verb == 'give':
            tenure.delivered += tenure.waiting.pop(0)
        elif found := re.fullmatch(r'ok counter (\d+)', answer):
            tenure.counter = self.counters[tenure.key] = found[1]
            tenure.freed = verb == 'free'

    def api(self, operation, body):
        """Keeps a request that the story needs, and gives its reply."""
        line = f'{self.at} api {operation} {json.dumps(body, separators=(",", ":"))}'
        answer = self.replay.ask(line)
        if not answer.startswith('200'):
            raise Misplaced(f'{operation} is answered {shown(answer)}')
        self.keep(line, answer)
        self.follow(operation, body)
        return json.loads(answer[4:] or '{}')

    def follow(self, operation, body):
        """Streams count from 1 in the order of their creation."""
        if operation == 'CreateStream':
            self.names.streams[body['StreamName']] = self.made = getattr(self, 'made', 0) + 1

    def listed(self, stream, after=None):
        """The first shard after one, with its range of hash keys, or all. It is asked, and no line of the schedule."""
        body = {'StreamName': stream} | ({'ExclusiveStartShardId': f'shardId-{after:012}'} if after is not None else {})
        answer = self.replay.ask(f'{self.at} api ListShards {json.dumps(body)}')
        shards = json.loads(answer[4:])['Shards'] if answer.startswith('200 ') else []
        return [(int(it['ShardId'][8:]), int(it['HashKeyRange']['StartingHashKey']),
                 int(it['HashKeyRange']['EndingHashKey'])) for it in shards]

    def range_of(self, key):
        no = int(key.split('/')[1])
        found = self.listed(self.names.stream_of(key), no - 1 if no else None)[:1]
        if not found or found[0][0] != no:
            raise Unreadable(f'the stream lists no shard {no} at this line')
        return found[0][1:]

    def newest(self, stream, count):
        """The numbers of the newest shards of a stream."""
        found = page = self.listed(stream)
        while page:
            found, page = page, self.listed(stream, page[-1][0])
        return ([no for no, _, _ in found[-count:]] if len(found) >= count
                else list(range(found[-1][0] - count + 1, found[-1][0] + 1)))

    # ---- words of streams

    def stream(self, words):
        if len(words) < 2 or len(set(words[1:])) < len(words) - 1:
            self.expected('stream')
        self.api('CreateStream', {'StreamName': words[0], 'ShardCount': len(words) - 1})
        for no, name in enumerate(words[1:]):
            self.names.declare(words[0], name, no)

    def split(self, words):
        if len(words) not in (3, 5) or len(words) == 5 and (words[3] != 'at' or not NUMBER.fullmatch(words[4])):
            self.expected('split')
        key = self.names.key(words[0])
        low, high = self.range_of(key)
        at = int(words[4]) if len(words) == 5 else (low + high + 1) // 2
        if not low < at <= high:
            self.tell(f'the hash key {at} lies outside of the shard as it is here: '
                      f'the middle, {(low + high + 1) // 2}, is taken')
            at = (low + high + 1) // 2
        stream = self.names.stream_of(key)
        self.api('SplitShard', {'StreamName': stream, 'ShardToSplit': id_of(key), 'NewStartingHashKey': str(at)})
        self.closed.add(key)
        for name, no in zip(words[1:3], self.newest(stream, 2)):
            self.names.declare(stream, name, no)

    def merge(self, words):
        if len(words) != 3:
            self.expected('merge')
        one, other = map(self.names.key, words[:2])
        stream = self.names.stream_of(one)
        self.api('MergeShards',
                 {'StreamName': stream, 'ShardToMerge': id_of(one), 'AdjacentShardToMerge': id_of(other)})
        self.closed |= {one, other}
        self.names.declare(stream, words[2], self.newest(stream, 1)[0])

    def records(self, words):
        if len(words) not in (2, 4) or len(words) == 4 and (words[2] != 'to' or not NUMBER.fullmatch(words[3])):
            self.expected('records')
        key, count = self.names.key(words[0]), counted(words[1], 1, MOST_RECORDS)
        self.put(key, count)
        if len(words) == 4:
            self.number(key, int(words[3]), self.there[key][-1], 'the last record put')

    def put(self, key, count):
        """Records come to a shard, by its own lowest hash key."""
        low, name = self.range_of(key)[0], self.names.used.get(key, key)
        for first in range(0, count, MOST_PUT):
            some = [{'Data': '', 'PartitionKey': 'record', 'ExplicitHashKey': str(low)}] * min(MOST_PUT, count - first)
            replies = self.api('PutRecords', {'StreamName': self.names.stream_of(key), 'Records': some})['Records']
            odd = next((it for it in replies if it.get('ShardId') != id_of(key)), None)
            if odd:
                raise Misplaced(f'{name} takes no records any more: expected this line before its split or merge'
                                if 'ShardId' in odd else f'a record is refused: {shown(str(odd))}')
            self.there.setdefault(key, []).extend(int(it['SequenceNumber']) for it in replies)

    def put_missing(self, key, reach, count):
        """What a log has of a shard of the story's own, and no line put, is put where the log first has it."""
        missing = count - sum(it >= reach for it in self.there.get(key, []))
        if missing > 0 and key not in self.closed and self.names.stream_of(key) in self.names.own:
            self.put(key, missing)
            self.added[key] = self.added.get(key, 0) + missing

    # ---- words of consumers

    def held(self, by, host, key):
        """The newest tenure of a lease that this process took."""
        if (by, key) not in self.holds:
            name = self.names.used.get(key, key)
            if (by, key) in self.refused_takes:
                raise Misplaced(f'{host} has no tenure of {name}: {self.refused_takes[by, key]}')
            owner = next((it for it in reversed(self.tenures.values()) if it.key == key), None)
            has = f'; {self.names.host_of(owner.worker)} has the lease' if owner and not owner.freed else ''
            raise Lacks(f'{host} has no tenure of {name}: expected a line {host} take {name} before it, '
                        f'by the same process{self.next_is(host, "take", name)}{has}')
        return self.holds[by, key]

    def next_is(self, host, word, name):
        """Whether the line that lacks is the next one of its host."""
        after = ((where, rest.split()) for _, where, rest in self.all[self.number_of_line + 1:])
        where, words = next((it for it in after if it[1][:1] == [host]), ('', []))
        is_next = words[1:2] == [word] and words[2:3] and words[2].rpartition('/')[2] == name
        return f', and {where} is that line: do the two stand in the wrong order?' if is_next else ''

    def tried(self, host, tenure):
        """Who fetches or processes has opened the shard, or has tried to."""
        if not tenure.tried:
            name = self.names.used.get(tenure.key, tenure.key)
            raise Lacks(f'{host} has not opened {name}: expected a line {host} open {name} before it'
                        f'{self.next_is(host, "open", name)}')

    def command(self, by, host, verb, key, more):
        """A command on leases by its shard."""
        if verb == 'make':
            return self.raw(by, lambda: ' '.join(['make', key, *more]))
        if verb == 'take':
            return self.raw(by, lambda counter: f'take {key} {counter} {more[0] if more else self.names.worker(host)}',
                            self.counters.get(key, '0'))
        if verb == 'cut':
            return self.raw(by, lambda counter: f'cut {key} {counter}', self.counters.get(key, '0'))
        it = self.held(by, host, key)
        if verb == 'read':
            return self.raw(by, lambda reach: f'read {it.no} {reach} {more[0] if more else READ_LIMIT}', str(it.reach))
        if verb == 'mark':
            return self.raw(by, lambda counter: f'mark {it.no} {counter} {more[0] if more else last_of(it)}',
                            it.counter)
        if verb in ('renew', 'free'):
            return self.raw(by, lambda counter: f'{verb} {it.no} {counter}', it.counter)
        return self.raw(by, lambda: f'{verb} {it.no}')

    def fetch(self, by, host, key, words):
        """A read of as many records as the log has."""
        count = counted(words[0], 1, MOST_READ) if words else 0
        self.tried(host, self.held(by, host, key))
        if count and self.held(by, host, key).opened:
            self.put_missing(key, self.held(by, host, key).reach, count)
        return self.command(by, host, 'read', key, words)

    def process(self, by, host, key, words):
        """The processor returned from records: those that were fetched before, or that are fetched now."""
        count = words.pop(0) if words and words[0] != 'to' else None
        if count is not None:
            counted(count, 0, MOST_READ)
        if words and (len(words) != 2 or words[0] != 'to' or not NUMBER.fullmatch(words[1])):
            self.expected('process')
        it = self.held(by, host, key)
        if not it.waiting:
            self.fetch(by, host, key, [count] if count and int(count) else [])
        here = it.waiting[0] if it.waiting else []
        given = self.command(by, host, 'give', key, []).startswith('ok')
        if given and count is not None and int(count) != len(here):
            late = ('a closed shard takes no more, so a records line of it stands before its split or merge'
                    if key in self.closed and len(here) < int(count) else CAUSES)
            self.differs(f'the log has {count} records, and the replay delivers {len(here)}: {late}')
        if given and words and here:
            self.number(key, int(words[1]), here[-1], 'the last record processed')
        elif given and words:
            self.differs(f'nothing was delivered here, so the number stands for no record: {CAUSES}')

    def number(self, key, number, record, what):
        """A number of the log stands for a record, or is checked if it is known."""
        known = self.record_of(key, number)
        if known is None:
            self.names.bind(key, number, record)
        elif known != record:
            self.differs(f'the log has {number}, which is record {known} here, and {what} is {record}: {CAUSES}')

    def begins(self, by, host, word, key, words):
        """A take or an open. The log may have the checkpoint at which the lease begins: here it
        is the same, or a line is wrong."""
        at = words[1] if len(words) == 2 and words[0] == 'at' else None
        if words and (at is None or at not in (*FIRST, SHARD_END, END) and not NUMBER.fullmatch(at)):
            self.expected(word)
        answer = self.command(by, host, word, key, [])
        if not answer.startswith('ok'):
            return answer
        it = self.held(by, host, key)
        if at is None:
            if word == 'open' and not it.told:
                self.unmarked(host, key, it)
            return answer
        it.told = True
        if at in (SHARD_END, END):
            fits = it.ended
        else:
            record = 0 if at in FIRST else self.record_of(key, int(at))
            fits = not it.ended and record == it.start
        if not fits:
            numbers = (str(number) for number, one in self.names.bound.get(key, {}).items() if one == it.start)
            here = SHARD_END if it.ended else next(numbers, f'record {it.start}' if it.start else FIRST[0])
            self.differs(f'the log begins at {at}, and here the lease begins at {here}: {self.missing(key, at, it)}')
        return answer

    def record_of(self, key, number):
        """The record that a number of the log stands for, if that is known."""
        return self.names.bound.get(key, {}).get(number, number if number < OWN else None)

    def before(self, tenure):
        """The tenure of the same lease before one."""
        return max((it for it in self.tenures.values() if it.key == tenure.key and int(it.no) < int(tenure.no)),
                   key=lambda it: int(it.no), default=None)

    def unmarked(self, host, key, tenure):
        """A lease begins below records that the tenure before was delivered, and no number of the log says so."""
        before = self.before(tenure)
        above = sum(it > tenure.start for it in before.delivered) if before and not tenure.ended else 0
        if above:
            name, at = self.names.used.get(key, key), f'record {tenure.start}' if tenure.start else FIRST[0]
            owner = self.names.host_of(before.worker)
            later = self.later(owner, name)
            why = (f'{later} is a checkpoint of it, and stands after this line: is the clock of a host wrong?' if later
                   else f'is a line {owner} checkpoint {name} missing before it? If the log has where it begins, '
                        'add at NUMBER')
            self.tell(f'{self.said()}: {owner} had processed {above} records above {at}, where the lease begins here, '
                      f'and nothing says where it begins in the log: {why}')

    def later(self, host, name):
        """Where a host has a checkpoint line of a shard after this line, and by no later take."""
        for _, where, rest in self.all[self.number_of_line + 1:]:
            words = rest.split()
            if words[:1] == [host] and words[-1].rpartition('/')[2] == name and words[1] == 'take':
                return ''
            if words[:2] == [host, 'checkpoint'] and words[2].rpartition('/')[2] == name and words[-1] != 'fails':
                return where
        return ''

    def missing(self, key, at, tenure):
        """Why a lease may begin elsewhere. Where the log has a record that the tenure before was delivered, that
        one's checkpoint line is what lacks."""
        record, before = self.record_of(key, int(at)) if at.isdigit() else None, self.before(tenure)
        if before and record is not None and record > tenure.start and record in before.delivered:
            host, name = self.names.host_of(before.worker), self.names.used.get(key, key)
            where = checkpoints(self.all).get((host, name, int(at)))
            if where:
                return f'{where} is that checkpoint, so is the clock of a host wrong?'
            line = f'checkpoint {name} at {at}'
            self.lacking.append((host, line, tenure.where))
            return f'is the line {host} {line} missing before it, or is the clock of a host wrong?'
        return 'is a checkpoint line missing, or is the clock of a host wrong?'

    def checkpoint(self, by, host, key, words):
        if words and (len(words) != 2 or words[0] != 'at'
                      or words[1] not in (END, SHARD_END) and not NUMBER.fullmatch(words[1])):
            self.expected('checkpoint')
        it = self.held(by, host, key)
        if not words:
            return self.at_the_last(by, host, key, it)
        if words[1] in (END, SHARD_END):
            return self.command(by, host, 'mark', key, [END])
        number = int(words[1])
        record = self.record_of(key, number)
        if record is None:
            if not it.delivered:
                raise Misplaced(f'no record has the number {number}: '
                                'write it after "to" in an earlier records or process line of this shard')
            record = last_of(it)
            self.names.bind(key, number, record)
        return self.command(by, host, 'mark', key, [str(record)])

    def at_the_last(self, by, host, key, tenure):
        """A checkpoint at the last record that was processed: above the one before, or a process line lacks."""
        last = last_of(tenure)
        answer = self.command(by, host, 'mark', key, [])
        if answer.startswith('ok') and last == tenure.marked:
            self.tell(f'{self.said()}: nothing was processed since the checkpoint before it: '
                      f'is a process line missing?')
        tenure.marked = last
        return answer

    def hand_off(self, by, host, key, _):
        """As the library does: what the processor has is given, its end is the checkpoint, and the row is freed."""
        it = self.held(by, host, key)
        if it.waiting:
            self.command(by, host, 'give', key, [])
        if it.delivered:
            self.command(by, host, 'mark', key, [])
        self.command(by, host, 'free', key, [])

    def consumer(self, host, word, words):
        if host in KINDS + OF_STREAMS:
            raise Unreadable(f'{shown(host)} is no name of a host')
        if word == 'restarts':
            return self.expected(word) if words else self.names.actor(host, anew=True)
        self.fails = words[-1:] == ['fails'] and word in MAY_FAIL
        words = words[:-1] if self.fails else words
        if word == 'hand' and words[:1] == ['off']:
            words = words[1:]
        elif word == 'hand':
            self.expected(word)
        most = {'create': 2, 'fetch': 2, 'process': 4, 'checkpoint': 3, 'take': 3, 'open': 3}.get(word, 1)
        odd = word == 'create' and words[1:] not in ([], ['latest'])
        if not 1 <= len(words) <= most or odd or not all(map(NAME.fullmatch, [host, *words])):
            self.expected(word)
        by, key, more = self.names.actor(host), self.names.key(words[0]), words[1:]
        self.names.worker(host)
        plain = {'create': 'make', 'take': 'take', 'open': 'open', 'renew': 'renew', 'release': 'free', 'delete': 'cut'}
        if word in ('take', 'open'):
            return self.begins(by, host, word, key, more)
        if word in plain:
            return self.command(by, host, plain[word], key, more)
        return {'fetch': self.fetch, 'process': self.process, 'checkpoint': self.checkpoint,
                'hand': self.hand_off}[word](by, host, key, more)

    def raw_by_names(self, words):
        """A raw line that names a host, or a shard where a tenure stands, with or without what the replay knows."""
        if len(words) < 2:
            raise Unreadable('after raw: an actor and a command')
        host, verb, *rest = words
        if not NAME.fullmatch(host):
            raise Unreadable(f'{shown(host)} is no name of a host')
        by = int(host) if host.isdigit() else self.names.actor(host)
        if not 1 <= by <= 999:
            raise Unreadable('an actor is 1 to 999')
        if not rest or verb not in BY_SHARD or not is_shard(verb, rest):
            return self.raw(by, lambda: ' '.join([verb, *rest]))
        least, most = BY_SHARD[verb]
        key = self.names.key(rest[0])
        if verb == 'take' and host.isdigit() and len(rest) < 2:
            raise Unreadable('expected raw BY take SHARD wN, for an actor that is a number')
        if not least <= len(rest) <= most:
            raise Unreadable(f'expected raw BY {verb} SHARD with at most {most - 1} words after it: '
                             'counter and position are the replay\'s')
        return self.command(by, self.names.actors.get(by, f'actor {by}'), verb, key, rest[1:])

    def expected(self, word):
        raise Unreadable(f'expected {FORMS[word]}')

    # ---- a line

    def line(self, at, where, rest):
        """One line of a story, after its moment, or of a schedule."""
        self.at, self.where, self.text, self.fails = at, where, rest, False
        try:
            return self.any_line(at, rest)
        except NoShard as why:
            if at >= self.beginning:
                raise
            raise Misplaced(f'it is {span(self.beginning - at)} before the beginning of the story at '
                            f'{date(self.beginning)}: leave it out, or is a clock behind?') from why

    def any_line(self, at, rest):
        words = rest.split()
        if not is_by_names(rest):
            return self.as_it_is(f'{at} {rest}')
        if words and words[0] == 'raw':
            return self.raw_by_names(words[1:])
        if words and words[0] in OF_STREAMS:
            if not all(map(NAME.fullmatch, words)):
                self.expected(words[0])
            return getattr(self, words[0])(words[1:])
        if len(words) < 2 or words[1] not in FORMS or words[1] in OF_STREAMS:
            what = f'{shown(words[1])} is no word of a story' if len(words) > 1 else 'there is no word of a story'
            known = ', '.join(it for it in FORMS if it not in OF_STREAMS)
            raise Unreadable(f'{NO_KIND}, and {what}: expected HOST and {known}, or {", ".join(OF_STREAMS)}')
        return self.consumer(words[0], words[1], words[2:])

    def as_it_is(self, line):
        """A line of a schedule, whose changes are learnt."""
        answer = self.replay.ask(line)
        self.keep(line, answer)
        _, kind, third, *rest = line.split(' ', 3)
        if kind == 'raw' and rest:
            self.learn(int(third), rest[0], answer)
        elif kind == 'api' and third == 'CreateStream' and answer.startswith('200'):
            self.follow(third, json.loads(rest[0]))


def id_of(key):
    return f'shardId-{int(key.split("/")[1]):012}'


def checkpoints(lines):
    """The checkpoint lines of a story that didn't fail: of which host, shard and number, which a line of the same host
    before it may have; and where each stands."""
    found, last = {}, {}
    for _, where, rest in lines:
        words = rest.split()
        if len(words) < 3 or words[1] not in ('process', 'checkpoint', 'hand') or words[-1] == 'fails':
            continue
        host, word, shard, *more = words if words[1] != 'hand' else [words[0], words[1], words[-1]]
        key = host, shard.rpartition('/')[2]
        number = int(more[-1]) if more and more[-1].isdigit() and {'to', 'at'} & set(more) else None
        if word != 'process' and (number or not more):
            found[(*key, number or last.get(key))] = where
        elif word == 'process' and more[:1] != ['0']:
            last[key] = number
    return found


def last_of(tenure):
    """The last record that a tenure was delivered, or the one at which it began."""
    return max(tenure.delivered, default=tenure.start)


def counted(word, least, most):
    """A count in a story."""
    if not NUMBER.fullmatch(word) or not least <= int(word) <= most:
        raise Unreadable(f'expected a number of records from {least} to {most}, not {shown(word)}')
    return int(word)


def makes_stream(rest):
    """Whether a line makes a stream."""
    return rest.split(' ', 1)[0] == 'stream' or rest.startswith('api CreateStream ')


class Stopped(Unreadable):
    """A line can't be. The story up to it has what was told before."""

    def __init__(self, story, where, why):
        super().__init__('\nschedule: '.join([*story.told, f'{where}: {why}']))
        self.story, self.where = story, where
        # whether lines may be wrong, and not just this one's form; and whether their order may be
        self.is_misplaced, self.is_of_lines = isinstance(why, Misplaced), isinstance(why, (Misplaced, Lacks))


def schedule_of(lines, program=None, strict=None):
    """The schedule, its answers, its names and what was told, of lines with their moment, their place
    and the rest. With `strict`, which is asked at each line, the first line that the replay answers
    otherwise than the log has it ends it."""
    taken = {int(words[1]) for words in (rest.split() for _, _, rest in lines)
             if len(words) > 1 and words[0] == 'raw' and words[1].isdigit() and len(words[1]) < 4}
    with Replay(program) as replay:
        story = Story(replay, taken)
        story.beginning = next((at for at, _, rest in lines if makes_stream(rest)), 0)
        story.all = lines
        for story.number_of_line, (at, where, rest) in enumerate(lines):
            try:
                story.line(at, where, rest)
            except Unreadable as why:
                raise Stopped(story, where, why) from why
            if strict and not strict(story):
                raise Stopped(story, where, 'it is answered otherwise')
    for key, count in story.added.items():
        story.told.append(f'{story.names.used[key]}: {count} of the records that the log has stood in no records line, '
                          'and were put where the log has them first')
    return story
