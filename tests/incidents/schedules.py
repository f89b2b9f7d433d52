"""What `tools/schedule` makes of texts that were written down, and `tools/dump` of dumps of a lease table. The
moments of the dates were computed by `date -u -d DATE +%s`. The schedule of the incident in docs/incidents.md is what
it makes of the session that was recorded and the story that was written down."""
import json
import os
import pathlib
import random
import re
import shutil
import subprocess
import sys
import tempfile
import unittest

ROOT = pathlib.Path(__file__).resolve().parent.parent.parent
PROGRAM = ROOT / 'tools' / 'schedule'
DUMP = ROOT / 'tools' / 'dump'
EXAMPLES = ROOT / 'examples'
TOOLS = ROOT / 'tools'


def made(*words, text=b'', program=PROGRAM, **more):
    done = subprocess.run([sys.executable, program, *words], input=text, capture_output=True, check=False, **more)
    return done.returncode, done.stdout, done.stderr.decode()


def example(name):
    return (EXAMPLES / name).read_bytes()


def of_files(name, *words, program=DUMP):
    """What a script says of files of the examples, from their folder, so that it names them alone."""
    return made(*words, program=program, cwd=EXAMPLES)


# What is told of a lease that nobody created.
NO_LEASE = ('schedule: the input: line 7: host-b take b: refused NoLease: '
            'write host-b create b before it, or begin with tools/dump --story')


class Schedules(unittest.TestCase):
    def test_dates_become_moments(self):
        # a date, the seconds since 1970 that `date` tells, and the milliseconds after them
        for date, seconds, rest in [(b'1970-01-01T00:00:00Z', 0, 0), (b'2026-11-29T14:05:33.500Z', 1795961133, 500),
                                    (b'2026-11-29T14:05:33,5Z', 1795961133, 500),
                                    (b'2026-11-29 14:05:33.123999Z', 1795961133, 123),
                                    (b'2026-11-29T15:05:33+01:00', 1795961133, 0),
                                    (b'2026-11-29T09:05:33.25-0500', 1795961133, 250),
                                    (b'2024-02-29T23:59:59.999Z', 1709251199, 999)]:
            with self.subTest(date=date):
                self.assertEqual((0, b'%d raw 1 rows\n' % (seconds * 1000 + rest), ''),
                                 made(text=date + b' raw 1 rows\n'))

    def test_comments_and_blank_lines_go(self):
        text = b'# a story\r\n\r\n1000 api ListStreams {}\r\n   \n  # and its end\n2000 raw 1 rows'
        self.assertEqual((0, b'1000 api ListStreams {}\n2000 raw 1 rows\n', ''), made(text=text))

    def test_the_rest_of_a_line_stays_as_it_is(self):
        line = b'1000 api PutRecord  {"PartitionKey":"# \xff 2026-11-29T14:05:33Z",\t"Data":""} \n'
        self.assertEqual((0, line, ''), made(text=line))
        self.assertEqual((0, b'1000 api ListStreams \n', ''), made(text=b'1000 api ListStreams \n'))

    def test_texts_are_merged_by_moment(self):
        wanted = (b'1000 raw 1 rows\n1000 raw 2 rows\n2500 raw 2 rows\n3000 raw 1 rows\n2000 raw 1 rows\n'
                  b'3000 raw 2 rows\n3500 raw 2 rows\n4000 raw 1 rows\n')
        with tempfile.TemporaryDirectory() as folder:
            one, other = pathlib.Path(folder) / 'one', pathlib.Path(folder) / 'other'
            one.write_bytes(b'1000 raw 1 rows\n3000 raw 1 rows\n2000 raw 1 rows\n4000 raw 1 rows\n')
            other.write_bytes(b'1000 raw 2 rows\n2500 raw 2 rows\n1970-01-01T00:00:03.000Z raw 2 rows\n'
                              b'3500 raw 2 rows\n')
            self.assertEqual((0, wanted, ''), made(one, other))

    def test_what_cannot_be_read_is_told(self):
        none, beyond = 'it begins with no moment and no date', 'the moment is below 0, or 2^62 or more'
        odd = 'the word after the time is not api, raw, worker, step, stop or hand'
        words = ('create, take, open, fetch, process, checkpoint, renew, release, hand, delete, restarts, or stream, '
                 'split, merge, records')
        for line, why in [(b'2026-11-29T14:05:33 raw 1 rows',
                           'the date has no zone: write Z after it for UTC, or call with --utc'),
                          (b'2026-02-30T14:05:33Z raw 1 rows', 'there is no such date'),
                          (b'worker-a took a lease', none),
                          (b'1000', none), (b'01 raw 1 rows', none),
                          (b'4611686018427387904 raw 1 rows', beyond), (b'1969-12-31T23:59:59Z raw 1 rows', beyond),
                          (b'1000 took 1/0', f'{odd}, and 1/0 is no word of a story: expected HOST and {words}'),
                          (b'1000  raw 1 rows', odd)]:
            with self.subTest(line=line):
                self.assertEqual((1, b'', f'schedule: the input: line 2: {why}\n'),
                                 made(text=b'1000 raw 1 rows\n' + line + b'\n'))

    def test_words(self):
        self.assertEqual((0, b'1795961133000 raw 1 rows\n', ''),
                         made('--utc', text=b'2026-11-29 14:05:33 raw 1 rows\n'))
        self.assertEqual((1, b''), made('no such file')[:2])
        self.assertEqual((2, b'', 'schedule: there is no --zone; --help tells the rest\n'), made('--zone'))
        status, out, _ = made('--help')
        self.assertEqual((0, True), (status, b'tools/schedule [--utc] [FILE ..]' in out))

    def test_the_incident(self):
        names = [ROOT / 'examples' / name for name in ('incident-session.txt', 'incident-leases.txt')]
        self.assertEqual((0, (ROOT / 'examples' / 'incident.txt').read_bytes(), ''), made(*names))


CAUSES = 'is a line missing, or is the clock of a host wrong?\n'
# A stream of two shards with one record each, and host-a that has both leases.
START = """1000 stream orders a b
1000 records a 1 to 49000000000000000000000000001
1000 records b 1
1001 host-a create a
1001 host-a take a
1001 host-a open a
"""


class Stories(unittest.TestCase):
    def story(self, text, wanted, told=''):
        """A story after the start gives these lines of a schedule, and tells this."""
        status, out, said = made(text=(START + text).encode())
        self.assertEqual((0, told), (status, said))
        lines = out.decode().splitlines()
        self.assertEqual(wanted, lines[6:])
        self.assertEqual(0, subprocess.run([ROOT / 'kds', 'replay'], input=out, capture_output=True,
                                           check=False).returncode)

    def refused(self, text, why):
        self.assertEqual((1, b'', f'schedule: the input: line 7: {why}\n'), made(text=(START + text + '\n').encode()))

    def test_the_incident_by_names(self):
        names = ['incident-session.txt', 'incident-story.txt']
        self.assertEqual((0, example('incident.txt'), ''), made(*names, cwd=EXAMPLES))
        self.whole('incident', *names)

    def test_an_incident_without_its_outcomes(self):
        # where the story doesn't say what the log says, the refusals are told, and the schedule is the same
        told = ['line 22: host-a checkpoint shardId-000000000000: refused Lost 3, host-b has the lease']
        told += [f'line {line}: host-c open shardId-00000000000{shard}: refused ParentsOpen 1/0, shardId-000000000000'
                 for line, shard in ((30, 2), (31, 3), (35, 2))]
        with tempfile.TemporaryDirectory() as folder:
            story = re.sub(rb' (?:fails|at [58])(?=\n)', b'', example('incident-story.txt'))
            (pathlib.Path(folder) / 'story.txt').write_bytes(story)
            status, out, said = made(EXAMPLES / 'incident-session.txt', 'story.txt', cwd=folder)
        *lines, clock, unchecked = said.splitlines()
        self.assertEqual((0, example('incident.txt'), [f'schedule: story.txt: {line}' for line in told]),
                         (status, out, lines))
        self.assertRegex(clock, r'^schedule: no wrong clock of one host makes all of it fit, of \d+ orders that were '
                         r'replayed: is a line missing, or the word fails at one that failed\?')
        self.assertTrue(unchecked.startswith('schedule: nothing checks the clocks of host-a and host-b against each '
                                             'other: their lines of shardId-000000000000 have neither'))

    def whole(self, name, *files):
        """The four files that the viewer takes are those of the examples."""
        with tempfile.TemporaryDirectory() as folder:
            lines, entries = (len(example(f'{name}.{kind}').splitlines()) for kind in ('txt', 'journal'))
            said = (f'{folder}: {lines} lines, {entries - 2} entries; drop its files on tools/journal.html, or call '
                    f'awk -f tools/held.awk {folder}/names.txt {folder}/incident.journal\n')
            self.assertEqual((0, said.encode()), made('--to', folder, *files, cwd=EXAMPLES)[:2])
            given = {path.name: path.read_bytes() for path in pathlib.Path(folder).iterdir()}
        kinds = {'schedule.txt': 'txt', 'answers.txt': 'out', 'incident.journal': 'journal', 'names.txt': 'names'}
        self.assertEqual({one: example(f'{name}.{kind}') for one, kind in kinds.items()}, given)

    def test_the_middle_of_a_life(self):
        status, out, said = made('--story', 'payments', '--at', '2026-11-29T14:04:00Z',
                                 'examples/lease-table-1404.json', program=DUMP, cwd=ROOT)
        open_line = b'# 2026-11-29T14:04:00Z records shardId-000000000017 N\n'
        filled = (b'2026-11-29T14:04:00Z records shardId-000000000017 5 to '
                  b'49668412027348205713498722910348128273001529384756103411\n')
        self.assertEqual((0, 1, ''), (status, out.count(open_line), said))
        self.assertEqual(example('mid-life-beginning.txt'), out.replace(open_line, filled))
        self.whole('mid-life', 'mid-life-beginning.txt', 'mid-life-story.txt')

    def test_words_of_a_story(self):
        first = '1002 raw 1 read 1 0 1000\n1002 raw 1 give 1'.splitlines()
        mark = '1003 raw 1 mark 1 1 1'
        for text, wanted in [
                ('1002 host-a fetch a 1', ['1002 raw 1 read 1 0 1']), ('1002 host-a process a', first),
                ('1002 host-a process a\n1003 host-a checkpoint a', [*first, mark]),
                ('1002 host-a process a 1\n1003 host-a checkpoint a at 49000000000000000000000000001',
                 ['1002 raw 1 read 1 0 1', first[1], mark]),
                ('1002 host-a process a to 49000000000000000000000000001\n1003 host-a checkpoint a at 1',
                 [*first, mark]),
                ('1002 host-a renew a\n1003 host-a release a', ['1002 raw 1 renew 1 1', '1003 raw 1 free 1 2']),
                ('1002 host-a process a\n1003 host-a hand off a', [*first, mark, '1003 raw 1 free 1 2']),
                ('1002 host-b create b latest', ['1002 raw 2 make 1/1 latest']),
                ('1002 host-a restarts\n1003 host-a take orders/a', ['1003 raw 2 take 1/0 1 w1']),
                ('1002 merge a b c\n1003 records c 1',
                 ['1002 api MergeShards {"StreamName":"orders","ShardToMerge":"shardId-000000000000",'
                  '"AdjacentShardToMerge":"shardId-000000000001"}',
                  '1003 api PutRecords {"StreamName":"orders",'
                  '"Records":[{"Data":"","PartitionKey":"record","ExplicitHashKey":"0"}]}']),
                ('1002 split a c d at 5',
                 ['1002 api SplitShard {"StreamName":"orders","ShardToSplit":"shardId-000000000000",'
                  '"NewStartingHashKey":"5"}']),
                ('1002  host-a   renew  a   # and so on', ['1002 raw 1 renew 1 1'])]:
            with self.subTest(text=text):
                self.story(text, wanted)

    def test_raw_lines_between(self):
        # an actor that a raw line names by its number is no host's
        self.story('1002 raw 2 make 1/1\n1003 host-b take b\n1004 raw 2 take b w9\n1005 raw 2 open b\n'
                   '1006 raw host-a read a 5\n1007 raw host-a rows\n1008 raw 2 mark 1/1 end',
                   ['1002 raw 2 make 1/1', '1003 raw 3 take 1/1 0 w2', '1004 raw 2 take 1/1 1 w9', '1005 raw 2 open 3',
                    '1006 raw 1 read 1 0 5', '1007 raw 1 rows',
                    '1008 raw 2 mark 3 2 end'], 'schedule: the input: line 13: raw 2 mark 1/1 end: refused NotAtEnd\n')
        # here host-a is the actor 2, and the tenure 1 is its own
        self.story('1002 raw 1 read 1 0 1000\n1005 worker w7 tally\n1006 step 1000',
                   ['1002 raw 1 read 1 0 1000', '1005 worker w7 tally', '1006 step 1000'],
                   'schedule: the input: line 7: raw 1 read 1 0 1000: refused NotYours\n')

    def test_what_a_log_says_otherwise(self):
        put = ('1002 api PutRecords {"StreamName":"orders","Records":['
               + ','.join(['{"Data":"","PartitionKey":"record","ExplicitHashKey":"0"}'] * 2) + ']}')
        self.story('1002 host-a process a 3', [put, '1002 raw 1 read 1 0 3', '1002 raw 1 give 1'],
                   'schedule: a: 2 of the records that the log has stood in no records line, and were put where the '
                   'log has them first\n')
        split = ('1002 api SplitShard {"StreamName":"orders","ShardToSplit":"shardId-000000000000",'
                 '"NewStartingHashKey":"85070591730234615865843651857942052864"}')
        self.story('1002 split a c d\n1003 host-a process a 3', [split, '1003 raw 1 read 1 0 3', '1003 raw 1 give 1'],
                   'schedule: the input: line 8: host-a process a 3: the log has 3 records, and the replay delivers 1: '
                   'a closed shard takes no more, so a records line of it stands before its split or merge\n')
        self.story('1002 host-a process a\n1003 host-a process a 0',
                   ['1002 raw 1 read 1 0 1000', '1002 raw 1 give 1', '1003 raw 1 read 1 2 1000', '1003 raw 1 give 1'])
        self.story('1002 host-a process a to 7', ['1002 raw 1 read 1 0 1000', '1002 raw 1 give 1'],
                   'schedule: the input: line 7: host-a process a to 7: the log has 7, which is record 7 here, and the '
                   'last record processed is 1: ' + CAUSES)
        self.story('1002 host-a checkpoint a at 9', ['1002 raw 1 mark 1 1 9'],
                   'schedule: the input: line 7: host-a checkpoint a at 9: refused Beyond 0\n')
        self.story('1002 records b 1 to 9',
                   ['1002 api PutRecords {"StreamName":"orders","Records":[{"Data":"","PartitionKey":"record",'
                    '"ExplicitHashKey":"170141183460469231731687303715884105728"}]}'],
                   'schedule: the input: line 7: records b 1 to 9: the log has 9, which is record 9 here, and the last '
                   'record put is 3: ' + CAUSES)
        self.story('1002 host-b take b', ['1002 raw 2 take 1/1 0 w2'], f'{NO_LEASE}\n')

    def test_what_a_log_says_failed(self):
        read = ['1002 raw 1 read 1 0 1000', '1002 raw 1 give 1']
        self.story('1002 host-b take b fails', ['1002 raw 2 take 1/1 0 w2'])
        self.story('1002 host-a process a\n1003 host-a checkpoint a fails', [*read, '1003 raw 1 mark 1 1 1'],
                   'schedule: the input: line 8: host-a checkpoint a fails: '
                   'the log says that it failed, and the replay answers ok counter 2: ' + CAUSES)
        self.story('1002 host-a process a to 49000000000000000000000000001\n1003 host-a checkpoint a\n'
                   '1004 host-b take a at 49000000000000000000000000001\n1004 host-b open a at 1',
                   [*read, '1003 raw 1 mark 1 1 1', '1004 raw 2 take 1/0 2 w2', '1004 raw 2 open 2'])
        self.story('1002 host-a process a to 49000000000000000000000000001\n1004 host-b take a\n1004 host-b open a at '
                   '49000000000000000000000000001', [*read, '1004 raw 2 take 1/0 1 w2', '1004 raw 2 open 2'],
                   'schedule: the input: line 9: host-b open a at 49000000000000000000000000001: '
                   'the log begins at 49000000000000000000000000001, and here the lease begins at TRIM_HORIZON: '
                   'is the line host-a checkpoint a at 49000000000000000000000000001 missing before it, or is the '
                   'clock of a host wrong?\n'
                   'schedule: all of it fits with the line host-a checkpoint a at 49000000000000000000000000001, which '
                   'may be missing: no clock has to be wrong\n')
        for at, here in (('SHARD_END', 'TRIM_HORIZON'), ('5', 'TRIM_HORIZON'), ('TRIM_HORIZON', '')):
            self.story(f'1002 host-a take a at {at}', ['1002 raw 1 take 1/0 1 w1'],
                       here and f'schedule: the input: line 7: host-a take a at {at}: the log begins at {at}, and here '
                       f'the lease begins at {here}: is a checkpoint line missing, or is the clock of a host wrong?\n')
        # what was told before a line that can't be is told
        self.assertEqual((1, b'', f'{NO_LEASE}\nschedule: the input: line 8: host-b has no tenure of b: '
                          'its take, line 7, was refused NoLease\n'),
                         made(text=(START + '1002 host-b take b\n1003 host-b open b\n').encode()))
        self.refused('1002 raw \x1b[31m take b', '?[31m is no name of a host')

    def test_a_line_that_cannot_be(self):
        for text, why in [
                ('1002 host-b open a',
                 'host-b has no tenure of a: expected a line host-b take a before it, by the same process'),
                ('1795961101 host-a renew a',
                 '1795961101 looks like seconds: a moment is in milliseconds, as 1795961101000'),
                ('1795961101000000000 host-a renew a',
                 '1795961101000000000 looks like nanoseconds: a moment is in milliseconds, as 1795961101000'),
                ('1002 host-a take c', 'there is no shard c at this line: expected one that a stream, split or merge '
                 'line, or an api line, makes before it'),
                ('1002 host-a take', 'expected HOST take SHARD'), ('1002 host-a take a b', 'expected HOST take SHARD'),
                ('1002 host-a hand a', 'expected HOST hand off SHARD'),
                ('1002 host-a process a many', 'expected a number of records from 0 to 10000, not many'),
                ('1002 host-a process a 3 up', 'expected HOST process SHARD [N] [to NUMBER]'),
                ('1002 host-a checkpoint a 5', 'expected HOST checkpoint SHARD [at NUMBER | at end]'),
                ('1002 host-a checkpoint a at 49000000000000000000000000002',
                 'no record has the number 49000000000000000000000000002: '
                 'write it after "to" in an earlier records or process line of this shard'),
                ('1002 split a c', 'expected split SHARD LOW HIGH [at HASHKEY]'),
                ('1002 split a c b', 'the shard b is there already: expected a new name'),
                ('1002 merge a a c', 'MergeShards is answered 400 '),
                ('1002 records a 0', 'expected a number of records from 1 to 100000, not 0'),
                ('1002 stream orders x', 'CreateStream is answered 400 '),
                ('1002 host-a t\x1bake a', 'the word after the time is not api'),
                ('1002 raw 1 mark a', 'actor 1 has no tenure of a: '),
                ('1002 raw 1 rows 5', 'the replay ended here: '),
                ('1002 raw', 'after raw: an actor and a command'),
                ('1002 raw 1', 'after raw: an actor and a command'),
                ('1002 records a 2 to 4', '')]:
            with self.subTest(text=text):
                status, out, said = made(text=(START + text + '\n').encode())
                if why:
                    self.assertEqual((1, b'', True, 1),
                                     (status, out, said.startswith(f'schedule: the input: line 7: {why}'),
                                      said.count('\n')), said)
                    self.assertNotIn('\x1b', said)
                else:
                    self.assertEqual(0, status)

    def test_several_streams(self):
        text = START + '1002 stream bills a\n'
        self.assertEqual((1, b'',
                          'schedule: the input: line 8: a is a shard of several streams: expected its stream too, as '
                          'orders/a\n'), made(text=(text + '1003 host-a create a').encode()))
        status, out, said = made(text=(text + '1003 host-a create bills/a').encode())
        self.assertEqual((0, '1003 raw 1 make 2/0', ''), (status, out.decode().splitlines()[-1], said))

    def test_nothing_half_written(self):
        with tempfile.TemporaryDirectory() as folder:
            there = pathlib.Path(folder)
            (there / 'names.txt').write_bytes(b'before')
            self.assertEqual(1, made('--to', folder, text=(START + '1002 host-b open a').encode())[0])
            self.assertEqual({'names.txt': b'before'}, {path.name: path.read_bytes() for path in there.iterdir()})
            self.assertEqual(2, made('--to', folder, there / 'names.txt')[0])
            self.assertEqual(1, made('--to', there / 'names.txt', text=START.encode())[0])
            self.assertEqual(b'before', (there / 'names.txt').read_bytes())
        self.assertEqual((2, b'', 'schedule: --to wants one folder; --help tells the rest\n'), made('--to'))

    def test_outputs_that_take_nothing(self):
        for program, words in ((PROGRAM, ['incident.txt']), (DUMP, ['lease-table-1404.json'])):
            for way in ('> /dev/full', '>&-'):
                if way != '> /dev/full' or os.path.exists('/dev/full'):
                    done = subprocess.run(f'"{program}" {" ".join(words)} {way}', shell=True, cwd=EXAMPLES,
                                          capture_output=True, check=False)
                    self.assertEqual((1, 1), (done.returncode, done.stderr.count(b'\n')), done.stderr)

    def test_any_bytes(self):
        # no text of a stranger ends in a traceback, and a line tells where
        chance, texts = random.Random(7), [example('mid-life-story.txt'), START.encode(),
                                           example('lease-table-1404.json'), example('lease-table-1409.csv')]
        for i in range(40):
            text = bytearray(texts[i % 4])
            for _ in range(chance.randrange(1, 6)):
                at = chance.randrange(len(text))
                text[at:at + chance.randrange(3)] = chance.choice([b'\xff', b'"', b'\0', b' ', b'\n', b'{', b'9' * 300,
                                                                   b'\x1b[2J', b'shardId-000000000017', b'raw', b'end'])
            program = PROGRAM if i % 4 < 2 else DUMP
            with self.subTest(text=bytes(text)), tempfile.NamedTemporaryFile() as file:
                file.write(text)
                file.flush()
                status, out, said = made(file.name, program=program)
                self.assertIn(status, (0, 1))
                self.assertNotIn('Traceback', said)
                self.assertNotIn('\x1b', said)
                self.assertTrue(status == 0 or (out, said.count('\n')) == (b'', 1), said)

    @unittest.skipUnless(shutil.which('awk'), 'there is no awk')
    def test_files_of_a_stranger_on_a_terminal(self):
        # a table of names without the line that ties it to its journal, so that a journal with other lines is read too
        names, tie, rest = example('mid-life.names').split(b'\n', 2)
        self.assertEqual(b'journal 45 1795961320350', tie)
        texts = {'names': names + b'\n' + rest, 'journal': example('mid-life.journal')}
        for script in ('held.awk', 'delivered-twice.awk'):
            plain = [subprocess.run(['awk', '-f', TOOLS / script, *names, 'mid-life.journal'], cwd=EXAMPLES,
                                    capture_output=True, check=True).stdout for names in ([], ['mid-life.names'])]
            self.assertEqual([(True, False), (False, True)], [(b'w1' in text, b'host-a' in text) for text in plain])
            for name in texts:
                odd = texts[name].replace(b'host', b'\x1b[31m').replace(b' w2',
                                                                        b' w\x1b2').replace(b'1/0', b'1/\x07').replace(
                                                                            b'1795961', b'\x1b795961')
                with tempfile.TemporaryDirectory() as folder:
                    for file, text in (texts | {name: odd}).items():
                        (pathlib.Path(folder) / file).write_bytes(text)
                    out = subprocess.run(['awk', '-f', TOOLS / script, 'names', 'journal'], cwd=folder,
                                         capture_output=True, check=True).stdout
                self.assertEqual([], [byte for byte in out if byte < 32 and byte != 10 or byte > 126])

    @unittest.skipUnless(shutil.which('awk'), 'there is no awk')
    def test_files_that_are_no_journal(self):
        for script in ('held.awk', 'delivered-twice.awk'):
            for files in (['../README.md'], ['incident.out'], ['incident.txt'], ['/dev/null'], ['../docs/journal.png'],
                          ['incident.names'], ['incident.names', 'mid-life.journal'],
                          ['incident.journal', 'incident.names']):
                with self.subTest(script=script, files=files):
                    done = subprocess.run(['awk', '-f', TOOLS / script, *files], cwd=EXAMPLES, capture_output=True,
                                          check=False)
                    self.assertEqual((2, b'', 1, True), (done.returncode, done.stdout, done.stderr.count(b'\n'),
                                                         done.stderr.startswith(f'{script}: '.encode())), done.stderr)


# What the logs of three hosts say: a lease goes from a to d in a pause of a, which then delivers 40 records again. The
# words after a | are those of a log that has sequence numbers, and + is the outcome.
INCIDENT = """1000 stream orders x y
2000 a create x
2010 a take x | at TRIM_HORIZON
2020 a open x | at TRIM_HORIZON
3000 c create y
3010 c take y | at TRIM_HORIZON
3020 c open y | at TRIM_HORIZON
10000 a process x 35 | to 49000000000000000000000035
10100 a checkpoint x | at 49000000000000000000000035
20000 a process x 24 | to 49000000000000000000000059
20100 a checkpoint x | at 49000000000000000000000059
30000 a fetch x 40
42000 d take x | at 49000000000000000000000059
42050 d open x | at 49000000000000000000000059
43000 d process x 40 | to 49000000000000000000000099
43100 d checkpoint x | at 49000000000000000000000099
51000 a process x 40 | to 49000000000000000000000099
51100 a checkpoint x | at 49000000000000000000000099 + fails
55000 d process x 11 | to 49000000000000000000000110
55050 d checkpoint x | at 49000000000000000000000110
62000 c process y 20 | to 49000000000000000000000220
62100 c checkpoint y | at 49000000000000000000000220
190000 c restarts
195000 c take y | at 49000000000000000000000220
195100 c open y | at 49000000000000000000000220
200000 d process x 14 | to 49000000000000000000000124
200100 d checkpoint x | at 49000000000000000000000124
"""


class Mistakes(unittest.TestCase):
    """A story with one mistake of whoever wrote it down, or of a clock: an answer that is wrong
    by it isn't given without a word."""

    def told(self, numbers, outcome, change=lambda line: line):
        """How often records are delivered twice by a story with a mistake, and what is told of it."""
        lines = [change(line) for line in INCIDENT.splitlines()]
        lines = [re.sub(r' \| ([^+]*[^+\s])', r' \1' if numbers else '', line) for line in lines if line]
        lines = [line.replace(' + fails', ' fails' if outcome else '') for line in lines]
        with tempfile.TemporaryDirectory() as folder:
            text = '\n'.join(sorted(lines, key=lambda line: int(line.split(' ')[0])))
            status, _, said = made('--to', folder, text=text.encode())
            twice = None
            if not status:
                done = subprocess.run(['awk', '-f', TOOLS / 'delivered-twice.awk', 'names.txt', 'incident.journal'],
                                      cwd=folder, capture_output=True, text=True, check=True)
                twice = int(done.stdout.splitlines()[-1])
        return twice, '\n'.join(line for line in said.splitlines() if 'stood in no records line' not in line)

    @staticmethod
    def late(host, ms, until=10**9):
        """The clock of a host is ahead until a moment."""
        def change(line):
            at, rest = line.split(' ', 1)
            return f'{int(at) + ms} {rest}' if rest.startswith(f'{host} ') and int(at) < until else line
        return change

    @staticmethod
    def without(start):
        return lambda line: '' if line.startswith(start) else line

    def test_the_right_story(self):
        self.assertEqual((40, ''), self.told(True, True))
        self.assertEqual((40, ''), self.told(False, True))

    def test_a_clock_that_is_ahead(self):
        for numbers in (True, False):
            with self.subTest(numbers=numbers):
                twice, said = self.told(numbers, True, self.late('d', 14_000, 180_000))
                self.assertEqual(0, twice)
                self.assertRegex(said, r'line \d+: a checkpoint x .*fails: '
                                 r'the log says that it failed, and the replay answers ok counter \d')
                # the lease was taken 11,900 ms or more after the last line of a before it, and at most 9,100 ms before
                # the next: the clock is ahead by 14,000 ms
                self.assertIn('schedule: all of it fits if the clock of d is ahead by ', said)
                least, most = map(float, re.search(r'ahead by ([\d.]+) to ([\d.]+) s', said).groups())
                self.assertTrue(least <= 14 <= most, said)

    def test_a_clock_that_nothing_checks(self):
        twice, said = self.told(False, False, self.late('d', 14_000, 180_000))
        self.assertEqual(0, twice)
        self.assertRegex(said, '^schedule: nothing checks the clocks of a and d against each other: '
                         'their lines of x have neither a number')

    def test_a_checkpoint_line_is_missing(self):
        for numbers, phrase in ((True,
                                 r'line 12: d take x at 49000000000000000000000059: '
                                 r'the log begins at 49000000000000000000000059, and here the lease begins at '
                                 r'49000000000000000000000035: '
                                       r'is the line a checkpoint x at 49000000000000000000000059 missing before it'),
                                (False, r'line 13: d open x: a had processed 24 records above record 35, where the '
                                 r'lease begins here, .* is a line a checkpoint x missing before it')):
            twice, said = self.told(numbers, True, self.without('20100'))
            self.assertEqual(64, twice)
            self.assertRegex(said, phrase)
            line = ('schedule: all of it fits with the line a checkpoint x at 49000000000000000000000059, which may be '
                    'missing: no clock has to be wrong')
            self.assertEqual(numbers, line in said)

    def test_a_line_is_missing_and_a_clock_is_ahead(self):
        twice, said = self.told(True, True,
                                lambda line: '' if line.startswith('20100') else self.late('d', 14_000, 180_000)(line))
        self.assertEqual(0, twice)
        self.assertRegex(said, r'schedule: all of it fits if the clock of d is ahead by [\d.]+ to [\d.]+ s: '
                         r'its times would be that much earlier, and if the line '
                               r'a checkpoint x at 49000000000000000000000059 is missing')

    def test_a_process_line_is_missing(self):
        self.assertRegex(self.told(False, True, self.without('55000'))[1],
                         'line 19: d checkpoint x: nothing was processed since the checkpoint before it: '
                         'is a process line missing')
        self.assertRegex(self.told(True, True, self.without('55000'))[1],
                         'line 19: 49000000000000000000000110 would be record 99, ')

    def test_a_take_line_is_missing(self):
        for numbers in (True, False):
            self.assertRegex(self.told(numbers, True, self.without('42000'))[1],
                             r'line 13: d has no tenure of x: expected a line d take x before it')

    def test_what_needs_no_word(self):
        anew = lambda line: re.sub(r'^(19[5-9]\d+) c', r'\1 c:two', line) if not line.startswith('190000') else ''
        for change in (self.without('190000'), anew):
            self.assertEqual(40, self.told(True, True, change)[0])

    def test_a_long_story(self):
        more = ''.join(f'{300_000 + i} d renew x\n' for i in range(2000))
        status, _, said = made(text=(re.sub(r' [|+] ', ' ', INCIDENT).replace('fails', '') + more).encode())
        self.assertEqual((0, True),
                         (status, 'schedule: whether the clock of a host is wrong was not tried: '
                          'the story has more than 2000 lines' in said))


FIRST, SECOND = (f'490000000000000000000000000000000000000000000000000000{it}' for it in (11, 22))
# The clock of b is 11 s behind.
TWO_HOSTS = {'s.txt': f"""2026-12-01T10:00:00Z stream s A
2026-12-01T10:00:01Z a create A
2026-12-01T10:00:02Z a take A
2026-12-01T10:00:03Z a open A
2026-12-01T10:00:05Z a process A 2 to {FIRST}
2026-12-01T10:00:06Z a checkpoint A at {FIRST}
2026-12-01T10:01:00Z a process A 2 to {SECOND}
2026-12-01T10:01:00.100Z a checkpoint A at {SECOND}
2026-12-01T10:01:00.130Z a release A
""", 'b.txt': f"""2026-12-01T10:00:49.600Z b take A
2026-12-01T10:00:49.650Z b open A at {SECOND}
"""}
RIGHT = {'s.txt': TWO_HOSTS['s.txt'], 'b.txt': TWO_HOSTS['b.txt'].replace('10:00:49', '10:01:00')}


class Causes(unittest.TestCase):
    """What is told of the cause, where a story is answered otherwise than its log says."""

    def told(self, files, *before):
        with tempfile.TemporaryDirectory() as folder:
            for name, text in files.items():
                (pathlib.Path(folder) / name).write_text(text)
            _, _, said = made(*before, *files, cwd=folder)
        return [line for line in said.splitlines() if 'stood in no records line' not in line]

    def of_the_middle(self, host, minutes):
        """The story of the middle of a life, with the clock of a host behind."""
        back = lambda found: f'T14:{int(found[1]) - minutes:02}' if f' {host} ' in found.string else found[0]
        lines = example('mid-life-story.txt').decode().splitlines()
        lines = [re.sub('T14:(..)', back, line, count=1) for line in lines]
        own = [line for line in lines if f' {host} ' in line]
        others = [line for line in lines if line not in own]
        files = {'own.txt': '\n'.join(own), 'others.txt': '\n'.join(others)}
        return self.told(files, EXAMPLES / 'mid-life-beginning.txt')

    def bounds(self, said, host, way):
        """The bounds that are told of a clock, in seconds."""
        form = f'the clock of {host} is {way} by (?:more than )?([0-9.]+)(?: to ([0-9.]+))? s'
        found = [re.search(form, line) for line in said]
        return [(float(it[1]), float(it[2] or 'inf')) for it in found if it]

    def test_a_line_before_the_beginning(self):
        said = self.of_the_middle('host-a', 1)
        self.assertEqual('schedule: own.txt: line 1: it is 47.7 s before the beginning of the story at '
                         '2026-11-29T14:04:00Z: leave it out, or is a clock behind?', said[0])
        [(low, high)] = self.bounds(said, 'host-a', 'behind')
        self.assertTrue(low < 60 < high, said)

    def test_a_lease_that_is_held_since_the_dump(self):
        said = self.of_the_middle('host-b', 1)
        self.assertTrue(any(low < 60 < high for low, high in self.bounds(said, 'host-b', 'behind')), said)

    def test_all_shifts_that_fit(self):
        said = self.told(TWO_HOSTS)
        # its lease is free from 10:01:00.130 on, and it takes it at 10:00:49.600 by its own clock
        self.assertEqual([(10.53, float('inf'))], self.bounds(said, 'b', 'behind'))
        self.assertEqual([], [line for line in said if 'the line' in line])
        self.assertIn('Not tried: two wrong clocks, a clock that drifts or jumps, a missing line other than a '
                      'checkpoint', said[-1])

    def test_shifts_a_millisecond_wide(self):
        # all renewals of both hosts are some milliseconds apart, and some orders of them last for one
        a = ['1000 stream s A', '1010 a create A', '1020 a take A', '1030 a open A', f'2000 a process A 2 to {FIRST}',
             f'3000 a checkpoint A at {FIRST}', *(f'{3100 + 7 * i} a renew A' for i in range(5)), '3200 a release A']
        b = [f'{4000 - 2300} b take A at {FIRST}', *(f'{4001 + 6 * i - 2300} b renew A' for i in range(9))]
        said = self.told({'a.txt': '\n'.join(a), 'b.txt': '\n'.join(b)})
        self.assertTrue(any(low < 2.3 < high for low, high in self.bounds(said, 'b', 'behind')), said)

    def test_times_that_go_back(self):
        said = self.told({'all.txt': RIGHT['s.txt'] + RIGHT['b.txt'], 'b.txt': ''})
        self.assertEqual([], said)
        said = self.told({'all.txt': RIGHT['b.txt'].replace('10:01', '10:02') + RIGHT['s.txt']})
        self.assertEqual('schedule: all.txt: line 3 is 2 min before the line above it, and lines of a file keep their '
                         'order: write a file for each host, or sort it. All of it fits then', said[0])
        self.assertEqual([], [line for line in said if 'clock of' in line and 'all of it' in line])

    def test_a_line_that_stands_twice(self):
        line = f'2026-12-01T10:01:00Z a process A 2 to {SECOND}\n'
        said = self.told(RIGHT | {'s.txt': RIGHT['s.txt'].replace(line, line * 2)})
        self.assertEqual('schedule: s.txt: line 8 is the same as line 7, word for word and moment: does it stand there '
                         'twice? All of it fits then', said[0])

    def test_hosts_that_may_be_one(self):
        for other, by in (('B', 'capital letters'), ('b:4c1f0d2e-8a11-4b0e-9a70-2f6f5c7f1b01', 'a UUID')):
            said = self.told(RIGHT | {'b.txt': RIGHT['b.txt'].replace('b open', f'{other} open')})
            self.assertEqual(f'schedule: the hosts b and {other} differ by {by} alone: if they are one, use one name. '
                             'All of it fits then', said[0])
            lacks = f'expected a line {other} take A before it, by the same process; b has the lease'
            self.assertTrue(said[1].endswith(lacks), said)

    def test_no_clock_is_looked_for(self):
        lacks = 'b has no tenure of A: expected a line b take A before it, by the same process'
        said = self.told(RIGHT | {'b.txt': RIGHT['b.txt'].split('\n', 1)[1]})
        self.assertEqual([f'schedule: b.txt: line 1: {lacks}'], said)
        said = self.told(RIGHT | {'b.txt': '2026-12-01T10:01:00.600Z b open A\n2026-12-01T10:01:00.650Z b take A\n'})
        self.assertEqual([f'schedule: b.txt: line 1: {lacks}, and b.txt: line 2 is that line: do the two stand in the '
                          'wrong order?'], said)

    def test_seconds_with_a_point(self):
        self.assertEqual('schedule: the input: line 1: 1796119262.600 looks like seconds: a moment is in milliseconds, '
                         'as 1796119262600\n', made(text=b'1796119262.600 a take A')[2])


class Dumps(unittest.TestCase):
    def test_what_a_dump_says(self):
        self.assertEqual((0, example('lease-table-1404.out'), ''), of_files(DUMP, 'lease-table-1404.json'))
        self.assertEqual((0, example('lease-table-1409.out'), ''),
                         of_files(DUMP, 'lease-table-1404.json', 'lease-table-1409.csv'))

    def test_what_two_dumps_say(self):
        first = {'leaseKey': 's0', 'checkpoint': '5', 'leaseOwner': 'h'}
        rows = lambda counter, *more: '\n'.join(json.dumps(it) for it in ({**first, 'leaseCounter': counter}, *more))
        with tempfile.TemporaryDirectory() as folder:
            pathlib.Path(folder, 'one').write_text(rows('7'))
            pathlib.Path(folder, 'two').write_text(rows('9', {'leaseKey': 's1', 'checkpoint': 'TRIM_HORIZON',
                                                              'parentShardId': ['s0']}))
            status, out, said = made('one', 'two', program=DUMP, cwd=folder)
            self.assertEqual((0, '', b'\ns1 now waits for s0\n'), (status, said, out[-21:]))
            turned = made('two', 'one', program=DUMP, cwd=folder)[1]
            self.assertTrue(turned.startswith(b'All counters fell: are the two dumps in the wrong order?'))

    def dumped(self, text, *words):
        with tempfile.TemporaryDirectory() as folder:
            pathlib.Path(folder, 'table').write_text(text)
            status, out, said = made(*words, 'table', program=DUMP, cwd=folder)
        return status, out.decode(), said

    def test_two_dumps_of_which_some_rows_stayed(self):
        row = lambda i, it: {'leaseKey': f's{i}', 'checkpoint': '5', 'leaseOwner': 'h', 'leaseCounter': str(it)}
        rows = lambda *counters: '\n'.join(json.dumps(row(i, it)) for i, it in enumerate(counters))
        for one, other, turned in (((5, 7), (4, 7), True), ((5, 7), (5, 7), False), ((5, 7), (4, 8), False),
                                   ((5, 7), (9, 9), False)):
            with tempfile.TemporaryDirectory() as folder:
                for name, counters in (('one', one), ('two', other)):
                    pathlib.Path(folder, name).write_text(rows(*counters))
                self.assertEqual(turned,
                                 made('one', 'two', program=DUMP, cwd=folder)[1].startswith(b'All counters fell'))

    def test_a_table_that_is_cut_off(self):
        items = [json.loads(line)['Item'] for line in example('lease-table-1404.json').splitlines()]
        for mark in ('NextToken', 'LastEvaluatedKey'):
            text = json.dumps({'Items': items, 'Count': 4, mark: 'x'})
            said = (f'The dump has a {mark}, so the table has more rows than these: scan it without --max-items and '
                    f'--no-paginate.')
            self.assertEqual((0, f'{said}\n\n' + example('lease-table-1404.out').decode(), ''), self.dumped(text))
            status, out, warned = self.dumped(text, '--story', 'payments', '--at', '5')
            self.assertEqual((0, f'# {said}', f'dump: table: {said}\n'), (status, out.splitlines()[1], warned))

    def test_several_streams(self):
        keys = ['123456789012:orders:7:shardId-000000000000', '123456789012:bills:8:shardId-000000000000',
                '123456789012:bills:8:shardId-000000000001']
        text = '\n'.join(json.dumps({'leaseKey': key, 'checkpoint': '77777777777777777777777', 'leaseOwner': 'h'})
                         for key in keys)
        status, out, said = self.dumped(text, '--story', 'bills', '--at', '5')
        self.assertEqual((0, '5 stream bills shardId-000000000000 shardId-000000000001', ''),
                         (status, out.splitlines()[1], said))
        self.assertEqual((0, ''), made(text=out.encode())[::2])
        self.assertEqual((1, '', 'dump: the dump has leases of several streams, 123456789012:bills:8, '
                          '123456789012:orders:7: expected one of the name payments, as --story STREAM takes it\n'),
                         self.dumped(text, '--story', 'payments', '--at', '5'))
        again = text + '\n' + json.dumps({'leaseKey': '123456789012:bills:9:shardId-000000000000', 'checkpoint': '5'})
        self.assertIn('expected no more than one of the name bills',
                      self.dumped(again, '--story', 'bills', '--at', '5')[2])

    def test_the_same_from_each_form(self):
        lines = [json.loads(line)['Item'] for line in example('lease-table-1404.json').splitlines()]
        simple = [{name: next(iter(value.values())) for name, value in item.items()} for item in lines]
        names = ['leaseKey', 'leaseOwner', 'leaseCounter', 'checkpoint', 'parentShardId',
                 'ownerSwitchesSinceCheckpoint']
        table = ('\ufeff' + ','.join(names) + '\r\n'
                 + ''.join(','.join(it.get(name, '') if name != 'parentShardId' else ' '.join(it.get(name, []))
                                    for name in names) + '\r\n' for it in simple))
        for text in (json.dumps({'Items': lines, 'Count': 4}), json.dumps(lines), '\n'.join(map(json.dumps, lines)),
                     json.dumps(simple), table):
            with self.subTest(text=text[:30]), tempfile.NamedTemporaryFile('w') as file:
                file.write(text)
                file.flush()
                self.assertEqual((0, example('lease-table-1404.out'), ''), made(file.name, program=DUMP))

    def beginning(self, rows, *more):
        with tempfile.TemporaryDirectory() as folder:
            pathlib.Path(folder, 'table').write_text('\n'.join(json.dumps(it) for it in rows))
            ranges = [{'StartingHashKey': str(at), 'EndingHashKey': str(end)}
                      for at, end in ((9, 12), (5, 8), (9, 10), (11, 12))]
            shards = [{'ShardId': f's{i}', 'HashKeyRange': one} for i, one in enumerate(ranges)]
            pathlib.Path(folder, 'shards').write_text(json.dumps({'Shards': shards}))
            status, out, said = made('--story', 'orders', '--at', '5', *more, 'table', program=DUMP, cwd=folder)
        self.assertEqual((0, ''), (status, said))
        status, _, said = made(text=out)
        self.assertEqual((0, ''), (status, said), out.decode())
        return [line[2:] for line in out.decode().splitlines() if not line.startswith('#')]

    def test_beginnings(self):
        # a split parent at its end, a merge, a child that has begun, a shard that ended without children, parents that
        # are gone
        ended, first = {'checkpoint': 'SHARD_END'}, {'checkpoint': 'TRIM_HORIZON', 'leaseOwner': 'h'}
        child = {'leaseKey': 's2', 'parentShardId': ['s0'], 'checkpoint': '49668412027348205713498722',
                 'leaseOwner': 'h'}
        lines = self.beginning([{'leaseKey': 's0', **ended}, child,
                                {'leaseKey': 's3', 'parentShardId': ['s0'], **first}])
        self.assertEqual(['stream orders s0', 'split s0 s2 s3', 'before checkpoint s0 at end',
                          'h checkpoint s2 at 49668412027348205713498722', 'h open s3'],
                         [it for it in lines if it.split()[0] in ('stream', 'split') or 'at' in it.split()
                          or it == 'h open s3'])
        lines = self.beginning([{'leaseKey': 's0', **ended}, {'leaseKey': 's1', **ended},
                                {'leaseKey': 's2', 'parentShardId': ['s0', 's1'], **first}], '--shards', 'shards')
        self.assertEqual(['stream orders s1 s0', 'merge s1 s0 s2', 'h open s2'],
                         [it for it in lines if it.split()[0] in ('stream', 'merge') or it == 'h open s2'])
        self.assertIn('split s0 s0-low s0-high', self.beginning([{'leaseKey': 's0', **ended}]))
        self.assertEqual('stream orders s2', self.beginning([child])[0])
        self.assertIn('split s0 s2 other-of-s2', self.beginning([{'leaseKey': 's0', 'checkpoint': 'SHARD_END'}, child]))
        # children that were begun before their parent's end, one of them, both, and one of a merge
        open_parent = {'leaseKey': 's0', 'checkpoint': '49668412027348205713498711', 'leaseOwner': 'h',
                       'childShardIds': ['s2', 's3']}
        other = {'leaseKey': 's3', 'parentShardId': ['s0'], **first}
        lines = self.beginning([open_parent, child, other])
        self.assertEqual(['stream orders s0 s2', 'h checkpoint s0 at 49668412027348205713498711',
                          'split s0 s3 other-of-s3', 'h checkpoint s2 at 49668412027348205713498722'],
                         [it for it in lines if it.split()[0] in ('stream', 'split') or 'at' in it.split()])
        self.assertEqual('stream orders s0 s2 s3',
                         self.beginning([open_parent, child, {**other, 'checkpoint': '49668412027348205713498733'}])[0])
        self.assertEqual('stream orders s0 s2', self.beginning([open_parent, {**child, **ended}])[0])
        lines = self.beginning([open_parent, {'leaseKey': 's1', **ended}, {**child, 'parentShardId': ['s0', 's1']}])
        self.assertEqual(['stream orders s0 s1 s2', 'split s1 s1-low s1-high'],
                         [it for it in lines if it.split()[0] in ('stream', 'split', 'merge')])
        one = 'ip-1:4c1f0d2e-8a11-4b0e-9a70-2f6f5c7f1b01'
        for owners, hosts in (([one], ['ip-1']), ([one, one[:-1] + '2'], [one, one[:-1] + '2']),
                              ([one, 'ip-1'], [one, 'ip-1']), (['host:7'], ['host:7'])):
            lines = self.beginning([{'leaseKey': f's{i}', 'checkpoint': '77777777777777777777777', 'leaseOwner': it}
                                    for i, it in enumerate(owners)])
            self.assertEqual(hosts, [line.split()[0] for line in lines if ' take ' in line])
        self.assertIn('before release s0',
                      self.beginning([{'leaseKey': 's0', 'checkpoint': '77777777777777777777777'}]))
        self.assertIn('before create s0 latest', self.beginning([{'leaseKey': 's0', 'checkpoint': 'AT_TIMESTAMP'}]))
        self.assertIn('merge s0 s1 s2',
                      self.beginning([{'leaseKey': 's0', **ended},
                                      {'leaseKey': 's2', 'parentShardId': ['s0', 's1'], **first}]))

    def test_what_cannot_be_read_is_told(self):
        for text, why in [(b'', "line 1: expected JSON, or CSV whose first line names leaseKey and checkpoint"),
                          (b'\x1f\x8bx', 'is compressed: gunzip it first'),
                          (b'\xff\xfe', "isn't text: expected JSON or CSV"),
                          (b'{"a":1}', 'line 1: leaseKey is missing: expected a name without spaces, of ASCII'),
                          (b'{"Items":[]}', 'there is no lease in it'),
                          (b'{"leaseKey":"a","checkpoint":"5"}\nx', "line 2: isn't JSON"),
                          (b'{"leaseKey":"a","checkpoint":"x"}',
                           'line 1: the checkpoint x: expected a sequence number, TRIM_HORIZON, LATEST, AT_TIMESTAMP '
                           'or SHARD_END'),
                          (b'leaseKey,checkpoint\na,5\na,5\n', 'line 3: the lease a stands here twice'),
                          (b'[' * 100_000, "line 1: isn't JSON"),
                          (b'leaseKey,checkpoint,leaseCounter\na,5,x\n',
                           'line 2: leaseCounter is x: expected a number')]:
            with self.subTest(text=text[:40]), tempfile.NamedTemporaryFile() as file:
                file.write(text)
                file.flush()
                status, out, said = made(file.name, program=DUMP)
                self.assertEqual((1, b'', f'dump: {file.name}: {why}\n'),
                                 (status, out, said.replace('item 1: ', 'line 1: ')))

    def test_words(self):
        self.assertEqual(1, made('no such file', program=DUMP)[0])
        for words in ([], ['--zone', 'a'], ['a', 'b', 'c'], ['--story', 's', '--at', '2026-11-29T14:04:00', 'a'],
                      ['--story', 's', 'a'], ['--at', '5', 'a'], ['--story'], ['--story', 'a b', '--at', '5', 'a'],
                      ['--story', 'a', '--at', 'noon', 'a']):
            with self.subTest(words=words):
                status, out, said = made(*words, program=DUMP)
                self.assertEqual((2, b'', 1), (status, out, said.count('\n')))
        status, out, _ = made('--help', program=DUMP)
        self.assertEqual((0, True), (status, b'tools/dump EARLIER LATER' in out))


if __name__ == '__main__':
    unittest.main()
