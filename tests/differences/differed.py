"""`tools/differences` itself: against `kds`, against servers whose differences are known, ended in the middle, and
where nothing can leave the machine. And docs/differences.md: each row has a case, and its table of moto is what
comes."""
import collections
import concurrent.futures
import contextlib
import importlib.metadata
import importlib.util
import json
import os
import re
import signal
import subprocess
import sys
import tempfile
import time
import unittest

import alone
import trials as trial
from differences import planted
from differences.behind import Front, standing
from differences.stand import Stand
from differences.unnamed import UNNAMED, entries
from differing import catalogue, operations, options, page, verdict
from differing.endpoint import Endpoint
from differing.runner import run as run_cases
from differing.streams import Streams
from lib.server import ROOT, free_port, serving
from service.snippet import listens

SCRIPT = ROOT / 'tools' / 'differences'
SCENES = catalogue.scenes()
NAMES = [f'{one.scene}: {one.name}' for scene in SCENES for one in scene.cases]
AMAZON = 'kinesis.us-east-1.amazonaws.com 443'
# from which version on a client reads AWS_ENDPOINT_URL_KINESIS (docs/clients.md)
READS = {('AWS CLI', 1): (1, 29), ('AWS CLI', 2): (2, 13), ('boto3', 1): (1, 28)}
# the cases that Stand answers as the reference says
AS_REFERENCE = {
    'protocol: the header x-amzn-RequestId of a reply',
    'protocol: a chunked body',
    'protocol: what comes for Expect: 100-continue within 2 seconds',
    'operations: LocalEnforceLimits',
    'members: members that DescribeStream lacks',
    'members: members that DescribeStreamSummary lacks',
    'members: members that PutRecord lacks',
    'members: members that PutRecords lacks',
    'members: members that a record of GetRecords lacks',
    'members: the times in replies',
    'refusals: a StartingSequenceNumber of 56 digits',
    'limits: 30 DescribeStreamSummary at once',
    'limits: two records of 600,000 bytes within a second, after LocalEnforceLimits',
    'splitting: the status right after SplitShard',
    'scaling: members that UpdateShardCount lacks',
    'streams: the status right after CreateStream',
    'streams: the ARN',
    'streams: the status right after DeleteStream',
}


def run(*words, **variables):
    there = os.environ | variables
    return subprocess.run([SCRIPT, *words], capture_output=True, text=True, timeout=600, check=False, env=there)


def came(done):
    """The verdict on each case, by its name."""
    found = {}
    for line in done.stdout.splitlines():
        how = next((each for each in verdict.ORDER if line.startswith(f'{each:<17} ')), None)
        name = next((each for each in NAMES if line[18:].startswith(f'{each}: ')), None)
        if how and name:
            found[name] = how
    return found


def left(port):
    """The streams that are on a server of this machine."""
    endpoint = Endpoint(f'http://127.0.0.1:{port}', 'us-east-1', 0)
    try:
        return endpoint.call('ListStreams')['StreamNames']
    finally:
        endpoint.drop()


class Page(unittest.TestCase):
    """The page beside the cases. No server is asked."""

    text = page.PAGE.read_text()
    lines = text.splitlines(keepends=True)

    def test_each_row_has_a_case_or_a_reason(self):
        self.assertEqual([], list(page.faults(SCENES)))

    def test_a_row_that_is_removed_is_named(self):
        found = list(page.placed(self.text))
        self.assertGreater(len(found), 70)
        for at, row in found:
            with self.subTest(row=row):
                faults = list(page.faults(SCENES, ''.join(self.lines[:at] + self.lines[at + 1 :])))
                self.assertEqual([f'a case or a reason has no row in docs/differences.md: {": ".join(row)}'], faults)

    def test_a_row_that_is_added_is_named(self):
        """Beside the first row of each section."""
        seen = set()
        for at, (section, _) in page.placed(self.text):
            if section not in seen:
                seen.add(section)
                line = '- **Teapots.** None.\n' if self.lines[at].startswith('- ') else '| Teapots | a | b | c |\n'
                faults = list(page.faults(SCENES, ''.join(self.lines[:at] + [line] + self.lines[at:])))
                self.assertEqual(1, len(faults), faults)
                self.assertTrue(faults[0].endswith(f'tools/differing/page.py: {section}: Teapots'), faults)
        self.assertEqual(4, len(seen))

    def test_words_that_are_none(self):
        for words, part in (
            (['--only', 'teapots'], "no case has 'teapots'"),
            (['--endpoint', 'localhost:4567'], 'an endpoint is http://HOST:PORT'),
            (['--endpoint', 'http://localhost:99999'], 'an endpoint is http://HOST:PORT'),
            (['--endpoint', 'http://192.0.2.1'], '192.0.2.1 is not this machine. With --yes'),
            (['--endpoint', f'http://127.0.0.1:{free_port()}'], 'Connection refused'),
        ):
            done = run(*words)
            self.assertEqual((2, '', 1), (done.returncode, done.stdout, done.stderr.count('\n')), done.stderr)
            self.assertIn(part, done.stderr)


class Runs(unittest.TestCase):
    """Whole runs, which wait more than they work, so they are made at once."""

    @classmethod
    def setUpClass(cls):
        with contextlib.ExitStack() as stack:
            # each has a server of its own: the stand-in counts the open shards of all streams on its server
            cls.server, cls.other = (stack.enter_context(serving(members=64)) for _ in range(2))
            cls.stand = stack.enter_context(standing(Stand(cls.server.port)))
            three = stack.enter_context(standing(planted.Three(cls.other.port)))
            pool = stack.enter_context(concurrent.futures.ThreadPoolExecutor(3))
            cls.as_reference = pool.submit(run, '--endpoint', cls.stand.endpoint)
            cls.faulty = pool.submit(run, '--endpoint', three.endpoint)
            cls.own = pool.submit(run)
            cls.addClassCleanup(stack.pop_all().close)

    def test_kds_does_what_its_page_says(self):
        done = self.own.result()
        self.assertEqual(0, done.returncode, done.stdout + done.stderr)
        self.assertEqual(set(NAMES), set(came(done)))
        self.assertLessEqual(set(came(done).values()), {verdict.SAME, verdict.KDS, verdict.UNTRIED})

    def test_a_server_that_does_what_the_reference_says(self):
        done = self.as_reference.result()
        found = came(done)
        self.assertEqual(AS_REFERENCE, {name for name in found if found[name] == verdict.REFERENCE}, done.stdout)
        self.assertEqual([], [name for name in found if found[name] == verdict.OTHERWISE], done.stdout)
        for scene in SCENES:
            for one in scene.cases:
                if one.row is None:
                    self.assertEqual(verdict.SAME, found[f'{scene.name}: {one.name}'], one.name)
        self.assertLessEqual(self.stand.most, 3)

    def test_planted_faults_are_named(self):
        done = self.faulty.result()
        self.assertEqual(1, done.returncode, done.stderr)
        wrong = {name.split(': ', 1)[1] for name, how in came(done).items() if how == verdict.OTHERWISE}
        self.assertEqual({name for names in planted.SEEN_BY.values() for name in names}, wrong, done.stdout)

    def test_an_interrupt_leaves_nothing(self):
        """In the middle of calls, of waits for ACTIVE, and of a deletion."""
        for sign, seconds in ((signal.SIGINT, 0.1), (signal.SIGTERM, 1), (signal.SIGINT, 3), (signal.SIGHUP, 4.5)):
            with standing(Stand(self.server.port)) as stand, self.subTest(sign=sign.name, seconds=seconds):
                words = [SCRIPT, '--endpoint', stand.endpoint]
                with subprocess.Popen(words, stdout=subprocess.DEVNULL, stderr=subprocess.PIPE, text=True) as process:
                    stem = next(
                        found[1] for line in process.stderr if (found := re.search(r'streams (\S+)-\.\.', line))
                    )
                    time.sleep(seconds)
                    process.send_signal(sign)
                    said = process.communicate(timeout=60)[1]
                self.assertEqual(128 + sign, process.returncode, said)
                self.assertEqual([], [name for name in left(self.server.port) if name.startswith(stem)])

    def test_nothing_is_left(self):
        for done in (self.as_reference, self.faulty):
            done.result()
        self.assertEqual([[], []], [left(server.port) for server in (self.server, self.other)])


class Ended(unittest.TestCase):
    """Runs that end early, whose streams are deleted all the same."""

    @classmethod
    def setUpClass(cls):
        cls.server = cls.enterClassContext(serving(members=64))
        cls.endpoint = ['--endpoint', cls.server.endpoint]

    def tearDown(self):
        self.assertEqual([], left(self.server.port))

    def assert_ended(self, status, part, done):
        """By one line after the one that names the streams."""
        lines = [line for line in done.stderr.splitlines() if not re.search(': streams kds-|[0-9] calls, ', line)]
        self.assertEqual((status, 1), (done.returncode, len(lines)), done.stderr)
        self.assertIn(part, lines[0])

    def test_the_output_is_closed(self):
        """After its first line, in the middle of a scene."""
        words = [SCRIPT, *self.endpoint]
        with subprocess.Popen(words, stdout=subprocess.PIPE, stderr=subprocess.PIPE, text=True) as one:
            one.stdout.readline()
            one.stdout.close()
            done = subprocess.CompletedProcess([], one.wait(60), None, one.stderr.read())
        self.assert_ended(2, "the output can't be written: Broken pipe", done)

    def test_both_outputs_are_closed(self):
        with subprocess.Popen([SCRIPT, *self.endpoint], stdout=subprocess.PIPE, stderr=subprocess.STDOUT) as one:
            one.stdout.readline()
            one.stdout.close()
            self.assertEqual(2, one.wait(60))

    def test_the_disk_is_full(self):
        for words in ([], ['--table'], ['--list']):
            with self.subTest(words=words), open('/dev/full', 'w') as full:
                done = subprocess.run([SCRIPT, *self.endpoint, *words], stdout=full, stderr=subprocess.PIPE, text=True,
                                      timeout=600, check=False)
                self.assert_ended(2, "the output can't be written: No space left on device", done)

    def test_an_interrupt_of_a_pipeline(self):
        """Ctrl-C ends tee too."""
        tee = subprocess.Popen(['tee', '/dev/null'], stdin=subprocess.PIPE, stdout=subprocess.DEVNULL, process_group=0)
        with subprocess.Popen([SCRIPT, *self.endpoint], stdout=tee.stdin, stderr=subprocess.PIPE, text=True,
                              process_group=tee.pid) as one:
            tee.stdin.close()
            one.stderr.readline()
            time.sleep(2)
            os.killpg(tee.pid, signal.SIGINT)
            done = subprocess.CompletedProcess([], one.wait(60), None, one.stderr.read())
        tee.wait()
        self.assert_ended(130, 'ended by SIGINT', done)

    def test_answers_that_are_lost(self):
        """Every second one to CreateStream or DeleteStream. A case that needed one is named, and the others run."""
        for operation in ('CreateStream', 'DeleteStream'):
            with self.subTest(operation), standing(planted.Lost(self.server.port, operation)) as front:
                done = run('--endpoint', front.endpoint)
                self.assertEqual(1, done.returncode, done.stderr)
                self.assertEqual(set(NAMES), set(came(done)))
                self.assertIn('no answer', done.stdout)

    def test_settings_of_botocore(self):
        """For a server on this machine none is read."""
        with tempfile.NamedTemporaryFile('w') as file:
            file.write('garbage[')
            file.flush()
            for name, value, part in (('AWS_PROFILE', 'nosuch', 'The config profile (nosuch) could not be found'),
                                      ('AWS_CONFIG_FILE', file.name, 'Unable to parse config file')):
                with self.subTest(name):
                    done = run('--only', 'a stream name with a space', *self.endpoint, **{name: value})
                    self.assertEqual((0, 1), (done.returncode, done.stderr.count('\n')), done.stderr)
                    done = run('--only', 'retention', **{name: value})
                    self.assertEqual(0, done.returncode, done.stderr)
                    done = run('--endpoint', 'http://192.0.2.1', '--yes', **{name: value})
                    self.assert_ended(2, part, done)


class Counted(Front):
    """Counts what a run makes."""

    def __init__(self, behind):
        super().__init__(behind)
        self.counts = collections.Counter()

    def answer(self, operation, members):
        status, told = self.forward(operation, members)
        self.counts['calls'] += 1
        if status == 200:
            self.counts['streams'] += operation == 'CreateStream'
            shards = {'CreateStream': members.get('ShardCount'), 'SplitShard': 2, 'MergeShards': 1}
            self.counts['shards'] += shards.get(operation, 0)
            records = {'PutRecord': [members], 'PutRecords': members.get('Records')}.get(operation, [])
            self.counts['records'] += len(records)
            self.counts['bytes'] += sum(len(record['Data']) * 3 // 4 for record in records)
        return status, told


class Faults(unittest.TestCase):
    """Servers with one fault each (planted.py). Each fault is named by a case, or stands in a list with the
    reason (unnamed.py)."""

    @classmethod
    def setUpClass(cls):
        done = subprocess.run([trial.__file__], capture_output=True, text=True, timeout=900, check=False)
        if done.returncode:
            raise AssertionError(done.stderr)
        cls.trials = [json.loads(line) for line in done.stdout.splitlines()]

    def test_each_is_named_or_has_a_reason(self):
        wrong = [one for one in self.trials if bool(one['named']) == bool(entries(one['fault']))]
        self.assertEqual([], wrong)

    def test_each_reason_is_of_a_fault(self):
        """And one fault has one reason. Older models know fewer members."""
        found = {entry for one in self.trials for entry in entries(one['fault'])}
        self.assertEqual([], [entry for entry in UNNAMED if entry not in found and self.is_known(entry)])
        self.assertEqual([], [one for one in self.trials if len(entries(one['fault'])) > 1])

    def is_known(self, entry):
        """Whether the installed model has the member of a reason, if it is of one."""
        operation, _, path = entry.split(' ')[0].partition('.')
        if operation not in operations.SERVED:
            return True
        return any(page.has(shape, path.split('.')[-1]) for shape in page.shapes(trial.model(), operation))

    def test_a_fault_that_is_named_changed_something(self):
        self.assertEqual([], [one for one in self.trials if one['named'] and not one['used']])

    def test_nothing_is_left(self):
        self.assertEqual([], [one for one in self.trials if one['left'] or one.get('status') == 3])

    def test_a_run_ends_by_itself(self):
        self.assertEqual([], [one for one in self.trials if 'ended by' in one.get('said', '')])

    def test_there_is_one_for_each_member(self):
        """Of each reply and of each request, by the model itself."""
        tried = ' '.join(one['fault'] for one in self.trials)
        for operation in operations.SERVED:
            told = trial.model().operation_model(operation)
            for shape in (told.input_shape, told.output_shape):
                for name in (shape.members if shape else {}):
                    if name not in planted.NAMING or shape is told.output_shape:
                        self.assertIn(f'{operation}.{name}', tried)

    def test_what_help_says_of_a_run(self):
        """As it would be on a server elsewhere."""
        with serving(members=40) as server, standing(Counted(server.port)) as front:
            endpoint = Endpoint(front.endpoint, 'us-east-1', 0)
            pairs = [(scene, [one for one in scene.cases if one.takes is None]) for scene in SCENES]
            run_cases([pair for pair in pairs if pair[1]], Streams(endpoint), lambda *_: None)
        told = (options.STREAMS, options.SHARDS, options.RECORDS, options.MEGABYTES)
        counts = front.counts
        self.assertEqual(told, (counts['streams'], counts['shards'], counts['records'], round(counts['bytes'] / 1e6)))
        self.assertLess(abs(counts['calls'] - options.CALLS), 20)


class Moto(unittest.TestCase):
    """Another stand-in, beside the table of the page."""

    def setUp(self):
        if importlib.util.find_spec('moto') is None:
            self.skipTest('there is no moto on this machine')
        version = importlib.metadata.version('moto')
        self.told = re.search(r'^## moto (\S+)\n(.*?)(?=^## |\Z)', page.PAGE.read_text(), re.S | re.M)
        if version != self.told[1]:
            self.skipTest(f'moto is {version} on this machine, and {self.told[1]} in docs/differences.md')
        self.port = free_port()
        words = [sys.executable, '-m', 'moto.server', '-p', str(self.port)]
        process = subprocess.Popen(words, stdout=subprocess.DEVNULL, stderr=subprocess.DEVNULL)
        self.addCleanup(process.wait)
        self.addCleanup(process.terminate)
        end = time.monotonic() + 60
        while not listens(self.port) and time.monotonic() < end:
            time.sleep(0.2)

    def test_the_table_of_the_page(self):
        done = run('--endpoint', f'http://127.0.0.1:{self.port}', '--table')
        table = ''.join(line + '\n' for line in self.told[2].splitlines() if line.startswith('|'))
        self.assertEqual((1, table), (done.returncode, done.stdout), done.stderr)
        self.assertEqual([], left(self.port))


@unittest.skipIf(alone.why_not(), alone.why_not())
class Alone(unittest.TestCase):
    """Clients in a network namespace that has the loopback alone. What would leave is named."""

    @classmethod
    def setUpClass(cls):
        words = alone.command(sys.executable, alone.__file__)
        done = subprocess.run(words, capture_output=True, text=True, timeout=600, check=False)
        if done.returncode:
            raise AssertionError(done.stderr)
        cls.trials = [json.loads(line) for line in done.stdout.splitlines()]
        cls.endpoint = cls.trials[0]['endpoint']

    def of(self, name):
        return [each for each in self.trials if each['trial'] == name]

    def assert_asked(self, place, trial):
        self.assertEqual(([place], place != AMAZON), (trial['asked'], trial['status'] == 0), trial)

    def test_clients_with_an_endpoint(self):
        for trial in self.of('endpoint'):
            self.assert_asked(place_of(self.endpoint), trial)

    def test_clients_with_the_variable(self):
        for trial in self.of('variable'):
            number = tuple(map(int, trial['version'].split('.')))
            reads = number >= READS[trial['client'], number[0]]
            self.assert_asked(place_of(self.endpoint) if reads else AMAZON, trial)

    def test_clients_with_nothing(self):
        for trial in self.of('nothing'):
            self.assert_asked(AMAZON, trial)

    def test_differences_asks_its_server_alone(self):
        (trial,) = self.of('alone')
        self.assertEqual((0, 1), (trial['status'], len(trial['asked'])), trial)
        self.assertTrue(trial['asked'][0].startswith('127.0.0.1 '), trial)

    def test_differences_asks_nobody_elsewhere_without_consent_and_keys(self):
        for name, part in (('without --yes', 'With --yes'), ('without keys', 'no credentials')):
            (trial,) = self.of(name)
            self.assertEqual((2, []), (trial['status'], trial['asked']), trial)
            self.assertIn(part, trial['said'])

    def test_differences_elsewhere(self):
        """At most five calls of an operation in a second, and three open shards; and nothing is left."""
        (trial,) = self.of('elsewhere')
        self.assert_asked(place_of(trial['endpoint']), trial)
        (after,) = self.of('after it')
        self.assertEqual((0, 3, []), (after['refused'], after['most'], after['left']))


def place_of(endpoint):
    return endpoint.removeprefix('http://').replace(':', ' ')


if __name__ == '__main__':
    unittest.main()
