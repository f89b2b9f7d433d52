"""The blocks of README.md and docs/clients.md that people copy, run as they stand there except for the port: README's
first commands, in a fresh copy and with each AWS CLI, and its boto3 program, the script for CI with and without
`bash -e`, the fixture of pytest, and the Python that sends a file of requests and turns a stream's limits on."""
import importlib.util
import json
import os
import pathlib
import re
import shutil
import socket
import subprocess
import sys
import tempfile
import time
import unittest
import urllib.request

from lib.server import JSON, ROOT, free_port, serving, take_checked, versions

PORT = '4567'
PYTEST = '''#!/usr/bin/env bash
echo "tests at $AWS_ENDPOINT_URL_KINESIS"
curl -s "$AWS_ENDPOINT_URL_KINESIS" -H 'X-Amz-Target: Kinesis_20131202.ListStreams' -H 'Content-Type: %s' -d '{}'
exit "$TESTS_END_WITH"
''' % JSON


def block(page, begin):
    """The indented block of a page whose text begins so, with its blank lines."""
    text = (ROOT / page).read_text()
    found = [part for part in re.findall(r'((?:^    .*\n|^\n(?=    ))+)', text, re.M)
             if re.match(rf'\s*{re.escape(begin)}', part)]
    assert len(found) == 1, f'{page}: {len(found)} blocks begin with {begin}'
    lines = found[0].strip('\n').splitlines()
    margin = min(len(line) - len(line.lstrip()) for line in lines if line.strip())
    return '\n'.join(line[margin:] for line in lines) + '\n'


def listens(port):
    with socket.socket() as probe:
        return probe.connect_ex(('127.0.0.1', port)) == 0


class Script(unittest.TestCase):
    """The script for CI, in a folder that has nothing but a stub of `pytest`."""

    def setUp(self):
        if shutil.which('curl') is None:
            self.skipTest('there is no curl on this machine')
        if 'KDS' not in os.environ:
            take_checked()
        self.port = free_port()
        self.room = pathlib.Path(tempfile.mkdtemp())
        self.addCleanup(shutil.rmtree, self.room)
        for name in ('kept', 'bin', 'work'):
            (self.room / name).mkdir()
        shutil.copy(os.environ['KDS'], self.room / 'kept' / 'kds_cli')
        (self.room / 'bin' / 'pytest').write_text(PYTEST)
        (self.room / 'bin' / 'pytest').chmod(0o755)
        script = block('docs/clients.md', 'export AWS_ENDPOINT_URL_KINESIS')
        (self.room / 'script').write_text(script.replace(PORT, str(self.port)))

    def run_script(self, flags, tests_end_with):
        words = {'PATH': f'{self.room}/bin:{os.environ["PATH"]}', 'KEPT': str(self.room / 'kept'),
                 'TESTS_END_WITH': str(tests_end_with)}
        return subprocess.run(['bash', *flags, self.room / 'script'], cwd=self.room / 'work', env=os.environ | words,
                              capture_output=True, text=True, timeout=60, check=False)

    def assert_nothing_left(self):
        self.assertEqual([], list((self.room / 'work').iterdir()))
        self.assertFalse(listens(self.port))
        self.assertEqual('', subprocess.run(['pgrep', '-f', self.room / 'kept'], stdout=subprocess.PIPE, text=True,
                                            check=False).stdout)

    def test_its_status_is_that_of_the_tests_and_nothing_is_left(self):
        for flags in ([], ['-e'], ['-e', '-o', 'pipefail']):
            for status in (0, 3):
                with self.subTest(flags=flags, status=status):
                    done = self.run_script(flags, status)
                    self.assertEqual((status, ''), (done.returncode, done.stderr))
                    self.assertEqual(f'tests at http://127.0.0.1:{self.port}\n'
                                     f'{{"HasMoreStreams":false,"StreamNames":[]}}', done.stdout)
                    self.assert_nothing_left()

    def test_a_fifo_of_an_earlier_run_is_no_matter(self):
        os.mkfifo(self.room / 'work' / 'ready')
        self.assertEqual(0, self.run_script(['-e'], 0).returncode)
        self.assert_nothing_left()

    def test_a_port_in_use_is_named(self):
        with socket.socket() as other:
            other.bind(('127.0.0.1', self.port))
            other.listen()
            for flags in ([], ['-e']):
                done = self.run_script(flags, 0)
                self.assertEqual((1, 'kds ended with status 8\n', 'door fault\n'),
                                 (done.returncode, done.stdout, done.stderr))
                self.assertEqual([], list((self.room / 'work').iterdir()))

    def test_the_page_has_the_tunables_of_the_script(self):
        """In the script for CI, the fixture and the container."""
        wanted = re.search(r'^tunables=(\S+)$', (ROOT / 'build' / 'programs').read_text(), re.M)
        self.assertIn(wanted[0], (self.room / 'script').read_text().splitlines())
        self.assertEqual(3, (ROOT / 'docs/clients.md').read_text().count(wanted[1]))


class FirstCommands(unittest.TestCase):
    """README's first two blocks, pasted line by line into a fresh copy of the repository, with nothing between them.
    A kept build of these sources saves the minutes of the first one. The tests, of which this is one, are a stub."""

    TESTS = 'all but the proofs'

    def setUp(self):
        if shutil.which('aws') is None:
            self.skipTest('there is no AWS CLI on this machine')
        room = pathlib.Path(tempfile.mkdtemp())
        self.addCleanup(shutil.rmtree, room)
        self.clone = room / 'kds'
        shutil.copytree(ROOT, self.clone, ignore=shutil.ignore_patterns('.git', 'out', '__pycache__'), symlinks=True)
        for kept in ('out/quick', 'crates/kds_cli/out'):
            if (ROOT / kept).is_dir():
                shutil.copytree(ROOT / kept, self.clone / kept)
        (self.clone / '.ci/quick.sh').write_text(f'echo {self.TESTS}\n')
        self.given = {name: value for name, value in os.environ.items() if name != 'KDS'}
        said = subprocess.run(['./kds', '--version'], cwd=self.clone, env=self.given,
                              stdout=subprocess.PIPE, text=True, check=True)
        if 'once that is built' in said.stdout:
            self.skipTest('no build of these sources is kept')

    def test_they_run_as_they_stand(self):
        """With each AWS CLI of this machine: version 1, and that of a distribution."""
        for version, aws in versions('aws').items():
            with self.subTest(version=version):
                self.paste(f'{pathlib.Path(aws).parent}:{os.environ["PATH"]}')

    def paste(self, path):
        server = block('README.md', '$ ./kds serve').replace(PORT, str(free_port())).splitlines()
        shown = [line for line in server if not line.startswith('$ ')]
        lines = block('README.md', './kds replay').splitlines() + [line[2:] for line in server if line.startswith('$ ')]
        pasted = '\n'.join([*lines, 'kill %1; wait %1', ''])
        done = subprocess.run(['bash'], input=pasted, cwd=self.clone, env=self.given | {'PATH': path},
                              capture_output=True, text=True, timeout=60, check=False)
        wanted = (ROOT / 'examples/first.out').read_text().splitlines() + [self.TESTS] + shown
        self.assertEqual((143, wanted), (done.returncode, done.stdout.splitlines()), done.stderr)


class Blocks(unittest.TestCase):
    """The other ones."""

    def python(self, text, server, cwd=None):
        done = subprocess.run([sys.executable, '-c', text.replace(PORT, str(server.port))], cwd=cwd,
                              capture_output=True, text=True, timeout=60, check=False)
        self.assertEqual((0, ''), (done.returncode, done.stderr))
        return done.stdout

    def ask(self, server, operation, body):
        head = {'X-Amz-Target': f'Kinesis_20131202.{operation}', 'Content-Type': JSON}
        asked = urllib.request.Request(server.endpoint + '/', json.dumps(body).encode(), head)
        with urllib.request.urlopen(asked) as answer:
            return json.loads(answer.read() or b'{}')

    @unittest.skipIf(importlib.util.find_spec('boto3') is None, 'there is no boto3 on this machine')
    def test_the_boto3_program_of_readme(self):
        with serving(members=2) as server:
            self.assertEqual('1\n', self.python(block('README.md', 'import boto3'), server))

    @unittest.skipIf(importlib.util.find_spec('boto3') is None, 'there is no boto3 on this machine')
    def test_the_fixture(self):
        """With a stub of `pytest` whose fixtures are the functions: it gives a client of a new server, and ends
        that."""
        if 'KDS' not in os.environ:
            take_checked()
        use = ("made = kinesis()\nclient = next(made)\n"
               "print(client.list_streams()['StreamNames'], client.meta.endpoint_url)\nnext(made, None)\n")
        with tempfile.TemporaryDirectory() as room:
            shutil.copy(os.environ['KDS'], pathlib.Path(room) / 'kds_cli')
            (pathlib.Path(room) / 'pytest.py').write_text('def fixture(function):\n    return function\n')
            text = block('docs/clients.md', 'import os, socket, subprocess, boto3, pytest') + use
            done = subprocess.run([sys.executable, '-c', text], cwd=room, env=os.environ | {'KEPT': room},
                                  capture_output=True, text=True, timeout=60, check=False)
        self.assertEqual(0, done.returncode, done.stderr)
        found = re.fullmatch(r'\[\] http://127\.0\.0\.1:(\d+)\n', done.stdout)
        self.assertTrue(found, done.stdout)
        self.assertFalse(listens(int(found[1])))

    def test_the_requests_of_a_file(self):
        with serving(members=2) as server, tempfile.TemporaryDirectory() as room:
            shutil.copy(ROOT / 'examples' / 'first.txt', pathlib.Path(room) / 'puts.txt')
            self.python(block('docs/clients.md', 'import urllib.request'), server, room)
            self.assertEqual({'StreamNames': ['s'], 'HasMoreStreams': False}, self.ask(server, 'ListStreams', {}))

    def test_limits_on_writing_are_turned_on(self):
        """More records than a second takes are sent in one request after another, until some are refused."""
        with serving(members=2) as server:
            self.ask(server, 'CreateStream', {'StreamName': 's', 'ShardCount': 1})
            self.python(block('docs/clients.md', 'import json, urllib.request'), server)
            many = {'StreamName': 's', 'Records': [{'PartitionKey': 'a', 'Data': 'aGk='}] * 500}
            end, refused = time.monotonic() + 20, 0
            while not refused and time.monotonic() < end:
                refused = self.ask(server, 'PutRecords', many)['FailedRecordCount']
            self.assertGreater(refused, 0)
