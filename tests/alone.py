#!/usr/bin/env python3
"""Trials of clients where nothing can leave the machine: run by `command()` in a network namespace that has the
loopback alone. Each trial's status and the places that it asked for are printed, a line of JSON for each. It is for
the checks of `tools/differences` and of docs/clients.md."""
import contextlib
import json
import os
import pathlib
import shutil
import subprocess
import sys
import tempfile

from differences.behind import standing
from differences.stand import Stand
from lib.checks import ROOT, asked
from lib.server import serving, versions

# An address that no machine has (RFC 5737): in the namespace it is the loopback's, and by its form it is elsewhere.
ELSEWHERE = '192.0.2.1'
INSIDE = f'ip link set lo up && ip address add {ELSEWHERE}/32 dev lo && exec "$@"'
KEYS = {
    'AWS_ACCESS_KEY_ID': 'any',
    'AWS_SECRET_ACCESS_KEY': 'any',
    'AWS_DEFAULT_REGION': 'us-east-1',
    'AWS_MAX_ATTEMPTS': '1',
}
BOTO3 = (
    "import boto3, sys; boto3.client('kinesis', endpoint_url=sys.argv[1] if sys.argv[1:] else None).list_streams()"
)


def command(*words):
    """The command that runs something in such a namespace."""
    return ['unshare', '-rn', 'sh', '-c', INSIDE, 'sh', *words]


def why_not():
    """Why no namespace can be made here, if so."""
    missing = [name for name in ('unshare', 'ip') if shutil.which(name) is None]
    if missing:
        return f'there is no {missing[0]} on this machine'
    return (
        None
        if subprocess.run(command('true'), capture_output=True, check=False).returncode == 0
        else 'no network namespace can be made here'
    )


def boto3_of(python):
    """The version of boto3 that a Python has, if it has one."""
    words = [python, '-c', 'import boto3; print(boto3.__version__)']
    done = subprocess.run(words, capture_output=True, text=True, check=False)
    return done.stdout.strip() if done.returncode == 0 else None


def clients():
    """The clients on this machine: a name, its version, and the words that list the streams without an endpoint and
    with one."""
    for told, aws in versions('aws').items():
        yield 'AWS CLI', told, [aws, 'kinesis', 'list-streams'], ['--endpoint-url']
    for python in dict.fromkeys((sys.executable, '/usr/bin/python3')):
        if os.access(python, os.X_OK) and (told := boto3_of(python)):
            yield 'boto3', told, [python, '-c', BOTO3], []


def tried(name, words, more, log, **facts):
    """Runs a trial, and prints what came of it."""
    log.write_text('')
    keys = {key: value for key, value in os.environ.items() if not key.startswith('AWS_')}
    environment = (
        keys | KEYS | {'PYTHONPATH': str(ROOT / 'tests' / 'differences' / 'watch'), 'WATCHED': str(log),
                       'HOME': str(log.parent)} | more
    )
    environment = {key: value for key, value in environment.items() if value is not None}
    done = subprocess.run(words, env=environment, capture_output=True, text=True, timeout=300, check=False)
    asked = sorted(set(log.read_text().splitlines()))
    print(
        json.dumps(
            {
                'trial': name,
                'status': done.returncode,
                'asked': asked,
                'said': done.stdout[-300:] + done.stderr[-600:],
                **facts,
            }
        ),
        flush=True,
    )


def try_clients(endpoint, log):
    for client, told, words, flag in clients():
        tried('endpoint', words + flag + [endpoint], {}, log, client=client, version=told)
        tried('variable', words, {'AWS_ENDPOINT_URL_KINESIS': endpoint}, log, client=client, version=told)
        tried('nothing', words, {}, log, client=client, version=told)


def try_differences(stand, log):
    script = str(ROOT / 'tools' / 'differences')
    tried(
        'alone',
        [script],
        {'HTTP_PROXY': 'http://127.0.0.1:9', 'AWS_CSM_ENABLED': 'true', 'AWS_CSM_HOST': ELSEWHERE},
        log,
    )
    there = [script, '--endpoint', stand.endpoint]
    tried('without --yes', there, {}, log)
    tried('without keys', [*there, '--yes'], {'AWS_ACCESS_KEY_ID': None}, log)
    tried('elsewhere', [*there, '--yes', '--only', 'splitting'], {}, log, endpoint=stand.endpoint)
    _, left = stand.forward('ListStreams', {})
    print(
        json.dumps({'trial': 'after it', 'refused': stand.refused, 'most': stand.most, 'left': left['StreamNames']}),
        flush=True,
    )


def main():
    asked(__doc__, 'tests/alone.py')
    with contextlib.ExitStack() as stack:
        log = pathlib.Path(stack.enter_context(tempfile.TemporaryDirectory())) / 'asked'
        server = stack.enter_context(serving(members=40))
        print(json.dumps({'trial': 'server', 'endpoint': server.endpoint}), flush=True)
        try_clients(server.endpoint, log)
        try_differences(stack.enter_context(standing(Stand(server.port, ELSEWHERE, calls=5))), log)


if __name__ == '__main__':
    main()
