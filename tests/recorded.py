#!/usr/bin/env python3
"""What a server did behind `tools/record`, beside what the recorder's file replays to. Clients send byte streams
through the recorder: named ones, each on its own, and some thousand of a generator (recording/bytes.py). At the end the
server is asked what it has, past the recorder, and the file is replayed with the same questions behind it:

- What the server has is what the replay has: the streams, and each record with its number, shard, key and data.
- Each client got the answers to its own requests. Those with status 200 are what the replay gives for the lines of this
  client, in their order, and the number that a put got is that of a record of this client.
- Each client got what a second server answers to the same bytes without a recorder. A line feed without a CR before it
  is an exception: the recorder alone refuses it where it would end a line of a head.

    tests/recorded.py [--seed SEED] [--count COUNT] [--only NUMBER] [--recorder FILE]

COUNT byte streams are made, 5000 by default, and with --only the one of this NUMBER. FILE is another recorder. Byte
streams after which something is wrong are printed. The same SEED makes them again."""
import argparse
import collections
import json
import pathlib
import re
import sys
import unittest
from concurrent.futures import ThreadPoolExecutor

from lib.checks import Tally
from lib.server import ROOT, request
from recording.bytes import STREAMS, Case, case_of, plain
from recording.trial import SHARDS, answers_in, told, tried

RECORDER = ROOT / 'tools' / 'record'
SEED, COUNT = 1, 5000
# The byte streams that go through one recorder, and the clients that send them at once, but for every fifth lot.
LOT, CLIENTS = 500, 8
# How much is printed of what is wrong in a lot: sentences, and bytes of a piece.
SENTENCES, BYTES = 12, 2000


# ---- what is compared

def records_of(state):
    """The key of each record in a state, by its stream and its number."""
    shards = iter(state[1 + len(STREAMS):])
    return {(stream, int(record['SequenceNumber'])): record['PartitionKey']
            for stream in STREAMS for _ in range(SHARDS) for record in next(shards)['Records']}


def number_of(text):
    """The number of the case whose tag is in a key or a line, or None."""
    found = re.search(r'\bc(\d+)-\d', text)
    return int(found[1]) if found else None


def state_faults(done, file):
    """Where the server has something else than the replay."""
    here, there = records_of(done), records_of(file)
    for key in sorted(set(here.values()) - set(there.values())):
        yield number_of(key), f'the server has the record {key}, and the file lacks it'
    for key in sorted(set(there.values()) - set(here.values())):
        yield number_of(key), f'the file has the record {key}, and the server lacks it'
    for at in sorted(set(here) & set(there)):
        if here[at] != there[at]:
            yield number_of(here[at]), f'record {at} of the server is {here[at]}, and in the replay it is {there[at]}'
    if done != file:
        yield None, 'what the server has is not what the file replays to'


def own_faults(number, got, lines, here):
    """Where a client got other answers than its own lines, or the number of another client's record."""
    good, wanted = ([(it.status, told(it.body)) for it in answers if it.status == 200] for answers in (got, lines))
    if good != wanted:
        yield number, f'the answers with 200 were {good}, and its lines are answered {wanted}'
    for _, reply in good:
        for record in (reply or {}).get('Records', [reply or {}]):
            keys = [here.get((stream, int(record.get('SequenceNumber', 0))), '') for stream in STREAMS]
            if 'SequenceNumber' in record and number not in map(number_of, keys):
                yield number, f'it got the number {record["SequenceNumber"]}, which is that of {keys}'


def direct_faults(number, case, got, direct):
    """Where a client got something else than the server answers without a recorder."""
    got, direct = ([(it.status, told(it.body, {'SequenceNumber'}), it.closes) for it in its] for its in (got, direct))
    if got == direct:
        return
    if case.name and re.search(rb'(?<!\r)\n', case.data) and got[-1:] == [(400, None, True)]:
        if got[:-1] == direct[:len(got) - 1]:
            return
    yield number, f'the answers were {got}, and without a recorder they are {direct}'


def faults_of(cases, outcome):
    """What is wrong after these cases: the number of a case, or None, and a sentence."""
    if outcome.ended != (0, ''):
        yield None, f'the recorder ended with {outcome.ended}'
    if outcome.answers is None:
        yield None, outcome.file
        return
    yield from state_faults(outcome.done, outcome.file)
    lines, here = collections.defaultdict(list), records_of(outcome.done)
    for line, answer in zip(outcome.lines, outcome.answers):
        lines[number_of(line.decode('latin-1'))].append(answer)
    for number, case in cases.items():
        if case.goes:
            continue
        bytes_got = outcome.got[number], outcome.direct[number]
        got, direct = (None if its is None else answers_in(its) for its in bytes_got)
        if got is None or direct is None:
            yield number, f'no answers or no end, through the recorder and without: {bytes_got}'
        else:
            yield from own_faults(number, got, lines[number], here)
            yield from direct_faults(number, case, got, direct)


# ---- the named cases

def odd(change, *statuses, puts=1):
    """Some puts, of which the first is changed, and the statuses that come back by docs/formats.md. A line feed without
    a CR is refused by the recorder itself."""
    return change, list(statuses), puts


def start(place, value):
    """Replaces a part of the first line: the method is 0, the blank after it 1, the target 2, the version 4."""
    def change(message):
        message.start[place] = value
    return change


def header(name, place, value):
    """Replaces a part of a header: the blank before its value is 2, the value 3, the blank after it 4, the end 5."""
    def change(message):
        message.of(name)[place] = value
    return change


def more(name, value):
    return lambda message: message.fields.append(message.field(name, value))


def without_length(message):
    message.fields.remove(message.of(b'Content-Length'))


def line_feeds(message):
    for line in message.lines():
        line[-1] = b'\n'
    message.last = b'\n'


def headers(count):
    def change(message):
        message.fields += [message.field(b'X-%d' % i, b'') for i in range(count - len(message.fields))]
    return change


def long_target(message):
    """A head at its limit, without a blank, of which all but the least is the target."""
    message.fields.remove(message.of(b'Host'))
    for field in message.fields:
        field[2] = b''
    message.of(TARGET)[3] += b'x' * (16_384 - len(message.head()))


TARGET, KIND, LENGTH = b'X-Amz-Target', b'Content-Type', b'Content-Length'
NAMED = {
    'a put': odd(lambda message: None, 200),
    'three puts': odd(lambda message: None, 200, 200, 200, puts=3),
    'a tab before the target': odd(header(TARGET, 2, b'\t'), 200),
    'a tab before the type': odd(header(KIND, 2, b'\t'), 200),
    'a tab behind the type': odd(header(KIND, 4, b'\t'), 200),
    'a tab before the length': odd(header(LENGTH, 2, b'\t'), 200),
    'line feeds alone': odd(line_feeds, 400),
    'a line feed alone behind the type': odd(header(KIND, 5, b'\n'), 400),
    'line feeds alone, and a put behind': odd(line_feeds, 400, puts=2),
    'another path': odd(start(2, b'/x'), 404),
    'another method': odd(start(0, b'PUT'), 405),
    'HTTP/2.0': odd(start(4, b'HTTP/2.0'), 400),
    'two blanks': odd(start(1, b'  '), 400),
    'a folded header': odd(header(TARGET, 4, b'\r\n '), 400),
    'a second length, with a tab': odd(more(LENGTH, b'\t5'), 400),
    'a second length, with a blank before the colon': odd(more(LENGTH + b' ', b'5'), 400),
    'a second target': odd(more(TARGET, b'Kinesis_20131202.PutRecord'), 400, 200, puts=2),
    'a second type': odd(more(KIND, b'application/x-amz-json-1.1'), 400, 200, puts=2),
    'another type': odd(header(KIND, 3, b'application/json'), 400, 200, puts=2),
    'a head of 17 kB': odd(lambda message: message.pad(17_000), 431),
    'a head of 16,385 bytes': odd(lambda message: message.pad(16_385), 431),
    'a head of 16,384 bytes': odd(lambda message: message.pad(16_384), 200),
    'a head of 16,384 bytes, with a long target': odd(long_target, 400, 200, puts=2),
    '65 headers': odd(headers(65), 400),
    '64 headers': odd(headers(64), 200),
    'a Transfer-Encoding': odd(more(b'Transfer-Encoding', b'chunked'), 501),
    'no length': odd(without_length, 411),
    'a length above the limit': odd(header(LENGTH, 3, b'16777217'), 413),
    'HTTP/1.0': odd(start(4, b'HTTP/1.0'), 200, puts=2),
    'Connection: Close': odd(more(b'Connection', b'Close'), 200, puts=2),
    'Expect': odd(more(b'Expect', b'100-continue'), 200),
}


def named_faults(name, recorder):
    """What is wrong after a named case, and a question and a put of two other clients after it."""
    change, wanted, puts = NAMED[name]
    messages = [plain(f'c1-{i}') for i in range(puts)]
    change(messages[0])
    summary = request('DescribeStreamSummary', json.dumps({'Tag': 'c2-0', 'StreamName': STREAMS[1]}).encode())
    cases = {1: Case(name, [b''.join(message.bytes() for message in messages)]), 2: Case('', [summary]),
             3: Case('', [plain('c3-0').bytes()])}
    outcome = tried(cases, recorder)
    statuses = [answer.status for answer in answers_in(outcome.got[1] or b'') or ()]
    wrong = [f'it got {statuses}, and not {wanted}'] if statuses != wanted else []
    return wrong + [sentence for _, sentence in faults_of(cases, outcome)]


def all_named_faults(recorder):
    """The same for each named case, of which some are tried at a time."""
    with ThreadPoolExecutor(3) as pool:
        yield from zip(NAMED, pool.map(lambda name: named_faults(name, recorder), NAMED))


# ---- the cases of the generator

def lots(seed, count):
    """The cases of the generator, and how many clients send them at once."""
    for first in range(0, count, LOT):
        numbers = range(first, min(first + LOT, count))
        yield {number: case_of(seed, number) for number in numbers}, CLIENTS if first // LOT % 5 else 1


def smallest(cases, recorder):
    """Fewer cases after which something is wrong as well: halved for as long as one half alone is enough."""
    numbers = sorted(cases)
    for half in (numbers[:len(numbers) // 2], numbers[len(numbers) // 2:]) if len(numbers) > 1 else ():
        fewer = {number: cases[number] for number in half}
        if any(faults_of(fewer, tried(fewer, recorder))):
            return smallest(fewer, recorder)
    return cases


def lot_fault(cases, clients, recorder):
    """What is wrong after a lot, with the bytes of as few cases as show it. Empty where nothing is."""
    found = list(faults_of(cases, tried(cases, recorder, clients)))
    if not found:
        return ''
    fewer = smallest(cases, recorder)
    found = list(faults_of(fewer, tried(fewer, recorder))) or found
    said = [f'case {number}: {sentence[:BYTES]}' for number, sentence in found[:SENTENCES]]
    shown = [number for number in fewer if len(fewer) < 4 or number in dict(found[:SENTENCES])]
    for number in shown:
        pieces = [piece[:BYTES] for piece in fewer[number].pieces[:40]]
        said.append(f'case {number}, {fewer[number].name or "not odd"}: {pieces}')
    return f'cases {min(cases)} to {max(cases)}\n  ' + '\n  '.join(said)


class Recorded(unittest.TestCase):
    def test_named_cases(self):
        for name, faults in all_named_faults(RECORDER):
            with self.subTest(name):
                self.assertEqual([], faults)

    def test_cases_of_the_generator(self):
        for cases, clients in lots(SEED, COUNT):
            with self.subTest(seed=SEED, first=min(cases)):
                self.assertEqual('', lot_fault(cases, clients, RECORDER))


class Words(argparse.ArgumentParser):
    def error(self, message):
        print(f'usage: {self.prog} [--seed SEED] ..; --help says more: {message}', file=sys.stderr)
        sys.exit(2)


def main():
    parser = Words(prog='tests/recorded.py', description=__doc__, allow_abbrev=False,
                   formatter_class=argparse.RawDescriptionHelpFormatter)
    parser.add_argument('--seed', default=SEED)
    parser.add_argument('--count', type=int, default=COUNT)
    parser.add_argument('--only', type=int, metavar='NUMBER')
    parser.add_argument('--recorder', type=pathlib.Path, default=RECORDER, metavar='FILE')
    words, tally = parser.parse_args(), Tally()
    recorder = words.recorder.resolve()
    if words.only is not None:
        fault = lot_fault({words.only: case_of(words.seed, words.only)}, 1, recorder)
        tally.holds(not fault, f'seed {words.seed}, {fault}')
        return tally.end()
    for name, faults in all_named_faults(recorder):
        tally.check(name, [], faults)
    for cases, clients in lots(words.seed, words.count):
        fault = lot_fault(cases, clients, recorder)
        tally.holds(not fault, f'seed {words.seed}, {fault}')
    return tally.end()


if __name__ == '__main__':
    sys.exit(main())
