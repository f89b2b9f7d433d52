#!/usr/bin/env python3
"""Aggregated records, random and damaged, as the program's workers of user records read them, \
against tests/lib/aggregate.py.

    tests/aggregates.py [NUMBER [PROGRAM ..]]     NUMBER payloads, 10,000 unless said; \
of the program `PROGRAM ..`, which is ./kds unless said

Each payload is put behind another record, and a worker `users` steps until it has set its checkpoint. \
It asks for the last but
one user record to be done, so its checkpoint tells whether the payload has no user records, one, or more: \
where it is no
aggregate it is one, and so no aggregate that is written here has exactly one."""
import base64
import random
import shutil
import subprocess
import unittest

from lib import aggregate
from lib.checks import asked, is_number
from lib.server import ROOT

NUMBER = 10_000
STEPS = 12
EMPTY = aggregate.pack([])
PLAIN = b'plain'


# ---- payloads


def some_bytes(rng, most):
    return rng.randbytes(rng.randrange(most + 1))


def user_records(rng):
    """None, or two to six, of few keys and hashes, so that tables are shared."""
    keys = [some_bytes(rng, 12) for _ in range(3)]
    hashes = [None, 0, rng.randrange(1 << 128), (1 << 128) - 1]
    count = rng.choice((0, 2, 2, 3, 4, 6))
    return [(rng.choice(keys), rng.choice(hashes), some_bytes(rng, 40)) for _ in range(count)]


def unknown_field(rng):
    """A field that is passed over: of another number, or of a number that means something with another wire type."""
    label = rng.choice((4, 9, 15, 16, (1 << 29) - 1, (1 << 61) - 1))
    return rng.choice((
        aggregate.number_field(rng.choice((label, 3)), rng.randrange(1 << 64)),
        aggregate.bytes_field(label, some_bytes(rng, 9)),
        aggregate.tag(rng.choice((label, 1, 2, 3)), aggregate.EIGHT) + rng.randbytes(8),
        aggregate.tag(rng.choice((label, 1, 2, 3)), aggregate.FOUR) + rng.randbytes(4),
    ))


def wide_field(rng, label, wire, value):
    """A field with needless zero bits in its tag, and in its number or length."""
    first = aggregate.varint(label << 3 | wire, rng.randrange(1, 11))
    if wire == aggregate.NUMBER:
        return first + aggregate.varint(value, rng.randrange(1, 11))
    return first + aggregate.varint(len(value), rng.randrange(1, 11)) + value


def odd_record(rng, keys, hashes, record):
    """The fields of a record, with needless bits, unknown fields, tags, and fields that a later one replaces."""
    key, hash_, data = record
    fields = []
    if rng.random() < 0.3:
        fields.append(aggregate.number_field(1, rng.randrange(9)))
    if rng.random() < 0.3 and hash_ is not None:
        fields.append(aggregate.number_field(2, rng.randrange(9)))
    if rng.random() < 0.3:
        fields.append(aggregate.bytes_field(3, some_bytes(rng, 9)))
    if rng.random() < 0.3:
        fields.append(aggregate.bytes_field(4, aggregate.bytes_field(1, b'tag') + aggregate.bytes_field(2, b'value')))
    last = [wide_field(rng, 1, aggregate.NUMBER, keys.index(key)), wide_field(rng, 3, aggregate.BYTES, data)]
    if hash_ is not None:
        last.append(wide_field(rng, 2, aggregate.NUMBER, hashes.index(hash_)))
    if rng.random() < 0.3:
        last.append(unknown_field(rng))
    rng.shuffle(last)
    return b''.join(fields + last)


def odd(rng, records):
    """An aggregate of these records, written as no producer does: its tables may stand after its records."""
    keys, hashes = aggregate.tables(records)
    lists = [
        [wide_field(rng, 1, aggregate.BYTES, key) for key in keys],
        [wide_field(rng, 2, aggregate.BYTES, str(hash_).encode()) for hash_ in hashes],
        [wide_field(rng, 3, aggregate.BYTES, odd_record(rng, keys, hashes, record)) for record in records],
        [unknown_field(rng) for _ in range(rng.randrange(3))],
    ]
    message = b''
    while any(lists):
        message += rng.choice([fields for fields in lists if fields]).pop(0)
    return aggregate.frame(message)


def cut(rng, payload):
    return payload[: rng.randrange(len(payload))]


def cut_message(rng, payload):
    message = payload[4:-16]
    return aggregate.frame(message[: rng.randrange(len(message) + 1)])


def flipped(rng, payload):
    place = rng.randrange(8 * len(payload))
    return payload[: place // 8] + bytes([payload[place // 8] ^ 1 << place % 8]) + payload[place // 8 + 1 :]


def flipped_message(rng, payload):
    message = payload[4:-16]
    return aggregate.frame(flipped(rng, message)) if message else payload


def flipped_digest(rng, payload):
    return payload[:-16] + flipped(rng, payload[-16:])


def with_field(rng, payload):
    """Bytes at the message's end that are no field."""
    bad = rng.choice((
        aggregate.varint(0) + aggregate.varint(1),
        aggregate.varint(7),
        aggregate.tag(9, rng.choice((3, 4, 6, 7))) + rng.randbytes(1),
        aggregate.tag(9, aggregate.NUMBER) + aggregate.varint(5, 11),
        aggregate.tag(9, aggregate.NUMBER) + aggregate.varint(rng.randrange(1 << 64, 1 << 70)),
        aggregate.tag(9, aggregate.NUMBER),
        aggregate.tag(9, aggregate.BYTES) + aggregate.varint(9) + rng.randbytes(rng.randrange(9)),
        aggregate.tag(9, aggregate.BYTES) + aggregate.varint((1 << 64) - 1) + rng.randbytes(3),
        aggregate.tag(9, aggregate.EIGHT) + rng.randbytes(rng.randrange(8)),
        aggregate.tag(9, aggregate.FOUR) + rng.randbytes(rng.randrange(4)),
    ))
    return aggregate.frame(payload[4:-16] + bad)


def with_record(rng, payload):
    """One more record, of places that may be outside the tables, or without its data."""
    fields = [aggregate.number_field(1, rng.choice((0, 1, 4, 1 << 32, (1 << 64) - 1)))]
    if rng.random() < 0.5:
        fields.append(aggregate.number_field(2, rng.choice((0, 1, 4, 1 << 32))))
    if rng.random() < 0.7:
        fields.append(aggregate.bytes_field(3, b'data'))
    return aggregate.frame(payload[4:-16] + aggregate.bytes_field(3, b''.join(fields)))


def with_hash(rng, payload):
    """One more text in the table of hashes, which may be no number."""
    text = rng.choice((b'', b'-1', b'+1', b'01', b'1 ', b'0x1', b'1e3', b'1_0', '\u0661'.encode(),
                       str(1 << 128).encode(), b'0', str((1 << 128) - 1).encode()))
    return aggregate.frame(payload[4:-16] + aggregate.bytes_field(2, text))


DAMAGES = (cut, cut_message, flipped, flipped_message, flipped_digest, with_field, with_record, with_hash)


def payload(rng):
    records = user_records(rng)
    whole = aggregate.pack(records) if rng.random() < 0.4 else odd(rng, records)
    if rng.random() < 0.6:
        whole = rng.choice(DAMAGES)(rng, whole)
    found = aggregate.unpack(whole)
    # One user record can't be told from none, so another aggregate takes its place.
    if found is None or len(found) != 1:
        return whole
    return aggregate.pack(records or [(b'a', None, b''), (b'b', 1, b'x')])


# ---- what a worker asks


def count(stored):
    found = aggregate.unpack(stored)
    return 1 if found is None else len(found)


def mark(first, batch):
    """The number at which a checkpoint is set after a batch of payloads that begins with this number, or None."""
    counts = [count(stored) for stored in batch]
    left = sum(counts) - 1
    if left < 1:
        return None
    number = None
    for at, many in enumerate(counts):
        if many > left:
            break
        left -= many
        number = first + at
    return number


def put(stored):
    return f'2000 api PutRecord {{"StreamName":"s","Data":"{base64.b64encode(stored).decode()}","PartitionKey":"k"}}'


def ran(program, lines):
    """The output of a schedule, line by line."""
    done = subprocess.run(
        [*program, 'replay'], input='\n'.join(lines) + '\n', capture_output=True, encoding='ascii', timeout=3600
    )
    if done.returncode or done.stderr:
        raise AssertionError(f'status {done.returncode}: {done.stderr}')
    return done.stdout.splitlines()


def compare(program, number, seed=1):
    """Gives how many of the payloads were no aggregates; raises where the program reads one in another way."""
    rng = random.Random(seed)
    step = '2000 step 1000'
    lines = ['2000 api CreateStream {"StreamName":"s","ShardCount":1}', '2000 worker w1 users'] + STEPS * [step]
    begin = len(lines)
    batches = []
    for _ in range(number):
        batch = [rng.choice((EMPTY, PLAIN, payload(rng))), payload(rng)]
        batches.append(batch)
        lines += [put(stored) for stored in batch] + STEPS * [step]
    output = ran(program, lines)
    if len(output) != len(lines):
        raise AssertionError(f'{len(output)} lines of output to {len(lines)} of input')
    size = 2 + STEPS
    for at, batch in enumerate(batches):
        part = output[begin + at * size : begin + (at + 1) * size]
        first = 2 * at + 1
        reads = [line.split()[9:] for line in part if line.startswith('read ') and len(line.split()) > 9]
        marks = [int(line.split()[3]) for line in part if line.startswith('mark ') and ' = ok ' in line]
        wanted = mark(first, batch)
        if reads != [[str(first), str(first + 1)]] or marks != ([] if wanted is None else [wanted]):
            shown = ', '.join(stored.hex() for stored in batch)
            raise AssertionError(f'of the payloads {shown}: wanted a mark at {wanted}, given {marks} after the reads '
                                 f'{reads}\n' + '\n'.join(part))
    return sum(aggregate.unpack(stored) is None for batch in batches for stored in batch)


class Aggregates(unittest.TestCase):
    """The reader of tests/lib reads what it writes, and the program reads as it does."""

    def test_read_back(self):
        rng = random.Random(2)
        for _ in range(2000):
            records = user_records(rng)
            self.assertEqual(aggregate.unpack(aggregate.pack(records)), records)
            self.assertEqual(aggregate.unpack(odd(rng, records)), records)

    def test_of_the_program(self):
        none = compare([ROOT / 'kds'], NUMBER // 2)
        self.assertTrue(NUMBER // 10 < none < NUMBER * 9 // 10)


def are_words(words):
    return not words or is_number(words[0], 2, 10**9) and all(shutil.which(it) for it in words[1:2])


def main():
    words = asked(__doc__, 'tests/aggregates.py [NUMBER [PROGRAM ..]], 2 payloads or more', are_words)
    number = int(words[0]) if words else NUMBER
    none = compare(words[1:] or [ROOT / 'kds'], number // 2)
    print(f'{number // 2 * 2} payloads, of which {none} are no aggregates: read alike')


if __name__ == '__main__':
    main()
