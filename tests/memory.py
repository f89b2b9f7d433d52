#!/usr/bin/env python3
"""Memory falls: what is trimmed leaves it, in every stream and every shard, whoever is put to. \
A schedule of rounds has two streams. In each round
both are put to, their shards are closed by a split or a merge, two days go by, and puts of a byte follow, \
one stream after the other, since a turn
drops what is trimmed in one shard of one stream. \
No record is put into a closed shard, so nothing but these turns lets its records go. The most
memory that the program took in five rounds is at most a little above that of one. \
A program that drops nothing, or that of one stream
or of one shard alone, takes some megabytes more with each round.

And little room is taken in advance. It counts though nothing touches it: what is compared is the most addresses
that the program had. A read of one record takes no room for all records of its shard, and a PutRecords of 500 takes
about as much as ten of 50."""
import base64
import sys
import tempfile

from lib.checks import SECONDS, Tally, asked, fail, program
from lib.lines import DAY, create, merge, put, put_many, split
from lib.peaks import peak

PAYLOAD = base64.b64encode(bytes(100_000)).decode()
PUTS = 40  # of a stream in a round: 4 MB
TURNS = 200
ROOM = 4_000_000  # half of the payloads of a round
BATCHES = 1_048  # of 250 records: just below 2^18, so that the log of the shard hardly has room that isn't used


def reshard(at, name, made, number):
    """A split of the open shard, or a merge of the two; and how many shards were made then."""
    return (split(at, made - 1, 2**127, name), made + 2) if number % 2 == 0 else (merge(at, made - 2, name), made + 1)


def schedule(rounds):
    yield from (create(1, name) for name in 'st')
    made = 1
    for number in range(rounds):
        at = 1000 + 2 * DAY * number
        yield from (put(at, f'key-{place}', PAYLOAD, name) for place in range(PUTS) for name in 'st')
        lines = [reshard(at, name, made, number) for name in 'st']
        made = lines[0][1]
        yield from (line for line, _ in lines)
        yield from (put(at + DAY + 1, 'a', 'eA==', 'st'[place % 2]) for place in range(TURNS))


def puts(batches, records):
    """PutRecords of small records into a shard with a reader."""
    yield create(1)
    yield from ('1000 raw 1 make 1/0', '1000 raw 1 take 1/0 0 w1', '1000 raw 1 open 1')
    yield from [put_many(1000, [('a', '')] * records)] * batches



def most(name, schedule, kind):
    """The most memory (VmHWM) or addresses (VmPeak) that a replay of these lines took, in bytes."""
    lines = list(schedule)
    with tempfile.TemporaryFile() as out:
        found = peak([KDS, 'replay'], (line.encode() + b'\n' for line in lines), kind, SECONDS, stdout=out)
        out.seek(0)
        answers = out.read().splitlines()
    refused = [answer for answer in answers if not answer.startswith((b'200', b'ok'))]
    if len(answers) != len(lines) or refused:
        fail(f'{name}: {len(answers)} answers of {len(lines)}, refused: {refused[:1]}')
    return found


def main():
    global KDS  # the program to be checked
    asked(__doc__, 'tests/memory.py')
    KDS = program()
    tally = Tally()
    one, five = (most(f'{rounds} rounds', schedule(rounds), 'VmHWM') for rounds in (1, 5))
    told = f'{one:,} bytes at most in one round, {five:,} in five'
    tally.holds(five <= one + ROOM, f'what is trimmed leaves the memory: {told}')
    full = list(puts(BATCHES, 250))
    read = most('puts and a read', [*full, '1000 raw 1 read 1 0 1'], 'VmPeak') - most('puts', full, 'VmPeak')
    tally.holds(read <= ROOM, f'a read of one record takes room for one: {read:,} bytes of addresses more')
    batch = most('a batch of 500', puts(1, 500), 'VmPeak') - most('batches of 50', puts(10, 50), 'VmPeak')
    tally.holds(batch <= ROOM, f'a PutRecords takes room for its records: {batch:,} bytes of addresses more')
    return tally.end(f'{told}: ')


if __name__ == '__main__':
    sys.exit(main())
