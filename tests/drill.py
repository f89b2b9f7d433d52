#!/usr/bin/env python3
"""\
Drills beside a plain reading of what they should print. Each number and count of records is run with several counts of
workers, and prints the same each time: the shards that the generator's commands make, their records, and their ends."""
import subprocess
import sys

from lib.checks import Tally, asked, program, run as limited
from lib.drilled import drilled

# A drill's number, its records, and the counts of workers that it is run with.
DRILLS = [
    (1, 0, (1, 2)),
    (0, 1, (1, 64)),
    (7, 1, (1, 8)),
    (7, 499, (3,)),
    (7, 500, (2, 8)),
    (7, 10_000, (1, 2, 8)),
    (2**64 - 1, 20_000, (4, 64)),
    (1_234_567, 60_000, (8,)),
    (3, 1_000_000, (8,)),  # the most
]
# Words after `drill` that it doesn't take.
OTHERS = [
    (), (1,), (1, 2), (1, 2, 0, 0), (1, 0, 0), (1, 65, 0), (1, 2, 1_000_001), (2**64, 2, 0), ('01', 2, 0), (1, '+2', 0),
    (1, 2, '-1'),
    ('', 2, 0), (1, 2, '0 '),
]
USAGE = 'usage: kds replay [--journal] | answer | audit | serve PORT MEMBERS | drill NUMBER WORKERS RECORDS\n'

tally = Tally()
check = tally.check


def run(*words, output=subprocess.PIPE):
    words = ['drill', *map(str, words)]
    return limited([KDS, *words], ' '.join(words), stdout=output, stderr=subprocess.PIPE, text=True)


def main():
    global KDS  # the program to be checked
    asked(__doc__, 'tests/drill.py')
    KDS = program()
    for number, records, counts in DRILLS:
        wanted = drilled(number, records)
        for workers in counts:
            given = run(number, workers, records)
            name = f'drill {number} {workers} {records}'
            check(f'{name}: status and errors', (0, ''), (given.returncode, given.stderr))
            check(f'{name}: output', wanted, given.stdout)
    for words in OTHERS:
        given = run(*words)
        check(f'drill {words}', (2, '', USAGE), (given.returncode, given.stdout, given.stderr))
    with open('/dev/full', 'w') as full:
        given = run(1, 2, 0, output=full)
    check('a drill whose output takes nothing', (5, 'write fault\n'), (given.returncode, given.stderr))
    return tally.end()


if __name__ == '__main__':
    sys.exit(main())
