#!/usr/bin/env python3
"""What a served connection keeps, and what is given back: \
clients ask for much, stay idle, and leave (tests/lib/visits.py). While they stay the server
has at most 1.5 MB more for each, and after they left at most 20 MB more in all, \
with what `./kds serve` tells its allocator of memory. A server that keeps
the room of a request or of a response has some megabytes more for each; \
one whose allocator isn't told keeps what is freed."""
import os
import sys

from lib.checks import Tally, asked, heed_signals
from lib.server import serving, take_checked
from lib.visits import LIST, Kind, no_object, refused, visit

STAY, LEFT = 1_500_000, 20_000_000
CLIENTS = 16
KINDS = [
    Kind('a put of 1 MB is refused', CLIENTS, [(refused(1_000_000), 400), (LIST, 200)]),
    Kind('a put of 10 MB is refused', CLIENTS, [(refused(10_000_000), 400), (LIST, 200)]),
    Kind('a put of 10 MB is refused, with the next request right behind it', CLIENTS,
         [(refused(10_000_000) + LIST, 400), (LIST, 200)]),
    Kind('a body of 16.7 MB is refused, twice', CLIENTS, [(no_object(), 400)], rounds=2),
    Kind('a record of 9 MB is read', CLIENTS, [], record=9_000_000),
]


def main():
    asked(__doc__, 'tests/connections.py')
    heed_signals()
    take_checked()
    os.environ.pop('GLIBC_TUNABLES', None)
    tally, told = Tally(), []
    for kind in KINDS:
        with serving(CLIENTS) as server:
            stay, left = visit(server, kind)
        told.append(f'{stay / CLIENTS / 1e6:.1f}')
        tally.holds(stay <= STAY * CLIENTS,
                    f'{kind.name}: {stay / CLIENTS / 1e6:.1f} MB more for each connection that stays')
        tally.holds(left <= LEFT, f'{kind.name}: {left / 1e6:.1f} MB more after all left')
    return tally.end(f'MB more for a connection: {", ".join(told)}: ')


if __name__ == '__main__':
    sys.exit(main())
