"""The words that `tools/differences` takes."""
import argparse
import sys
import urllib.parse

from differing.faults import is_here
from differing.streams import MOST, PREFIX

# What a run makes on a server elsewhere that does as `kds` does, without --beyond and --slow. A server that needs time
# for a change is asked more often.
CALLS, STREAMS, SHARDS, RECORDS, MEGABYTES = 345, 14, 27, 67, 12
MOST_TOLD = (
    f'makes {STREAMS} streams there, one or two at a time, whose names begin with {PREFIX}, puts {RECORDS} records of '
    f'{MEGABYTES} MB in all, and deletes the streams. At most {MOST} shards are open at once'
)
COST = f"""
There are {{}} cases. Without --beyond and --slow a server elsewhere gets {{}} of them, in some {CALLS} calls, and in
more if its changes take time. They make {STREAMS} streams with {SHARDS} shards in all, and put {RECORDS} records of
{MEGABYTES} MB in all. An account that pays for each hour of a shard that has begun pays for {SHARDS} of them, and for
some {MEGABYTES * 1000 // 25} units of 25 KB that are put."""


class Words(argparse.ArgumentParser):
    def error(self, message):
        print(f'usage: {self.prog} [--endpoint URL] ..; --help says more: {message}', file=sys.stderr)
        sys.exit(2)


def words(text, scenes):
    """The options. `text` is what --help says."""
    cases = [one for scene in scenes for one in scene.cases]
    cost = COST.format(len(cases), sum(one.takes is None for one in cases))
    parser = Words(
        prog='tools/differences',
        allow_abbrev=False,
        description=text + '\n' + cost,
        formatter_class=argparse.RawDescriptionHelpFormatter,
    )
    parser.add_argument('--endpoint')
    parser.add_argument('--region', default='us-east-1')
    parser.add_argument('--pace', type=float)
    parser.add_argument('--only', default='')
    for flag in ('--yes', '--beyond', '--slow', '--table', '--list'):
        parser.add_argument(flag, action='store_true')
    return parser.parse_args()


def chosen(scenes, some):
    """The scenes with the cases that are run."""

    def fits(one):
        return some.lower() in ' '.join((one.scene, one.name, *(one.row or ()))).lower()

    pairs = [(scene, [one for one in scene.cases if fits(one)]) for scene in scenes]
    return [(scene, cases) for scene, cases in pairs if cases]


def fault_of(given, pairs):
    """Why nothing can be run by these words."""
    if not pairs:
        return f'no case has {given.only!r}'
    if given.endpoint is None:
        return None
    try:
        url = urllib.parse.urlsplit(given.endpoint)
        fits = (
            url.scheme in ('http', 'https')
            and url.hostname
            and (url.port is None or url.port)
            and url.path in ('', '/')
            and not url.query
            and '@' not in url.netloc
        )
    except ValueError:
        fits = False
    if not fits:
        return 'an endpoint is http://HOST:PORT or https://HOST'
    if not is_here(url.hostname) and not given.yes:
        more = ', and more for a moment' if given.beyond else ''
        return f'{url.hostname} is not this machine. With --yes this {MOST_TOLD}{more}'
    return None
