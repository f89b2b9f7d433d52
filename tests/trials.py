#!/usr/bin/env python3
"""Trials of the cases on servers that have one fault each (differences/planted.py): which case names it, and whether
anything is left on the server. It prints a line of JSON for each fault. It is for the checks of `tools/differences`.

    tests/trials.py          each fault, and one odd form of each member of each reply
    tests/trials.py all      all three odd forms of each member"""
import argparse
import contextlib
import io
import json
import multiprocessing
import sys
import time

from differences import planted
from differences.behind import standing
from differing import catalogue, playing, verdict
from differing.endpoint import Endpoint, model
from differing.runner import run
from differing.streams import Streams
from lib.checks import asked
from lib.server import serving

# how many servers are tried at once: their cases wait more than they work
AT_ONCE = 6
FORMS = len(planted.FORMS)


class Named(BaseException):
    """A case came otherwise. The others need not be run."""


class First:
    """Ends a run at the first case that names the fault."""

    def __call__(self, one, came, how):
        if verdict.is_fault(how, False):
            raise Named(f'{one.scene}: {one.name}')


def endpoint_of(front):
    return Endpoint(front.endpoint, 'us-east-1', 0)


def left(port):
    """The streams that are on a server, which is asked itself."""
    return Endpoint(f'http://127.0.0.1:{port}', 'us-east-1', 0).call('ListStreams')['StreamNames']


def measured(port):
    """Each scene without a fault, the quick ones first: the seconds that it takes, its name, and the operations that
    it asks for. And the members that were seen."""
    found, members = [], set()
    for scene in catalogue.scenes():
        with standing(planted.Planted(port)) as front:
            begin, streams = time.monotonic(), Streams(endpoint_of(front))
            run([(scene, scene.cases)], streams, First())
            found.append((time.monotonic() - begin, scene.name, sorted(front.operations)))
            members |= front.members
    return sorted(found), members


def chosen(fault, scenes):
    """The scenes that ask for the operation of a fault."""
    by_name = {scene.name: scene for scene in catalogue.scenes()}
    some = [name for _, name, operations in scenes if fault.operation in (planted.ANY, *operations)]
    return [(by_name[name], by_name[name].cases) for name in some]


def named(fault, port, scenes):
    """The case that names a fault, if one does."""
    with standing(planted.Planted(port, fault)) as front:
        streams, name = Streams(endpoint_of(front)), None
        streams.patience = 2
        try:
            run(chosen(fault, scenes), streams, First())
        except Named as found:
            name = found.args[0]
        streams.give_up()
    return {'fault': fault.name, 'named': name, 'used': front.used}


def played(fault, port, scenes):
    """A whole run, as `tools/differences` makes it, and its status."""
    words = {'region': 'us-east-1', 'pace': None, 'beyond': False, 'slow': False, 'table': False}
    with standing(planted.Planted(port, fault)) as front, contextlib.ExitStack() as stack:
        given = argparse.Namespace(endpoint=front.endpoint, **words)
        stack.enter_context(contextlib.redirect_stdout(io.StringIO()))
        said = stack.enter_context(contextlib.redirect_stderr(io.StringIO()))
        status = playing.play(given, catalogue.scenes(), chosen(fault, scenes), stack)
    named = 'a run' if status in (1, 2) else None
    return {'fault': fault.name, 'named': named, 'used': front.used, 'status': status, 'said': said.getvalue()[-300:]}


def tried(name):
    """What comes of one fault on the server of this process."""
    fault, begin = FAULTS[name], time.monotonic()
    if fault.member and fault.member not in MEMBERS:
        return {'fault': name, 'named': None, 'used': 0, 'left': [], 'seconds': 0}
    told = (played if name in ODD else named)(fault, PORT, SCENES)
    return told | {'left': left(PORT), 'seconds': round(time.monotonic() - begin, 1)}


def begin(ports, scenes, members):
    global PORT, SCENES, MEMBERS  # of a process of its own
    PORT, SCENES, MEMBERS = ports.get(), scenes, members


FAULTS = {fault.name: fault for fault in planted.faults(model())}
ODD = [fault.name for fault in planted.odd_forms(model())]


def main():
    words = asked(__doc__, 'tests/trials.py [all]', lambda words: words in ([], ['all']))
    names = [*FAULTS, *(name for at, name in enumerate(ODD) if words or at % FORMS == at // FORMS % FORMS)]
    FAULTS.update((fault.name, fault) for fault in planted.odd_forms(model()))
    with contextlib.ExitStack() as stack:
        ports = multiprocessing.SimpleQueue()
        for _ in range(AT_ONCE):
            ports.put(stack.enter_context(serving(members=16)).port)
        scenes, members = measured(stack.enter_context(serving(members=40)).port)
        pool = stack.enter_context(multiprocessing.Pool(AT_ONCE, begin, (ports, scenes, members)))
        for told in pool.imap_unordered(tried, names):
            print(json.dumps(told), flush=True)
    return 0


if __name__ == '__main__':
    sys.exit(main())
