"""A run of the cases against one server. Whatever ends it, the streams that it made are deleted."""
import collections
import contextlib
import os
import signal
import sys
import time
import urllib.parse

from differing import page, verdict
from differing.faults import Refused, Unreachable, is_here
from differing.runner import run
from differing.streams import Streams

SIGNALS = (signal.SIGINT, signal.SIGTERM, signal.SIGHUP)


class Ended(BaseException):
    """A signal came. It isn't an Exception, so that nothing that handles faults of calls takes it for one."""


def tell(text):
    """A line on the error output. It may be closed or full, and what was made is deleted all the same."""
    if sys.stderr is not None:
        with contextlib.suppress(OSError):
            print(f'differences: {text}', file=sys.stderr, flush=True)


def end(number, _):
    """The first signal ends the run. From then on signals only say so: what was made is deleted first."""
    clean_first()
    raise Ended(number)


def heed():
    for number in SIGNALS:
        signal.signal(number, end)


def clean_first():
    for number in SIGNALS:
        signal.signal(number, lambda *_: tell('what was made is being deleted'))


def no_output(fault):
    tell(f"the output can't be written: {fault.strerror or fault}")
    return 2


def ended(main):
    """The status of `main`, once the output has all. If it can't be written, Python isn't to try that again."""
    status = 0
    try:
        status = main()
        if sys.stdout is not None:
            sys.stdout.flush()
    except OSError as fault:
        status = status or no_output(fault)
        os.dup2(os.open(os.devnull, os.O_WRONLY), 1)
    return status


class Report:
    def __init__(self, given, model):
        self.given, self.model, self.ours = given, model, given.endpoint is None
        self.counts, self.faults = collections.Counter(), 0

    def __call__(self, one, came, how):
        self.counts[how] += 1
        self.faults += verdict.is_fault(how, self.ours)
        if not self.given.table:
            print('\n'.join(verdict.lines(one, came, how, self.ours, self.model)), flush=True)
        elif how in (verdict.REFERENCE, verdict.OPEN, verdict.OTHERWISE, verdict.UNREACHED):
            print(verdict.row(one, came, how, self.model), flush=True)

    def end(self, calls, streams, seconds):
        counted = (
            ', '.join(f'{self.counts[how]} {how}' for how in verdict.ORDER if self.counts[how]) or 'nothing tried'
        )
        print(
            f'{counted}; {calls} calls, {streams} streams in {seconds:.0f} s',
            file=sys.stderr if self.given.table else sys.stdout,
            flush=True,
        )


def held(scenes, endpoint, report):
    """The page against the cases, and the places that cases name against the installed model."""
    for fault in page.faults(scenes):
        print(f'FAILED {fault}')
        report.faults += 1
    for fault in page.places(scenes, endpoint.model):
        tell(f'note: {fault}')


class Run:
    def __init__(self, given, scenes, pairs):
        self.given, self.scenes, self.pairs = given, scenes, pairs
        self.endpoint, self.streams, self.report = None, None, None

    def begin(self, stack):
        """Finds the server, and asks it for the names of its streams."""
        given = self.given
        url = given.endpoint or stack.enter_context(started()).endpoint
        here = is_here(urllib.parse.urlsplit(url).hostname)
        from differing.endpoint import Endpoint  # needs botocore

        self.endpoint = Endpoint(url, given.region, (0 if here else 0.25) if given.pace is None else given.pace)
        self.report = Report(given, self.endpoint.model)
        if given.endpoint is None:
            held(self.scenes, self.endpoint, self.report)
        told = self.endpoint.call('ListStreams', Limit=1)
        if not isinstance(told, dict) or not isinstance(told.get('StreamNames'), list):
            raise Unreachable(f'{url}: its reply to ListStreams has no StreamNames')
        self.streams = Streams(self.endpoint)
        tell(f'{url}: streams {self.streams.stem}-..')

    def status(self, stack):
        """Runs the cases, and says what ended them before their end."""
        try:
            self.begin(stack)
            if self.given.table:
                print(verdict.HEAD)
            run(self.pairs, self.streams, self.report, self.given.beyond, self.given.slow)
        except (Unreachable, Refused) as fault:
            tell(fault)
            return 2
        except Ended as fault:
            return by_signal(fault)
        except OSError as fault:  # the calls' own are Refused or Unreachable
            return no_output(fault)
        except Exception as fault:
            tell(f'ended by {type(fault).__name__}: {fault}')
            return 2
        return 0


def by_signal(fault):
    tell(f'ended by {signal.Signals(fault.args[0]).name}')
    return 128 + fault.args[0]


def play(given, scenes, pairs, stack):
    """The status of a run. Whatever ends it, what it made is deleted."""
    begin, one = time.monotonic(), Run(given, scenes, pairs)
    try:
        status = one.status(stack)
        clean_first()
    except Ended as fault:  # it came while another end was told
        status = by_signal(fault)
    left = clean_up(one.streams, given)
    with contextlib.suppress(OSError):  # whoever read the output may have ended
        if one.streams:
            one.report.end(one.endpoint.calls.total(), one.streams.count, time.monotonic() - begin)
    return 3 if left else status or (1 if one.report and one.report.faults else 0)


def started():
    """`kds`, started here."""
    from lib.server import serving

    return serving(members=40)


def clean_up(streams, given):
    """Deletes what was made, and says what is left. A server that was started here is gone with all that it had."""
    left = streams.give_up() if streams and given.endpoint else []
    for name in left:
        tell(f'left there: {name}')
    return left
