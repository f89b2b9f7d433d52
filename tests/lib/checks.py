"""What the checks share, and the clients and benchmarks too: the tally of what passed and what failed, the place of the
program that they look at, how long a run of it may take, and how a script refuses words that are none of its own."""
import pathlib
import re
import signal
import subprocess
import sys

ROOT = pathlib.Path(__file__).resolve().parent.parent.parent
# The seconds after which a run of the program is ended. The longest one takes two where nothing else runs.
SECONDS = 300
# how much of a value is shown where another was wanted
SHOWN = 400


class Tally:
    """How many checks passed and failed. One that fails is printed at once."""

    def __init__(self):
        self.passed = self.failed = 0

    def holds(self, holds, fault):
        if holds:
            self.passed += 1
        else:
            self.failed += 1
            print(f'FAILED {fault}', flush=True)

    def check(self, name, wanted, given):
        self.holds(wanted == given, f'{name}: wanted {short(wanted)}, given {short(given)}')

    def end(self, what=''):
        """Prints the counts, and returns the status that the script ends with."""
        print(f'{what}{self.passed} passed, {self.failed} failed')
        return 1 if self.failed else 0


def short(value):
    text = repr(value)
    return text if len(text) <= SHOWN else f'{text[:SHOWN]}.. ({len(text):,} characters)'


def program():
    """The place of the program that a check, a client or a benchmark takes: what KDS names, or else the proved one,
    built first where that is due. Where there is none the script ends: build/checked has said why."""
    done = subprocess.run([ROOT / 'build' / 'checked'], stdout=subprocess.PIPE, text=True, check=False)
    if done.returncode != 0:
        sys.exit(done.returncode)
    return done.stdout.rstrip('\n')


def tunables():
    """What `./kds` tells its allocator of memory where the caller doesn't: the value of GLIBC_TUNABLES."""
    return re.search(r'^tunables=(.*)$', (ROOT / 'build' / 'programs').read_text(), re.M)[1]


def fail(what):
    """Ends the script where a check can't go on."""
    print(f'FAILED {what}', flush=True)
    sys.exit(1)


def run(command, name, **how):
    """Runs a command, as `subprocess.run` does. One that goes on for too long is ended, and the script with it: each
    further run would wait as long."""
    try:
        return subprocess.run(command, check=False, timeout=SECONDS, **how)
    except subprocess.TimeoutExpired:
        fail(f'{name}: it has not ended within {SECONDS} seconds')


def asked(doc, usage, fits=lambda words: not words):
    """The words that a script was given. For help it ends with its text; and with one line and status 2 where the
    words aren't as its usage says."""
    words = sys.argv[1:]
    if words in (['--help'], ['-h']):
        print(doc)
        sys.exit(0)
    if not fits(words):
        print(f'usage: {usage}; --help says more', file=sys.stderr)
        sys.exit(2)
    return words


def heed_signals():
    """Lets whoever ends the script end what it started: it ends as by an error."""
    signal.signal(signal.SIGTERM, lambda *_: sys.exit(143))


def is_number(word, least, most):
    """Whether a word is a whole number of this range, in its one spelling."""
    return (word.isascii() and word.isdecimal() and (word == '0' or word[0] != '0') and least <= int(word[:20]) <= most
            and len(word) <= 20)
