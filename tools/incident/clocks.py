"""Which clock may be wrong, where a story (story.py) is answered otherwise than its log says, and which clocks nothing
checks. The lines of one host are moved and replayed anew in each order that this leads to (orders.py): the shifts for
which all of it fits are told, with the checkpoint line that lacks too if there is one."""
import collections
import contextlib
import itertools
import re
import subprocess

from incident import slips
from incident import story
from incident.orders import NEVER, Line, Orders, between, by_likelihood, by_opposite, size
from incident.story import ROOT, Unreadable

# How many orders are replayed at most, and the lines of a story for which that is tried. Orders are counted and not
# seconds, so that the answer is the same on each machine.
MOST_ORDERS, MOST_LINES = 500, 2_000
# How many more are replayed once one fits: a clock that is ahead looks like another one that is behind.
MOST_OPPOSITE = 100
# How many lines are replayed at most, and sorted: of a long story that allows fewer orders.
MOST_REPLAYED, MOST_SORTED = 100_000, 3_000_000
# How many sentences of a kind are said, and how many ranges of shifts in one.
MOST_SAID, MOST_RANGES = 3, 4
NOT_TRIED = 'two wrong clocks, a clock that drifts or jumps'


def plain(line):
    """A line of a story, whole, for a terminal."""
    return re.sub(r'[^ -~]', '?', line)


# ---- what nothing checks

def unchecked(lines):
    """The hosts between which a lease went, where no line of its shard has what only one order of them leads to."""
    found, of = {}, {}
    for it in lines:
        # who creates a row needn't be who has the lease, and a take before it would be refused
        if it.host and it.words[1] != 'create':
            for shard in it.shards:
                of.setdefault(shard, []).append(it)
    for shard, here in of.items():
        hosts = list(dict.fromkeys(it.host for it in here))
        if len(hosts) > 1 and not any(it.ties for it in here):
            found.setdefault(tuple(hosts), []).append(shard)
    said = [not_checked(hosts, shards) for hosts, shards in itertools.islice(found.items(), MOST_SAID)]
    more = len(found) - MOST_SAID
    return said + ([f'and {more} more groups of hosts have nothing that checks their clocks'] if more > 0 else [])


def not_checked(hosts, shards):
    names = story.shown(', '.join(hosts[:-1]) + ' and ' + hosts[-1])
    more = f' and {len(shards) - 2} more' if len(shards) > 2 else ''
    return (f'nothing checks the clocks of {names} against each other: their lines of {", ".join(shards[:2])}{more} '
            'have neither a number (at, to) nor the word fails, so a wrong order of them may not be seen')


# ---- which clock may be wrong

def program():
    """The program that ./kds would run, where the script that finds it would cost more than the replay."""
    said = subprocess.run([ROOT / 'kds', '--version'], capture_output=True, text=True, check=False).stdout
    named = r'^runs (?:the (?:proved|quick) program, )?(.+?)(?:, which KDS names|: not proved.*)?$'
    found = re.search(named, said, re.M)
    path = ROOT / found[1] if found else None
    return str(path) if path and path.is_file() else str(ROOT / 'kds')


# How an order fits: by which checkpoint line that lacks, if any, and with how many refusals that no line says.
Fit = collections.namedtuple('Fit', ('line', 'refused'))


class Search:
    """Replays of the story in other orders, as many as are allowed."""

    def __init__(self, lines, most_refused):
        self.lines, self.most_refused, self.program = lines, most_refused, program()
        self.orders = Orders(lines)
        self.tried, self.looked = 0, 0
        self.most_tried = max(20, min(MOST_ORDERS, MOST_REPLAYED // len(lines)))
        self.most_looked = MOST_SORTED // len(lines)
        # of orders that don't fit: what leads to the lines that are answered otherwise
        self.faults = []
        # whether a line that lacks is tried beside a clock, and whether orders were left untried
        self.with_lines, self.is_cut = True, False

    @property
    def is_over(self):
        return self.tried >= self.most_tried or self.looked >= self.most_looked

    def goes_on(self, it):
        return not it.odds and len(it.refusals) <= self.most_refused

    def fits(self, host, shift):
        """How all of the story is answered as the log has it, or None where it isn't."""
        self.looked += 1
        placed = self.orders.moved(host, shift)
        before = self.orders.before(placed)
        if any(all(before[number] == one for number, one in it.items()) for it in self.faults):
            return None
        self.tried += 1
        lines = [(max(0, int(it.at + (shift if it.host == host else 0))), it.where, it.text) for it in placed]
        try:
            out = story.schedule_of(lines, self.program, self.goes_on)
        except story.Stopped as why:
            lacking = why.story.lacking if self.with_lines else []
            if lacking:
                # with that line it is the whole order that fits, or doesn't
                return self.with_line(lines, *lacking[0])
            self.learn(before, why)
            return None
        except Unreadable:
            return None
        return Fit('', len(out.refusals))

    def as_it_is(self):
        """The line with which the story fits, and without another clock. What else is tried then is clocks alone."""
        fit = self.fits(None, 0)
        if fit and fit.line:
            self.with_lines = False
            self.fits(None, 0)
        return fit.line if fit else ''

    def learn(self, before, why):
        """Each order in which the same leads to the same lines doesn't fit either."""
        places = {why.where} if why.story.odds or self.goes_on(why.story) else {why.where, *why.story.refusals}
        self.faults.append(self.orders.leading_to(before, places))

    def with_line(self, lines, host, rest, where):
        """How all fits with a line that the story lacks, before one of its lines."""
        line, place = f'{host} {rest}', next(i for i, it in enumerate(lines) if it[1] == where)
        self.tried += 1
        with contextlib.suppress(Unreadable):
            more = [*lines[:place], (lines[place][0], where, line), *lines[place:]]
            return Fit(line, len(story.schedule_of(more, self.program, self.goes_on).refusals))
        return None

    def found(self, hosts):
        """For each host the bounds of the shifts that fit, each with how."""
        cells = iter(by_likelihood([cell for host in hosts for cell in self.orders.cells(host)]))
        found = self.fitting_of(cells)
        left = list(cells)
        if left and found:
            self.most_tried += MOST_OPPOSITE
            cells = iter(by_opposite(left, found))
            found += self.fitting_of(cells)
            left = list(cells)
        self.is_cut = bool(left)
        return found

    def fitting_of(self, cells):
        """Those of these bounds that fit, as far as orders are left, each with how."""
        found = []
        for host, low, high in cells:
            # the order of the story as it is, which doesn't fit
            fit = None if low < 0 < high else self.fits(host, between(low, high))
            if fit is not None:
                found.append((host, low, high, fit))
            if self.is_over:
                break
        return found


def joined(ranges):
    """Ranges that meet become one."""
    found = []
    for low, high in sorted(ranges):
        if found and found[-1][1] == low:
            found[-1] = (found[-1][0], high)
        else:
            found.append((low, high))
    return found


def supposed(fit):
    """How much has to be wrong beside a clock. A clock alone explains more than one with a line that lacks."""
    return bool(fit.line) + bool(fit.refused)


def simplest(found):
    """What is to be told: the hosts with the ranges of their shifts, all ahead or all behind, and how they fit."""
    least, by = min((supposed(fit) for *_, fit in found), default=0), {}
    for host, low, high, fit in found:
        if supposed(fit) == least:
            ranges, refused = by.setdefault((host, high <= 0, fit.line), ([], []))
            ranges.append((low, high))
            refused.append(fit.refused)
    told = [(*key, joined(ranges), max(refused)) for key, (ranges, refused) in by.items()]
    return sorted(told, key=lambda it: min(size((None, *bounds)) for bounds in it[3]))


def seconds(ms):
    return f'{ms / 1000:.3f}'.rstrip('0').rstrip('.')


def amount(least, most):
    return f'more than {seconds(least)} s' if most == NEVER else f'{seconds(least)} to {seconds(most)} s'


def amounts(ranges):
    """The shifts, in words."""
    if len(ranges) <= MOST_RANGES:
        return ', or by '.join(itertools.starmap(amount, ranges))
    return f'{amount(ranges[0][0], ranges[-1][1])}, by some of the times between'


def says(host, is_ahead, line, ranges, refused):
    """A clock that is wrong, in words: lines that have to move back are those of a clock that is ahead."""
    way, moves = ('ahead', 'earlier') if is_ahead else ('behind', 'later')
    by = amounts(sorted((-high, -low) for low, high in ranges) if is_ahead else sorted(ranges))
    lacks = f', and if the line {plain(line)} is missing' if line else ''
    but = f' but {refused} {"refusals" if refused > 1 else "refusal"}' if refused else ''
    return (f'all of it{but} fits if the clock of {story.shown(host)} is {way} by {by}: its times would be that much '
            f'{moves}{lacks}')


def shards_near(lines, wrong, out):
    """The shards whose lines have to stand in another order: those of the first line that is answered otherwise."""
    first = [wrong[0], next((it for it in wrong if it.where in out.odds), wrong[0])]
    return set().union(*(it.family for it in first))


def wrong_clock(lines, out, stopped, allowed):
    """Which clock explains what was told, in sentences, if it can be one."""
    places = {*out.odds, *out.refusals, *([stopped.where] if stopped else [])}
    wrong, hosts = [it for it in lines if it.where in places], list(dict.fromkeys(it.host for it in lines if it.host))
    if not wrong or not hosts:
        return []
    if len(lines) > MOST_LINES:
        return [f'whether the clock of a host is wrong was not tried: the story has more than {MOST_LINES} lines']
    search = Search(lines, allowed)
    near = shards_near(lines, wrong, out)
    if not any(it.words[0] == 'api' or it.is_of_streams and near & set(it.shards) for it in lines):
        return []  # nothing in the story makes the shard
    line, found = search.as_it_is(), simplest(search.found(hosts))
    beside = {it.host for it in lines if it.host and near & set(it.shards)}
    also = '; not all orders were tried, so other shifts may fit too' if search.is_cut else ''
    if line:
        fits = f'all of it fits with the line {plain(line)}, which may be missing: no clock has to be wrong'
        return [fits, *fitting_clocks(found, also)]
    if found:
        return fitting_clocks(found, also)
    return [none_fits(search.tried, also)] if search.tried and len(beside) > 1 else []


def fitting_clocks(found, also):
    if not found:
        return []
    return [*(says(*it) for it in found), f'such a clock is a guess. Not tried: {NOT_TRIED}, a missing line other than '
                                          f'a checkpoint{also}']


def none_fits(tried, also):
    many = 'order that was' if tried == 1 else 'orders that were'
    return (f'no wrong clock of one host makes all of it fit, of {tried} {many} replayed: is a line missing, or the '
            f'word fails at one that failed? Not tried: {NOT_TRIED}{also}')


def of_hosts(placed):
    """The lines of a story, each with whose clock it has."""
    lines = [Line(number, clock, line) for number, (clock, line) in enumerate(placed)]
    first = next((it for it in lines if it.verb == 'stream'), None)
    for it in lines:
        # what a story begins with, as a dump of a lease table has it, has the moment of the dump and no clock of a host
        if first and it.at == first.at and story.file_of(it.where) == story.file_of(first.where):
            it.host = None
    return lines


def fitting(placed, program, goes_on):
    """Whether all of a story is answered as its log has it."""
    with contextlib.suppress(Unreadable):
        story.schedule_of([line for _, line in placed], program, goes_on)
        return True
    return False


def mended(placed, found, goes_on):
    """What is told about the slips in a story's files, and whether all of it fits without them."""
    run, said = program(), [it for it in found if it.says]
    told = [it.says for it in said]
    for i, it in enumerate(said):
        if fitting(it.mend(placed), run, goes_on):
            told[i] += ' All of it fits then' if it.says.endswith('?') else '. All of it fits then'
            return told, True
    for it in found:
        placed = it.mend(placed)
    if len(found) > 1 and fitting(placed, run, goes_on):
        return [*told, 'without all these slips, all of it fits'], True
    return told, False


def about(placed, out, stopped=None):
    """What is to be said of a story's files before all else, and of the clocks of its hosts after it. `placed` are all
    lines, each after the moment by which it stands where it does, and `stopped` tells of one that can't be."""
    lines, first, fits = of_hosts(placed), [], False
    found = slips.found(placed) if (stopped.is_of_lines if stopped else out.is_otherwise) else []
    # where more is wrong than refusals, some of these may be what the log has too and their lines don't say; else they
    # are all that there is to explain
    allowed = len(out.refusals) if out.odds or stopped else 0
    if found and (stopped or out.odds or out.refusals):
        first, fits = mended(placed, found, lambda it: not it.odds and len(it.refusals) <= allowed)
    elif found:
        first = [it.says for it in found if it.says]
    wrong = [] if fits or stopped and not stopped.is_misplaced else wrong_clock(lines, out, stopped, allowed)
    return first, wrong + ([] if stopped else unchecked(lines))
