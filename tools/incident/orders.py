"""The orders in which the lines of a story (story.py) can stand if the clock of one host is wrong. A host's lines keep
their own order. Two orders count as one if they differ only in pairs of lines whose order nothing depends on."""
import itertools
import re

from incident import story
from incident.story import FORMS, OF_STREAMS, OWN

NEVER = float('inf')
# How far beyond the last line with which they could change places a host's lines are moved, in milliseconds.
BEYOND = 1_000
HOUR = 3_600_000
# What the requests begin with that change nothing.
ASKS = ('Get', 'List', 'Describe')
# Whether a shard's lease can be opened, made or deleted depends on the rows of the shards from which it comes.
BY_PARENTS = {'open', 'create', 'delete', 'raw'}


class Line:
    """A line of a story in its place: who does it, and with which shards."""

    def __init__(self, number, clock, line):
        self.number, self.clock, (self.at, self.where, self.text) = number, clock, line
        self.words = self.text.split()
        self.verb, self.owner, self.is_of_streams = '', None, False
        self.shards = [it.rpartition('/')[2] for it in self.read(self.words)]
        # whose clock the line has
        self.host = self.owner
        # the shards, and all from which they come or that come from them
        self.family = set(self.shards)

    def read(self, words):
        """Whose line it is; gives its shards."""
        if not story.is_by_names(self.text):
            self.is_of_streams = words[0] == 'api'
            self.verb = 'asks' if self.is_of_streams and words[1:] and words[1].startswith(ASKS) else ''
            return []
        if words[0] == 'raw':
            self.verb, self.owner = 'raw', words[1] if len(words) > 1 and not words[1].isdigit() else None
            return [it for it in words[3:4] if not it.isdigit()]
        if words[0] in OF_STREAMS:
            self.verb, self.is_of_streams = words[0], True
            return words[2:] if words[0] == 'stream' else words[1:2] if words[0] == 'records' else words[1:4]
        if len(words) < 2 or words[1] not in FORMS:
            return []
        self.owner, self.verb = words[:2]
        return words[3:4] if words[1] == 'hand' else words[2:3]

    @property
    def ties(self):
        """Whether the line has what only one order of the hosts' lines leads to."""
        return self.words[-1] == 'fails' or bool({'at', 'to'} & set(self.words[3:]))

    @property
    def reads(self):
        return self.verb in ('fetch', 'process')

    @property
    def counts(self):
        """Whether it says how many records are read."""
        return any(re.fullmatch(r'[1-9]\d*', it) for it in self.words[3:4])

    @property
    def numbers(self):
        """The sequence numbers that it has, apart from hash keys."""
        return {it for it in self.words[3:] if it.isdigit() and int(it) >= OWN} if self.verb != 'split' else set()

    @property
    def is_numbered(self):
        """Whether it has numbers of the replay's own, which any line before it may change."""
        if self.words[0] in story.KINDS:
            return self.words[0] != 'api'
        pairs = zip(self.words, self.words[1:]) if self.verb != 'split' else ()
        return any(one in ('at', 'to') and other.isdigit() and int(other) < OWN for one, other in pairs)


def families(lines):
    """Gives each line all shards that come from one of its shards, or from which that comes."""
    of = {}
    for it in lines:
        if it.verb in ('split', 'merge'):
            whole = set().union(*(of.get(shard, {shard}) for shard in it.shards))
            of |= {shard: whole for shard in whole}
    for it in lines:
        it.family = set().union(*(of.get(shard, {shard}) for shard in it.shards))


def depends(one, other):
    """Whether what a line is answered can depend on the order of these two. Where that isn't known, it can."""
    if not one.verb or not other.verb:
        return True
    if one.owner and one.owner == other.owner and 'restarts' in (one.verb, other.verb):
        return True
    if not set(one.shards) & set(other.shards):
        return bool(BY_PARENTS & {one.verb, other.verb} and one.family & other.family)
    if one.owner == other.owner or not one.reads and not other.reads:
        return True
    if one.reads and other.reads:
        # one that doesn't say how many it reads gets what the others had put
        return not (one.counts and other.counts)
    row = other if one.reads else one
    # who reads needs no lease, and no row has what another host read but by its number
    return row.owner is None or row.verb == 'raw' or bool(row.numbers)


class Orders:
    """All orders of the lines, each by the lines that stand before each line on which it depends."""

    def __init__(self, lines):
        self.lines = lines
        families(lines)
        self.numbered = any(it.is_numbered for it in lines)
        by = {}
        for it in lines:
            for key in self.keys(it):
                by.setdefault(key, []).append(it)
        # the numbers of the lines on which each depends, or that depend on it, and the same as bits
        self.near = [self.near_to(it, by) for it in lines]
        self.bits = [sum(1 << number for number in near) for near in self.near]

    def keys(self, line):
        """Two lines of which one depends on the other have one of these in common."""
        whole = [''] if self.numbered or not line.verb else []
        return [*whole, *line.family, *([('of', line.owner)] if line.owner else [])]

    def near_to(self, line, by):
        if self.numbered or not line.verb:
            return [it.number for it in self.lines if it is not line]
        found = {it.number: it for key in ('', *self.keys(line)) for it in by.get(key, ())}
        return sorted(number for number, it in found.items() if it is not line and depends(line, it))

    def cells(self, host):
        """The bounds of the shifts of a host's clock that lead to one order each."""
        bounds = {self.lines[number].clock - it.clock for it in self.lines if it.host == host
                  for number in self.near[it.number] if self.lines[number].host != host}
        bounds = [-NEVER, *sorted(bounds), NEVER]
        return [(host, low, high) for low, high in zip(bounds, bounds[1:])]

    def moved(self, host, shift):
        """The lines in the order that they have with a host's clock moved."""
        return sorted(self.lines, key=lambda it: (it.clock + (shift if it.host == host else 0), it.number))

    def before(self, placed):
        """For each line of an order, by its number, the lines near it that stand before it."""
        found, passed = [0] * len(placed), 0
        for it in placed:
            found[it.number] = self.bits[it.number] & passed
            passed |= 1 << it.number
        return found

    def leading_to(self, before, places):
        """The lines on which the answers of some lines depend, each with those near it that stand before it."""
        unread = [it.number for it in self.lines if it.where in places]
        found = {}
        while unread:
            number = unread.pop()
            if number not in found:
                found[number] = before[number]
                unread += [it for it in self.near[number] if before[number] >> it & 1]
        return found


def size(cell):
    _, low, high = cell
    return min(abs(low), abs(high))


def is_of_a_zone(cell):
    """Whether a shift by whole hours lies within the bounds: a time zone that was lost is the likeliest slip."""
    _, low, high = cell
    return any(low <= hours * HOUR <= high for hours in range(-14, 15) if hours)


def by_likelihood(cells):
    """From small shifts to large ones, in turn with those of whole hours."""
    kinds = [[it for it in cells if is_of_a_zone(it) == of_a_zone] for of_a_zone in (False, True)]
    pairs = itertools.zip_longest(*(sorted(it, key=size) for it in kinds))
    return [cell for pair in pairs for cell in pair if cell]


def by_opposite(cells, found):
    """By how far they are from the opposite of a shift of another host that fits."""
    def distance(cell):
        host, low, high = cell
        return min((max(0, -most - high, low + least) for other, least, most, _ in found if other != host),
                   default=NEVER)
    return sorted(cells, key=distance)


def between(low, high):
    """A shift within these bounds, one of which may be missing."""
    return high - BEYOND if low == -NEVER else low + BEYOND if high == NEVER else (low + high) / 2
