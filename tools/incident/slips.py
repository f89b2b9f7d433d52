"""What the files of a story show by themselves, where the story is answered otherwise than its log says: times that go
back, lines that stand twice, and hosts that may be one. Each comes with the story as it would be without that slip."""
import collections
import heapq
import itertools
import re

from incident import story

# How many slips of a kind are told.
MOST_SAID = 3
UUID = re.compile(r':[0-9a-f]{8}(?:-[0-9a-f]{4}){3}-[0-9a-f]{12}$', re.I)

# A slip: what is told about it, and what makes the right lines of all lines, which come and go with their clocks.
Slip = collections.namedtuple('Slip', ('says', 'mend'))


def line_of(where):
    return int(where.rpartition(' ')[2])


def and_more(count, what):
    return f', and so {"is" if count == 1 else "are"} {count} more {what}{"s" if count > 1 else ""}' if count else ''


def by_files(placed):
    """The lines of each file, in its order."""
    files = {}
    for clock, line in placed:
        files.setdefault(story.file_of(line[1]), []).append((clock, line))
    return files


# ---- times that go back

def going_back(placed):
    """The files whose times go back. Of the last of many nothing is said."""
    told = 0
    for name, lines in by_files(placed).items():
        steps = [(one[1], other[1]) for one, other in itertools.pairwise(lines) if other[1][0] < one[1][0]]
        if steps:
            (above, _, _), (at, where, _) = steps[0]
            says = (f'{where} is {story.span(above - at)} before the line above it{and_more(len(steps) - 1, "line")}, '
                    'and lines of a file keep their order: write a file for each host, or sort it')
            yield Slip(says if told < MOST_SAID else '', lambda placed, name=name: in_order(placed, name))
            told += 1


def in_order(placed, name):
    """The lines, with those of a file sorted by their times."""
    files = by_files(placed)
    files[name] = sorted(((line[0], line) for _, line in files[name]), key=lambda it: it[0])
    return list(heapq.merge(*files.values(), key=lambda it: it[0]))


# ---- lines that stand twice

def doubled(placed):
    """The places of lines that are the same as one before, each with that one's."""
    seen, found = {}, []
    for _, (at, where, text) in placed:
        if story.is_by_names(text):
            first = seen.setdefault((at, *text.split()), where)
            if first != where:
                found.append((where, first))
    return found


def standing_twice(placed):
    found = doubled(placed)
    if found:
        where, first = found[0]
        same = f'line {line_of(first)}' if story.file_of(first) == story.file_of(where) else first
        yield Slip(f'{where} is the same as {same}, word for word and moment{and_more(len(found) - 1, "line")}: '
                   'does it stand there twice?', once)


def once(placed):
    """The lines without those that stand there twice."""
    again = {where for where, _ in doubled(placed)}
    return [it for it in placed if it[1][1] not in again]


# ---- hosts that may be one

def host_of(text):
    words = text.split()
    named = story.is_by_names(text) and len(words) > 1 and words[1] in story.FORMS and words[0] not in story.KINDS
    return words[0] if named and words[0] not in story.OF_STREAMS else None


def named_alike(placed):
    alike = {}
    for host in dict.fromkeys(host_of(line[2]) for _, line in placed):
        if host:
            alike.setdefault(UUID.sub('', host).casefold(), []).append(host)
    for number, hosts in enumerate(it for it in alike.values() if len(it) > 1):
        by = 'a UUID' if any(map(UUID.search, hosts)) else 'capital letters'
        says = f'the hosts {story.shown(" and ".join(hosts))} differ by {by} alone: if they are one, use one name'
        yield Slip(says if number < MOST_SAID else '', lambda placed, hosts=hosts: as_one(placed, hosts))


def as_one(placed, hosts):
    """The lines, with one name for these hosts."""
    return [(clock, (at, where, ' '.join([hosts[0], *text.split()[1:]]) if host_of(text) in hosts else text))
            for clock, (at, where, text) in placed]


def found(placed):
    """All slips."""
    return [*going_back(placed), *standing_twice(placed), *named_alike(placed)]
