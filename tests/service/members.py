"""The members of requests and replies: those of botocore's model, those that docs/formats.md says are read or answered,
and those that docs/differences.md lists as ignored, refused or missing. Each member of the model of an operation that
is served is one of these, and only one. The operations of the model that aren't served are those that
docs/differences.md names. Nothing is asked of a server here; that a reply has the members of docs/formats.md is tested
by suite.py and by the stored outputs."""
import pathlib
import re
import unittest

import botocore.session

ROOT = pathlib.Path(__file__).resolve().parent.parent.parent
EACH = 'each with a StreamName'
OWN = 'LocalEnforceLimits'


def section(page, head):
    """The part of a page below a heading, up to the next one of its level."""
    text = (ROOT / 'docs' / page).read_text()
    return re.search(rf'^## {head}\n(.*?)(?=^## |\Z)', text, re.S | re.M)[1]


def rows(text):
    """The rows of the first table of a text, without its head."""
    lines = re.search(r'(?:^\|.*\n)+', text, re.M)[0].splitlines()
    return [[cell.strip() for cell in line.strip('|').split('|')] for line in lines[2:]]


def names(text):
    return set(re.findall(r'\b[A-Z]\w*[a-z]\w*\b', text))


def by_operation(text):
    """What each operation's rows say."""
    found = {}
    for first, *rest in rows(text):
        for operation in re.findall(r'\b[A-Z][a-z]\w+(?=,|$)', re.sub(' with(out)? .*', '', first)):
            found[operation] = found.get(operation, '') + ' ' + ' '.join(rest)
    return found


def walk(shape, path=()):
    """The members of a shape, each with those above it."""
    if shape is None:
        return
    if shape.type_name == 'list':
        yield from walk(shape.member, path)
    elif shape.type_name == 'structure':
        for name, inner in shape.members.items():
            yield (*path, name)
            yield from walk(inner, (*path, name))


class Members(unittest.TestCase):
    @classmethod
    def setUpClass(cls):
        cls.model = botocore.session.get_session().get_service_model('kinesis')
        cls.requests = by_operation(section('formats.md', 'Requests'))
        replies = section('formats.md', 'Replies')
        cls.replies = by_operation(replies)
        cls.within = names(re.search(r'Times are whole seconds(.*?)Every refusal', replies, re.S)[1])
        cls.listed = {first: tuple(names(cell) for cell in rest)
                      for first, *rest in rows(section('differences.md', 'Members'))}
        cls.served = [operation for operation in cls.requests if operation != OWN]

    def of(self, operation, column):
        """The members of a column of the page: those of the operation, and those of every operation with a
        StreamName."""
        common = (self.listed[EACH][column]
                  if 'StreamName' in self.model.operation_model(operation).input_shape.members else set())
        return self.listed.get(operation, (set(),) * 3)[column] | common

    def unlisted(self, operation, shape, known, listed):
        """The members that are neither known nor, themselves or by what holds them, listed."""
        for path in walk(shape):
            if not listed.intersection(path) and path[-1] not in known:
                yield f'{operation}: {".".join(path)}'

    def test_each_operation_of_the_formats_is_one_of_the_model(self):
        self.assertEqual(set(), set(self.served) - set(self.model.operation_names))
        self.assertEqual(15, len(self.served))

    def test_each_member_of_a_request_is_read_ignored_or_refused(self):
        for operation in self.served:
            read = names(self.requests[operation]) | (names(self.requests['PutRecord'])
                                                      if operation == 'PutRecords' else set())
            listed = self.of(operation, 0) | self.of(operation, 1)
            shape = self.model.operation_model(operation).input_shape
            self.assertEqual([], list(self.unlisted(operation, shape, read, listed)))

    def test_each_member_of_a_reply_is_answered_or_missing(self):
        for operation in self.served:
            answered = names(self.replies[operation]) | self.within
            shape = self.model.operation_model(operation).output_shape
            self.assertEqual([], list(self.unlisted(operation, shape, answered, self.of(operation, 2))))

    def test_no_listed_member_is_handled(self):
        for operation in self.served:
            self.assertEqual(set(), self.of(operation, 0) & names(self.requests[operation]), operation)
            self.assertEqual(set(), self.of(operation, 2) & names(self.replies[operation]), operation)

    def test_each_operation_that_is_not_served_is_named(self):
        """An older botocore knows fewer of those that the page names."""
        item = re.search(r'^- \*\*Operations\.\*\*.*?:(.*?)(?=^- |\Z)', section('differences.md', 'Left out'),
                         re.S | re.M)
        listed, left = names(item[1]), set(self.model.operation_names) - set(self.served)
        self.assertEqual(set(), left - listed)
        if 'UpdateStreamWarmThroughput' in left:
            self.assertEqual(set(), listed - left)

    def test_the_page_lists_served_operations_alone(self):
        self.assertEqual(set(), set(self.listed) - set(self.served) - {EACH})
