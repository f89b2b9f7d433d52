"""docs/differences.md held to the cases: each row of the page has a case, or a reason here why it has none; and each
case has its row."""
import pathlib
import re

from differing.case import DIFFERENT, LEFT, MEMBERS, OWN

PAGE = pathlib.Path(__file__).resolve().parent.parent.parent / 'docs' / 'differences.md'
WORKERS = 'the leases and workers of the Client Library are no part of the API'
# the rows without a case
UNSEEN = {
    (LEFT, 'TLS'): 'the scheme of the endpoint decides it before the first call',
    (LEFT, 'IAM'): 'permissions belong to an account, and a case has one',
    (LEFT, 'HTTP/2'): 'the cases speak HTTP/1.1',
    (LEFT, 'Durability'): 'no call ends a server',
    (LEFT, 'The table of leases'): WORKERS,
    (LEFT, 'Parts of the Client Library'): WORKERS,
    (LEFT, 'Parts of aggregated records'): WORKERS,
    (DIFFERENT, 'Largest pages'): 'takes more than 100 shards',
    (DIFFERENT, 'ShardCount above 500'): 'takes 501 shards on a server that accepts it',
    (OWN, 'Trimming'): 'takes 24 hours',
    (OWN, 'Limits'): 'takes 65 streams or 501 shards',
    (OWN, 'Connections'): 'a property of connections, which tests/service/unfriendly.py tries',
    (OWN, 'Time'): 'no call sets the clock of a server',
    **{
        (OWN, name): WORKERS
        for name in (
            'Where a lease begins',
            'Leases',
            "Writes of a lease's row",
            'When a row is removed',
            'Which leases a worker takes',
            'When a lease is free for others',
            'What a worker does next',
            'How a consumer goes on',
        )
    },
}


def placed(text):
    """The rows of the page, each with its line: what a list item has in bold at its head, and the first cells of
    tables, each with its section."""
    section, within = None, False
    for at, line in enumerate(text.splitlines()):
        title, item = re.match(r'^## (.*)$', line), re.match(r'^- (?:\*\*(.*?)\*\*)?', line)
        section = title[1] if title else section
        name = None
        if item:
            name = (item[1] or line[2:40]).rstrip('.:')
        elif line.startswith('| ') and within:
            name = line[2:].split(' | ')[0]
        if name and section in (LEFT, MEMBERS, DIFFERENT, OWN):
            yield at, (section, name.replace('`', ''))
        within = line.startswith('|')


def faults(scenes, text=None):
    """What the page or the cases lack."""
    there = [row for _, row in placed(PAGE.read_text() if text is None else text)]
    cases = {one.row for scene in scenes for one in scene.cases if one.row}
    yield from (
        f'docs/differences.md has a row twice: {": ".join(row)}'
        for row in sorted({row for row in there if there.count(row) > 1})
    )
    yield from (
        f'a row of docs/differences.md has no case, nor a reason in tools/differing/page.py: {": ".join(row)}'
        for row in there
        if row not in cases | set(UNSEEN)
    )
    yield from (
        f'a case or a reason has no row in docs/differences.md: {": ".join(row)}'
        for row in sorted(cases | set(UNSEEN))
        if row not in there
    )
    yield from (
        f'a row has a case and a reason why there is none: {": ".join(row)}' for row in sorted(cases & set(UNSEEN))
    )
    names = [(one.scene, one.name) for scene in scenes for one in scene.cases]
    yield from (
        f'two cases have one name: {": ".join(name)}'
        for name in sorted({name for name in names if names.count(name) > 1})
    )


def places(scenes, model):
    """Cases whose operation or member the installed model doesn't know. Older models know fewer."""
    for scene in scenes:
        for one in scene.cases:
            operation, _, member = one.place.partition('.')
            if operation and (
                operation not in model.operation_names
                or (member and not any(has(shape, member) for shape in shapes(model, operation)))
            ):
                yield f'{scene.name}: {one.name}: the model has no {one.place}'


def shapes(model, operation):
    of = model.operation_model(operation)
    return [shape for shape in (of.input_shape, of.output_shape) if shape is not None]


def has(shape, member):
    if shape.type_name == 'list':
        return has(shape.member, member)
    return shape.type_name == 'structure' and (
        member in shape.members or any(has(inner, member) for inner in shape.members.values())
    )
