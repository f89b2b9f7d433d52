"""What a case's outcome means, and how it is shown."""

SAME, REFERENCE, KDS, OPEN, OTHERWISE = 'same', 'as the reference', 'as kds', 'another choice', 'OTHERWISE'
UNREACHED, UNTRIED = 'not reached', 'not tried'
ORDER = (SAME, REFERENCE, KDS, OPEN, OTHERWISE, UNREACHED, UNTRIED)


def expected(one, model):
    """What `kds` does. For members it depends on those that the installed model knows."""
    return one.kds(model) if callable(one.kds) else one.kds


def among(given, wanted):
    return wanted is not None and given in (wanted if isinstance(wanted, tuple) else (wanted,))


def judge(one, given, model):
    as_says, as_kds = among(given, one.says), among(given, expected(one, model))
    if as_says or as_kds:
        return SAME if as_says and as_kds else REFERENCE if as_says else KDS
    return OPEN if one.says is None else OTHERWISE


def is_fault(verdict, ours):
    """Whether a verdict counts for the status: of `kds` each that isn't what the page says, of another server each
    that is as neither."""
    return verdict in (OTHERWISE, UNREACHED) or (ours and verdict in (REFERENCE, OPEN))


def shown(wanted):
    return 'open' if wanted is None else ' or '.join(wanted) if isinstance(wanted, tuple) else wanted


def lines(one, given, verdict, ours, model):
    """What is printed of a case: how it came, and why that is worth a look."""
    yield f'{verdict:<17} {one.scene}: {one.name}: {given}'
    if verdict in (REFERENCE, OPEN, OTHERWISE) or is_fault(verdict, ours):
        said = f': {one.place}: {one.reading}' if one.reading else ''
        yield f'{"":<17} kds: {shown(expected(one, model))}; the reference: {shown(one.says)}{said}'


def row(one, given, verdict, model):
    """A row of the table of a server that isn't `kds`."""
    cells = (f'{one.scene}: {one.name}', shown(expected(one, model)), shown(one.says), given, verdict)
    return '| ' + ' | '.join(cell.replace('|', '\\|').replace('\n', ' ') for cell in cells) + ' |'


HEAD = '| Case | `kds` | Reference | Came | Verdict |\n|---|---|---|---|---|'
