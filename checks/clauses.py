#!/usr/bin/env python3
"""Which edit breaks which clause. The prover refuses a wrong body because it can't prove some goal: a clause of the
edited function, or what a function that it calls requires. checks/refusals.txt has these goals for each edit that the
gate tries. It has one line for each edit: the crate, the name, the file that the edit changes, and the goals. `rt ci`
tells only the first goal of an edit, and `./dev edits` tells all of them.

    checks/clauses.py LOG            compares what a log of `rt ci` or of `./dev edits` says with checks/refusals.txt.
                                     If an edit was kept from an earlier run, `rt ci` tells its goal once more
    checks/clauses.py --write LOG..  writes what the logs say into checks/refusals.txt. A later log counts more, and one
                                     of `./dev edits` more than one of `rt ci`. Then run ./dev names --write
    checks/clauses.py table          prints the clauses of the public contracts, and the edits that break each
    checks/clauses.py page           prints the table of docs/wrong-bodies.md: the clauses that none breaks, and why
    checks/clauses.py open           prints the clauses that no stored goal is of, and for which LEFT has no reason:
                                     none

A goal is written FUNCTION.CLAUSE for a clause that the function ensures (`ensures` if its only clause has no name),
FUNCTION>CALLED.CLAUSE for a clause that a function called there requires, and FUNCTION:GOAL for any other. If the log
cuts off a goal, `..` stands at its end. An edit that is refused only by a limit of the prover has the goal `limit`. An
edit that is refused only because its proof names what the edit took away, or whose goal can't be read, has the goal
`?`."""
import fnmatch
import functools
import os
import re
import sys

from lib.checks import ROOT, Tally, asked

TABLE = ROOT / 'checks' / 'refusals.txt'
HEADING = '# The goals that refuse each edit that the gate tries. checks/clauses.py --write LOG.. writes this file.\n'
# What a log says of an edit: `rt ci` and `rt must-fail` one goal, `./dev edits` all of them.
TOLD = re.compile(r'^rt: must-fail (\w+)/(\S+?)\.edit: refused, as it must be(.*)$')
TOLD_ALL = re.compile(r'^(\w+)/(\S+): goal: (.*)$')
# a goal of the function's own, at a place of the code; and one whose answer in a proof file is wrong
AT_CODE = re.compile(r'(?:note: )?(?:\./)?(src/[^:\s]+):(\d+):\d+: (.*)$')
AT_PROOF = re.compile(r'(?:note: )?(?:\./)?(proofs/\S+?)((?:/Answers)?\.antt):(\d+):\d+: (?:error|note): `([^`]+)`')

# The public contracts whose clauses the page lists: the crate, and its functions. `OWNER::*` stands for all public
# methods of a type, and `*` for all public functions.
CONTRACTS = [
    ('kds_cli_runs', ['run', 'run_replay', 'run_answer']),
    ('kcl_audit', ['run_audit']),
    ('kds_server', ['serve_lone', 'serve_pass', 'crew']),
    ('kcl_live', ['run_worker', 'run_crew']),
    ('kds_turn', ['Hall::*']),
    ('kcl_world', ['WorldMachine::apply']),
    ('kcl_worker', ['Worker::*']),
    ('kcl_consumer', ['Consumer::*']),
    ('kcl_take', ['plan']),
    ('kcl_sync', ['plan']),
    ('kcl_renew', ['due']),
    ('kcl_laws', ['*']),
]
# An implementation of a trait's method must meet the trait's clauses: the implementation, and where the trait stands.
TRAITS = {('kcl_world', 'WorldMachine::apply'): ('kds_defs', 'src/machine.rt', 'apply')}
# What is read, answered and written for one connection; and how its bytes end. The contract of `read_piece` is one
# record, and the goal of an edit doesn't tell which part of it is broken, so it counts for what is served alone.
ENDED = ['serve.ended', 'exchange.goes_on', 'exchange.ended']
SERVED = [
    *ENDED, 'exchange.free', 'make_turn.goes_on', 'serve_next.goes_on', 'flush.written', 'flush.stands',
    'write_early.goes_on', 'write_early.ended', 'read_next.ensures', 'read_piece.ensures', 'read_large_piece.ensures',
]
# A clause of a contract that follows from a clause of another name: the clause, and those that it follows from.
THROUGH = {
    ('kds_cli_runs', 'run.ended'): [
        'perform_words.performed', 'perform.performed', 'run_serve.told', 'run_replay.told', 'run_answer.served',
    ],
    ('kds_cli_runs', 'run.sound'): ['write_rest.bits', 'record_schedule.sound', 'run_replay.sound'],
    ('kds_cli_runs', 'run.usage'): ['perform_words.usage'],
    ('kds_cli_runs', 'run.door_left'): ['perform.door_left'],
    ('kds_cli_runs', 'run.input_left'): ['perform.input_left'],
    ('kds_cli_runs', 'run.complete'): [
        'perform_words.complete', 'perform.complete', 'run_replay.complete', 'run_answer.complete',
    ],
    ('kds_cli_runs', 'run_replay.told'): ['write_rest.told'],
    ('kds_cli_runs', 'run_replay.ran'): ['write_rest.ran'],
    ('kds_cli_runs', 'run_replay.sound'): ['write_rest.bits', 'record_schedule.sound'],
    ('kds_cli_runs', 'run_replay.complete'): ['run_replay.told'],
    ('kds_cli_runs', 'run_answer.complete'): ['run_answer.served'],
    ('kds_server', 'serve_lone.served'): [*SERVED, 'AloneTurner::turn.made'],
    ('kds_server', 'serve_lone.complete'): ENDED,
    ('kds_server', 'serve_pass.served'): SERVED,
    ('kds_server', 'serve_pass.complete'): ENDED,
    ('kcl_audit', 'run_audit.told'): ['tell_end.told'],
    ('kcl_audit', 'run_audit.safe'): ['tell_end.told', 'end_audit.told'],
    ('kcl_audit', 'run_audit.legal'): ['tell_end.told', 'end_audit.told'],
    ('kcl_audit', 'run_audit.complete'): ['run_audit.told', 'end_audit.write'],
    ('kcl_live', 'run_worker.idle'): ['drive.ran'],
    ('kcl_live', 'run_worker.ok'): ['make_turn.ok'],
    ('kcl_live', 'run_worker.err'): ['make_turn.err'],
    ('kds_turn', 'Hall::new.ok'): ['Hall::make_passes.ensures'],
    ('kcl_worker', 'Worker::next.next'): [
        'next_in_part.some', 'next_in_part.none', 'next_while_stopping.some', 'next_while_stopping.none',
        'from_consumers.next', 'from_renewals.next', 'from_takes.next', 'from_sync.next',
    ],
    ('kcl_worker', 'Worker::next.lawful'): ['from_takes.lawful'],
    ('kcl_worker', 'Worker::absorb.absorbed'): [
        'after_renewal.leaves', 'after_renewal.processors', 'after_consumer.held', 'after_consumer.consumers',
        'update_held.ensures', 'tenancy_of.ensures', 'taken_of.ensures', 'add_taken.held', 'add_taken.consumers',
    ],
    # the edit leaves a branch open as a whole, so its goal names no clause
    ('kcl_consumer', 'Consumer::lose.processor'): ['Consumer::lose.ensures'],
    ('kcl_consumer', 'Consumer::absorb.stage'): [
        'after_give.stage', 'after_mark.stage', 'after_open.stage', 'after_end.stage', 'after_read.stage',
        'stage_after_give.stage', 'Ahead::front_stage.stage', 'Ahead::pop_first.ensures',
        'Ahead::stops_filling.ensures',
    ],
    ('kcl_consumer', 'Consumer::absorb.given'): ['last_after.ensures'],
    ('kcl_consumer', 'Consumer::absorb.progress'): [
        'after_open.told', 'after_mark.told', 'after_end.told', 'progress_over.ensures',
    ],
    # what the machine goes back to if memory runs out
    ('kcl_world', 'WorldMachine::apply.kept'): [
        'advance.same', 'advance.can_retreat', 'advance.shows_retreated', 'advance.clock_retreated', 'retreat.advanced',
        'retreat.same',
    ],
    ('kcl_world', 'WorldMachine::apply.sure'): ['lease_answer.sure'],
    ('kcl_world', 'WorldMachine::apply.answered'): [
        'answer.leads', 'lease_answer.leads', 'read.leads', 'read.ensures',
    ],
}
# Goals that an edit leaves open although its body meets the clause: the proof doesn't know the branch that it makes.
MET = {
    ('kds_cli_runs', 'always_write_fault'): ['perform_words.usage', 'perform_words.read', 'perform_words.door'],
    ('kcl_audit', 'audit_ends_with_another_status'): ['run_audit.safe', 'run_audit.legal'],
    ('kds_turn', 'refused_turn_is_want_of_memory'): ['Hall::turn.seen'],
    # true of each error
    ('kds_server', 'spent_is_want_of_memory'): ['HostedTurner::turn.made'],
}
# A clause that no edit of the gate breaks, and why. A `*` stands for any method.
STAYS = 'no edit is made, since it says what stays the same, and an edit would have to add what writes it'
FIELD = 'no edit is made, since it returns a field, and no other field has the type of this one'
OF_THE_SCHEDULE = 'the clause speaks of the input alone: it is a law of the definitions, which no body breaks'
FOLLOWS = 'it follows from other clauses of the contract by the laws, so a body that breaks it breaks one of those'
LONE = 'no edit is made, since it speaks of a value of a type parameter, and the body has no other of this type'
EACH_STEP = 'each function that can change what it speaks of keeps it, so it holds whatever the body calls'
LEFT = {
    ('kds_cli_runs', 'run.safe'): OF_THE_SCHEDULE,
    ('kds_cli_runs', 'run.served'): OF_THE_SCHEDULE,
    ('kds_cli_runs', 'run.handed'): OF_THE_SCHEDULE,
    ('kds_cli_runs', 'run_replay.safe'): OF_THE_SCHEDULE,
    ('kds_cli_runs', 'run_replay.served'): OF_THE_SCHEDULE,
    ('kds_cli_runs', 'run_replay.handed'): OF_THE_SCHEDULE,
    # a pass is changed by `Hall::turn` alone, which says so
    ('kds_server', 'serve_pass.kept'): EACH_STEP,
    ('kds_server', 'serve_pass.seen'): EACH_STEP,
    ('kcl_live', 'run_worker.kept'): STAYS,
    ('kcl_live', 'run_worker.made'): STAYS,
    # each `Hall` call that changes a pass says so of this pass: turn, join and learn; tell leaves it as it is
    ('kcl_live', 'run_worker.seen'): EACH_STEP,
    # from `ok` and `err`, by the law `served` of kcl_worker
    ('kcl_live', 'run_worker.served'): FOLLOWS,
    ('kcl_live', 'run_worker.served_so_far'): FOLLOWS,
    # from `answered`, by the laws `service_answers` and `lease_answers` of kds_defs
    ('kcl_world', 'WorldMachine::apply.own'): FOLLOWS,
    ('kcl_world', 'WorldMachine::apply.leased'): FOLLOWS,
    ('kcl_worker', 'Worker::*.same'): STAYS,
    ('kcl_worker', 'Worker::absorb.made'): STAYS,
    ('kcl_worker', 'Worker::call.waiting'): STAYS,
    ('kcl_worker', 'Worker::stop.unasked'): STAYS,
    ('kcl_worker', 'Worker::release.unasked'): STAYS,
    ('kcl_worker', 'Worker::new.maker'): LONE,
    ('kcl_worker', 'Worker::absorb.asks'): LONE,
    # from `next`: a worker's command is one of leases
    ('kcl_worker', 'Worker::next.own'): FOLLOWS,
    # from `ok`: the consumers are those after the call that was due first
    ('kcl_worker', 'Worker::call.fewer'): FOLLOWS,
    ('kcl_worker', 'Worker::name.ensures'): FIELD,
    ('kcl_worker', 'Worker::held.ensures'): FIELD,
    ('kcl_worker', 'Worker::retired.ensures'): FIELD,
    ('kcl_consumer', 'Consumer::key.ensures'): FIELD,
    ('kcl_consumer', 'Consumer::tenure.ensures'): FIELD,
    ('kcl_consumer', 'Consumer::last_given.ensures'): FIELD,
    ('kcl_consumer', 'Consumer::into_processor.ensures'): FIELD,
    ('kcl_consumer', 'Consumer::new.processor'): LONE,
    # from `next`: a consumer's command is one of leases
    ('kcl_consumer', 'Consumer::next.own'): FOLLOWS,
    # from its premise `HasCalled`, by the lemma `called`
    ('kcl_consumer', 'Consumer::call.stands'): FOLLOWS,
    ('kcl_consumer', 'Consumer::lose.made'): STAYS,
    ('kcl_consumer', 'Consumer::absorb.made'): STAYS,
    ('kds_turn', 'Hall::*.kept'): STAYS,
    ('kds_turn', 'Hall::turn.seen'): EACH_STEP,
    # from `answered`, by the law `step` of kcl_laws
    ('kds_turn', 'Hall::turn.safe'): FOLLOWS,
    # the rule of the table says it of each seat
    ('kds_turn', 'Hall::close.history'): EACH_STEP,
    ('kds_turn', 'Hall::close.seen'): EACH_STEP,
    ('kds_turn', 'Hall::close.all'): EACH_STEP,
    ('kds_turn', 'Hall::close.own'): EACH_STEP,
}


# ---- the code: functions, their clauses and what they call

class Function:
    def __init__(self, file, owner, name, public, first):
        self.file, self.owner, self.name, self.public, self.first = file, owner, name, public, first
        self.last, self.clauses, self.requires, self.body, self.in_body = first, [], [], '', False
        self.texts = {}  # what each clause says that it ensures

    @property
    def path(self):
        return f'{self.owner}::{self.name}' if self.owner else self.name


CLAUSE = re.compile(r'^\s*(requires|ensures)(?: (\w+))? \{')
HEAD = re.compile(r'^(\s*)(pub(?:\(\w+\))? )?(?:const |ghost |unsafe )*fn (\w+)')
OWNER = re.compile(r'^(?:unsafe )?(?:impl(?:<.*?>)? (?:(\w+)(?:<.*?>)? for )?(\w+)|(?:pub )?trait (\w+))')


@functools.cache
def functions(crate):
    """The functions of a crate, in the order of its files and lines."""
    found = []
    for path in sorted((ROOT / 'crates' / crate / 'src').rglob('*.rt')):
        file, owner, now, margin = str(path.relative_to(ROOT / 'crates' / crate)), None, None, ''
        at = None
        for number, line in enumerate(path.read_text().splitlines(), 1):
            impl, head = OWNER.match(line), HEAD.match(line)
            if impl:
                owner = impl[3] or impl[2] + (impl[1] or '')
            if head and not (now and len(head[1]) > len(margin)):
                now, margin = Function(file, owner if head[1] else None, head[3], head[2] == 'pub ', number), head[1]
                found.append(now)
                at = None
            if now:
                now.last, clause = number, None if now.in_body else CLAUSE.match(line)
                now.in_body = now.in_body or line == margin + '{'
                if clause:
                    at = clause[2] or clause[1]
                    (now.clauses if clause[1] == 'ensures' else now.requires).append(at)
                    at = at if clause[1] == 'ensures' else None
                if at and not now.in_body and not line.lstrip().startswith('//'):
                    now.texts[at] = ' '.join([*now.texts.get(at, '').split(), *line.split()])
                elif not clause and not line.lstrip().startswith('//'):
                    now.body += line + '\n'
                if line in (margin + '}', margin + '{}') or (number == now.first and line.endswith(('}', ';'))):
                    now = None
            if line == '}':
                owner = None
    return found


def function_at(crate, file, line):
    # a goal that the tactic of a function leaves open is told at the line of this attribute, above the function
    lines = (ROOT / 'crates' / crate / file).read_text().splitlines()
    while line < len(lines) and lines[line - 1].lstrip().startswith('#['):
        line += 1
    return next((it for it in functions(crate) if it.file == file and it.first <= line <= it.last), None)


def function_of_proof(crate, folder):
    """The function whose proof this folder has: proofs/FILE/TYPE/NAME, without the type where it is of none."""
    *_, owner, name = ['', *folder.split('/')]
    named = [it for it in functions(crate) if it.name == name]
    of_type, free = [it for it in named if it.owner == owner], [it for it in named if not it.owner]
    return next(iter([*of_type, *free, *named]), None)


# a call: of a method of some value, or by the name of a type or a module, or by the name alone
CALL = re.compile(r'(?:(\.)|(\w+)::)?\b(\w+)(?:::<[^()]*>)?\(')


def is_called(it, caller, method, place):
    """Whether a call by this function's name may be of it: `x.name(` of any type's, `Type::name(` of this type's, and
    `name(` or `module::name(` of none. What a parameter of a type names may be any type."""
    if method or (place and len(place) == 1):
        return it.owner is not None
    if place and place[0].isupper():
        owner = caller.owner if place == 'Self' else place
        return bool(it.owner and owner) and (it.owner == owner or it.owner.startswith(owner))
    return it.owner is None


@functools.cache
def reached(crate, path):
    """This function and those of the crate that it calls, directly or through others of the crate, by their paths."""
    by_name, done = {}, set()
    for it in functions(crate):
        by_name.setdefault(it.name, []).append(it)
    left = [it for it in functions(crate) if it.path == path]
    while left:
        now = left.pop()
        if now.path not in done:
            done.add(now.path)
            for method, place, name in set(CALL.findall(now.body)):
                left += [it for it in by_name.get(name, []) if is_called(it, now, method, place)]
    return done


# The numbers of statuses, which a program's contract has and the contracts below it don't.
NUMBERS = {'Usage': '2', 'Read': '4', 'Write': '5', 'Memory': '6', 'Door': '8'}


def reads_alike(crate, path, other, clause):
    """Whether the clause of this name says the same in both functions."""
    texts = [it.texts.get(clause) for it in functions(crate) if it.path in (path, other)]
    plain = {re.sub(r'Status\.(\w+)', lambda found: NUMBERS.get(found[1], found[1]), text or '') for text in texts}
    return len(plain) == 1


# ---- what refuses an edit

def answered(crate, file, line, names):
    """The end of a goal's name, if the answers of all clauses are one record: by the field that stands at this line."""
    lines = (ROOT / 'crates' / crate / file).read_text().splitlines()[:line]
    fields = [found[1] for found in (re.match(r'\s+(\w+) = ', it) for it in lines) if found and found[1] in names]
    return f'-clause-{fields[-1]}' if fields else ''


def goal_of(crate, text):
    """The goal that a line of the prover names, as checks/refusals.txt writes it."""
    if 'only by a limit of the prover' in text:
        return 'limit'
    code, proof = AT_CODE.search(text), AT_PROOF.search(text)
    if code:
        function = function_at(crate, code[1], int(code[2]))
        named = re.search(r'\(`([^`]*)(`?)', code[3])
        if not named:
            return f'{function.path}:..' if function else '?'
        goal = named[1] + ('' if named[2] else '..')
    elif proof:
        function, goal = function_of_proof(crate, proof[1][len('proofs/'):]), proof[4]
        if not function or not proof[2].startswith('/'):
            return f'{proof[1]}:{goal}'
        if goal == 'returns' and len(function.clauses) > 1:
            goal += answered(crate, proof[1] + proof[2], int(proof[3]), function.clauses)
    else:
        return '?'
    path = function.path if function else code[1]
    clause = re.search(r'-clause-([\w.]+)$', goal)
    called = re.match(r'([\w◌-]+?)-requires', goal)
    if goal.startswith('returns') and not goal.endswith('..'):
        only = function.clauses[0] if function and len(function.clauses) == 1 else 'ensures'
        return f'{path}.{clause[1] if clause else only}'
    if called and not goal.endswith('..'):
        return f'{path}>{called[1]}.{clause[1] if clause else "requires"}'
    return f'{path}:{goal}'


def told_by(log):
    """What a log says: each edit, with its goals, and whether these are all."""
    found = {}
    for line in log.splitlines():
        one, each = TOLD.match(line), TOLD_ALL.match(line)
        if one:
            found[one[1], one[2]] = [goal_of(one[1], one[3])], False
        elif each:
            goals = found.get((each[1], each[2]), ([], True))
            goal = goal_of(each[1], each[3])
            found[each[1], each[2]] = [*goals[0], *([] if goal in goals[0] else [goal])], True
    return found


def stored():
    """The table: each edit to its goals."""
    found = {}
    for line in TABLE.read_text().splitlines() if TABLE.exists() else []:
        if line and not line.startswith('#'):
            head, _, goals = line.partition(': ')
            crate, edit, _ = head.split(' ')
            found[crate, edit] = goals.split(', ')
    return found


def gate_edits():
    """Each edit that the gate tries to its file, or its first one, crates in the order of crates.txt."""
    found = {}
    for line in (ROOT / 'crates.txt').read_text().splitlines():
        crate = line.split(':')[0]
        for path in sorted((ROOT / 'crates' / crate / 'must-fail').glob('*.edit')):
            found[crate, path.stem] = re.search(r'^file: (\S+)$', path.read_text(), re.M)[1]
    return found


def is_among(goal, goals):
    return any(it == goal or (goal.endswith('..') and it.startswith(goal[:-2])) for it in goals)


def compare(tally, log):
    """What a log says of the edits of the gate is what the table has. Where the prover met a limit of its own, now or
    when the table was written, nothing is compared: it meets limits sooner on a slow machine."""
    table, edits = stored(), gate_edits()
    for (crate, edit), (goals, _) in told_by(log).items():
        if (crate, edit) in edits:
            had = table.get((crate, edit), [])
            for goal in () if 'limit' in (*goals, *had) else goals:
                has = ', '.join(had) or 'no line of it'
                tally.holds(is_among(goal, had),
                            f'{crate}/{edit}: {goal} refuses it, and checks/refusals.txt has {has}: '
                            'run checks/clauses.py --write with this log, and then ./dev names --write')


def write(logs):
    table = stored()
    for log in logs:
        for key, (goals, are_all) in told_by(log).items():
            if are_all or not is_among(goals[0], table.get(key, [])):
                # an edit that splits a return takes away the answers there, also those of clauses that no body breaks
                table[key] = [goals[0], *(it for it in goals[1:] if it != '?' and not reason(key[0], it))]
    lines = [f'{crate} {edit} {file}: {", ".join(table[crate, edit])}\n'
             for (crate, edit), file in gate_edits().items() if (crate, edit) in table]
    TABLE.write_text(HEADING + ''.join(lines))
    print(f'written: {TABLE.relative_to(ROOT)}, {len(lines)} of {len(gate_edits())} edits')


# ---- the clauses of the public contracts

def contracts():
    """Each contract: its crate, its function, and its clauses."""
    for crate, wanted in CONTRACTS:
        for it in functions(crate):
            of = f'{it.owner}::*' if it.owner else '*'
            if it.path in wanted or (it.public and of in wanted):
                clauses = it.clauses
                if (crate, it.path) in TRAITS:
                    low, file, name = TRAITS[crate, it.path]
                    clauses = next(one.clauses for one in functions(low) if one.file == file and one.name == name)
                if clauses:
                    yield crate, it.path, clauses


def breaking(crate, path, clause, only):
    """The edits of the gate that break this clause: in the function itself, or in one that it calls, by a clause of
    the same name that reads alike or one that THROUGH names. If the contract has one clause only, each clause of a
    called one counts."""
    known, through = reached(crate, path), THROUGH.get((crate, f'{path}.{clause}'), [])
    for (of, edit), goals in stored().items():
        if of != crate:
            continue
        for goal in goals:
            function, dot, broken = goal.rpartition('.')
            if goal in MET.get((crate, edit), ()):
                continue
            if goal in through:
                yield edit
                break
            if dot and '>' not in goal and ':' not in function.replace('::', '') and function in known:
                own = broken == clause and (function == path or reads_alike(crate, path, function, clause))
                if own or (only and function != path):
                    yield edit
                    break


def reason(crate, clause):
    """The reason that LEFT gives for this clause, if any."""
    return next((why for (of, name), why in LEFT.items() if of == crate and fnmatch.fnmatchcase(clause, name)), None)


def clauses():
    """Each clause: the crate, the function, the clause, and the edits that break it."""
    for crate, path, named in contracts():
        for clause in named:
            yield crate, path, clause, list(breaking(crate, path, clause, len(named) == 1))


def table():
    yield '| Function | Clause | Broken by |'
    yield '|---|---|---|'
    for crate, path, clause, edits in clauses():
        why = reason(crate, f'{path}.{clause}') or '-'
        name = '(it has no name)' if clause == 'ensures' else f'`{clause}`'
        yield f'| `{crate}`: `{path}` | {name} | {", ".join(f"`{it}`" for it in edits) or why} |'


def page():
    """The clauses that no edit breaks, by the reason. The only clause of a contract has no name."""
    found = {}
    for crate, path, clause, edits in clauses():
        if not edits:
            functions = found.setdefault(reason(crate, f'{path}.{clause}') or '-', {})
            functions.setdefault(path, []).append('' if clause == 'ensures' else f' `{clause}`')
    yield '| Why | Clauses |'
    yield '|---|---|'
    for why, functions in found.items():
        yield f'| {why} | {"; ".join(f"`{path}`" + ",".join(names) for path, names in functions.items())} |'


def open_clauses():
    return [f'{crate}: {path}.{clause}' for crate, path, clause, edits in clauses()
            if not edits and not reason(crate, f'{path}.{clause}')]


def check(tally):
    """Each edit of the gate has its line in the table, and no other edit has one. An edit breaks each clause of the
    public contracts, but for those of LEFT."""
    table, edits = stored(), gate_edits()
    lacking = [f'{crate}/{edit}' for crate, edit in edits if (crate, edit) not in table]
    tally.holds(not lacking, f'checks/refusals.txt has no line of {len(lacking)} edits ({", ".join(lacking[:3])}, ..): '
                'run the gate, and checks/clauses.py --write with its log')
    gone = [f'{crate}/{edit}' for crate, edit in table if (crate, edit) not in edits]
    tally.holds(not gone, f'checks/refusals.txt has lines of edits that the gate does not try: {", ".join(gone)}')
    known = {(crate, f'{path}.{clause}'): edits for crate, path, clause, edits in clauses()}
    for key, goals in MET.items():
        told = f'MET in checks/clauses.py has goals of {key} that checks/refusals.txt lacks'
        tally.holds(set(goals) <= set(table.get(key, [])), told)
    for key in (*LEFT, *THROUGH):
        tally.holds(key in known or '*' in key[1], f'checks/clauses.py has {key[1]} of {key[0]}, which is no clause')
    for key in LEFT:
        tally.holds(not known.get(key),
                    f'LEFT in checks/clauses.py has {key[1]} of {key[0]}: {known.get(key)} break it')
    if not lacking:
        left = open_clauses()
        tally.holds(not left,
                    f'no edit breaks these clauses ({", ".join(left[:3])}, ..): write an edit for each, or give the '
                    'reason in LEFT of checks/clauses.py')


def are_words(words):
    logs = words[1:] if words[:1] == ['--write'] else words
    if words in (['page'], ['table'], ['open']):
        return True
    return bool(logs) and (logs is not words or len(logs) == 1) and all(map(os.path.isfile, logs))


def main():
    words = asked(__doc__, 'checks/clauses.py LOG | --write LOG.. | page | table | open, and a LOG is a file',
                  are_words)
    if words in (['page'], ['table']):
        print('\n'.join(page() if words == ['page'] else table()))
    elif words == ['open']:
        print('\n'.join(open_clauses()))
    else:
        logs = [open(name, encoding='utf-8', errors='replace').read() for name in words if name != '--write']
        if words[0] == '--write':
            write(logs)
        else:
            tally = Tally()
            compare(tally, logs[0])
            return tally.end('refused edits: ')
    return 0


if __name__ == '__main__':
    sys.exit(main())
