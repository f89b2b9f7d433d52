"""Runs cases, scene by scene."""
from differing.case import BEYOND, SLOW, Unmet
from differing.faults import Refused
from differing.steps import Stage
from differing.verdict import UNREACHED, UNTRIED, judge

# what a reply of a form that nobody expected ends in
ODD = (ArithmeticError, AttributeError, LookupError, TypeError, ValueError, StopIteration)


def odd(fault):
    return f'a reply of another form: {type(fault).__name__} {fault}'[:120]


def outcome(one, stage):
    try:
        return str(one.run(stage))
    except Refused as refused:
        return f'stopped at {refused}'
    except ODD as fault:
        return odd(fault)


def left_out(one, here, beyond, slow):
    """Why a case isn't tried, if it isn't."""
    if one.takes == SLOW and not slow:
        return '--slow waits for it'
    if one.takes == BEYOND and not (here or beyond):
        return '--beyond tries it'
    return None


def begin(scene, stage):
    """Makes the stream of a scene; why it couldn't, if it couldn't."""
    try:
        scene.make(stage)
    except Refused as refused:
        return f'the scene: stopped at {refused}'
    except Unmet as lack:
        return f'the scene needs {lack}'
    except ODD as fault:
        return f'the scene: {odd(fault)}'
    return None


def play(scene, cases, streams, report, beyond, slow):
    """Runs the cases of one scene, and deletes its streams."""
    stage, stopped = Stage(streams), None
    why = {one: left_out(one, streams.endpoint.here, beyond, slow) for one in cases}
    if None in why.values():
        stopped = begin(scene, stage)
    for one in cases:
        if why[one] or stopped:
            report(one, why[one] or stopped, UNTRIED if why[one] else UNREACHED)
            continue
        try:
            given = outcome(one, stage)
        except Unmet as lack:
            report(one, f'needs {lack}', UNREACHED)
        else:
            report(one, given, judge(one, given, streams.endpoint.model))
    # what can't be deleted now is tried again at the end, which says so
    streams.give_up()


def run(chosen, streams, report, beyond=False, slow=False):
    """`chosen` is a list of scenes, each with those of its cases that are run."""
    for scene, cases in chosen:
        play(scene, cases, streams, report, beyond, slow)
