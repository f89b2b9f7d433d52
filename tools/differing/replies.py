"""Which members of a reply of Amazon's model are missing."""
from differing.case import MEMBERS


def inner(shape, told=None):
    """The one structure of a reply, or the reply; and the same of what came."""
    if len(shape.members) > 1:
        return shape, told
    ((name, within),) = shape.members.items()
    return within, told and told[name]


def lacked(shape, told, but=()):
    """The members of a shape that are missing, without those that are there in some cases only."""
    return ' '.join(sorted(name for name in shape.members if name not in told and name not in but)) or 'none'


def known(text, of):
    """Those of these members that the installed model knows."""
    return lambda model: ' '.join(name for name in text.split() if name in of(model).members) or 'none'


def reply_of(operation):
    return lambda model: model.operation_model(operation).output_shape


def lacks(scene, operation, names, ask, but=(), takes=None):
    """A case of the members of one reply. `but` are those that it has in some cases only."""

    def run(stage):
        return lacked(*inner(reply_of(operation)(stage.model), ask(stage)), but)

    scene.case(
        f'members that {operation} lacks',
        (MEMBERS, operation),
        kds=known(names, lambda model: inner(reply_of(operation)(model))[0]),
        says='none',
        place=operation,
        reading='its reply has them',
        takes=takes,
    )(run)
