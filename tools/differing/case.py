"""What a case is, and the scenes that cases belong to. A scene is the cases of one topic, in their order, with a
stream of their own."""
import dataclasses
import typing

# the sections of docs/differences.md
LEFT, MEMBERS, DIFFERENT, OWN = 'Left out', 'Members', 'Different', 'Own choices'
# what a case takes that isn't spent on a server elsewhere unless asked for: more calls or shards than the limits
# allow, and minutes of waiting
BEYOND, SLOW = 'beyond', 'slow'
SCENES = []


@dataclasses.dataclass(frozen=True)
class Case:
    """`row` is the section and the name of a row of the page, or None for what must be the same everywhere. `kds` and
    `says` are what `kds` and the service do, each a text or several that are as good. `says` is None where the
    reference leaves it open, and `reading` is what the reference says at the operation and member `place`, in our
    words. What `run` returns is compared with both."""

    scene: str
    name: str
    row: tuple | None
    kds: typing.Any
    says: typing.Any
    place: str
    reading: str
    run: typing.Callable
    takes: str | None = None


class Scene:
    def __init__(self, name, make):
        self.name, self.make, self.cases = name, make, []
        SCENES.append(self)

    def case(self, name, row, *, kds, says=None, place='', reading='', takes=None):
        """Makes a case of a function of the stage (steps.py)."""

        def register(run):
            self.cases.append(Case(self.name, name, row, kds, says, place, reading, run, takes))
            return run

        return register

    def call(self, name, row, operation, members, **more):
        """A case of one call: the error that it ends with, or 'accepted'. A member that is a function is asked of the
        stage."""

        def run(stage):
            return stage.outcome(
                operation, **{key: value(stage) if callable(value) else value for key, value in members.items()}
            )

        self.case(name, row, **more)(run)

    def same(self, name, wanted, *, place, reading):
        """A case of what must be the same everywhere."""
        return self.case(name, None, kds=wanted, says=wanted, place=place, reading=reading)

    def same_call(self, name, wanted, operation, members, *, place, reading):
        self.call(name, None, operation, members, kds=wanted, says=wanted, place=place, reading=reading)


class Unmet(Exception):
    """What a case needs isn't there, since a case before it came out otherwise."""
