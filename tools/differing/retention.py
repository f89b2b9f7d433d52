"""The retention period."""
from differing.case import DIFFERENT, Scene
from differing.steps import own

scene = Scene('retention', lambda stage: stage.begin(1))
PRESENT = (DIFFERENT, 'The present retention period')
MORE, LESS = 'IncreaseStreamRetentionPeriod', 'DecreaseStreamRetentionPeriod'
HOURS = f'{MORE}.RetentionPeriodHours'


def of(hours):
    return {'StreamName': own, 'RetentionPeriodHours': hours}


def now(name, wanted):
    scene.same(
        name, str(wanted), place='DescribeStreamSummary.RetentionPeriodHours', reading='how long records are kept'
    )(lambda stage: str(stage.summary()['RetentionPeriodHours']))


now('hours of a new stream', 24)
scene.call(
    'an increase to the present period',
    PRESENT,
    MORE,
    of(24),
    kds='accepted',
    says='InvalidArgumentException',
    place=HOURS,
    reading='above the present period',
)
scene.call(
    'a decrease to the present period',
    PRESENT,
    LESS,
    of(24),
    kds='accepted',
    says='InvalidArgumentException',
    place=f'{LESS}.RetentionPeriodHours',
    reading='below the present period',
)
scene.same_call('an increase from 24 to 71 hours', 'accepted', MORE, of(71), place=HOURS, reading='up to 8,760')
now('hours after it', 71)
scene.same_call(
    'an increase to 48 hours',
    'InvalidArgumentException',
    MORE,
    of(48),
    place=HOURS,
    reading='above the present period',
)
scene.same_call(
    'a decrease to 96 hours',
    'InvalidArgumentException',
    LESS,
    of(96),
    place=f'{LESS}.RetentionPeriodHours',
    reading='below the present period',
)
scene.same_call(
    'a decrease to 24 hours', 'accepted', LESS, of(24), place=f'{LESS}.RetentionPeriodHours', reading='down to 24'
)
now('hours after that', 24)
