"""UpdateShardCount. By the reference it may open shards for a moment on its way, so more than three may be open on a
server elsewhere."""
from differing.case import BEYOND, DIFFERENT, OWN, Scene
from differing.replies import lacks
from differing.steps import KEYS

scene = Scene('scaling', lambda stage: stage.begin(2))
FACTOR = (DIFFERENT, 'UpdateShardCount by any factor')
REFUSED = ('InvalidArgumentException', 'LimitExceededException', 'ValidationException')
HOW = {'ScalingType': 'UNIFORM_SCALING'}


@scene.case(
    'the counts in the reply of UpdateShardCount from two shards to one',
    None,
    kds='2 1',
    says='2 1',
    place='UpdateShardCount.CurrentShardCount',
    reading='the open shards before',
    takes=BEYOND,
)
def counts(stage):
    told = stage.kept.reply = stage.call('UpdateShardCount', StreamName=stage.name, TargetShardCount=1, **HOW)
    stage.streams.ready(stage.name)
    stage.recount()
    where = '' if told.get('StreamName') == stage.name else f' of {told.get("StreamName")}'
    return f'{told.get("CurrentShardCount")} {told.get("TargetShardCount")}{where}'


lacks(scene, 'UpdateShardCount', 'StreamARN', lambda stage: stage.kept.reply, takes=BEYOND)


@scene.case(
    'open shards after UpdateShardCount from one to two',
    None,
    kds='two halves',
    says='two halves',
    place='UpdateShardCount.ScalingType',
    reading='shards of equal size',
    takes=BEYOND,
)
def halves(stage):
    stage.reshard('UpdateShardCount', 1, TargetShardCount=2, **HOW)
    given = [(low, high) for low, high, _ in stage.open_shards()]
    return 'two halves' if given == [(0, KEYS // 2 - 1), (KEYS // 2, KEYS - 1)] else f'{given}'


@scene.case(
    'shards in all after UpdateShardCount from two to one, and to two',
    (OWN, 'Steps of UpdateShardCount'),
    kds='5',
    takes=BEYOND,
)
def steps(stage):
    return str(len(stage.shards()))


@scene.case(
    'from one shard to three, above the double',
    FACTOR,
    kds='accepted',
    says=REFUSED,
    place='UpdateShardCount.TargetShardCount',
    reading='at most the double by default',
    takes=BEYOND,
)
def above(stage):
    if len(stage.open_shards()) > 1:
        stage.reshard('UpdateShardCount', TargetShardCount=1, **HOW)
    return stage.attempt('UpdateShardCount', 2, TargetShardCount=3, **HOW)


@scene.case(
    'from three shards to one, below the half',
    FACTOR,
    kds='accepted',
    says=REFUSED,
    place='UpdateShardCount.TargetShardCount',
    reading='at least the half by default',
    takes=BEYOND,
)
def below(stage):
    for many in range(len(stage.open_shards()) + 1, 4):
        stage.reshard('UpdateShardCount', 1, TargetShardCount=many, **HOW)
    return stage.attempt('UpdateShardCount', TargetShardCount=1, **HOW)
