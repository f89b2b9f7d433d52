"""Operations of Amazon's model that `kds` doesn't have. Each is asked of a stream that isn't there, so nothing is
made or changed."""
from differing.case import LEFT, OWN, Scene
from differing.faults import Refused
from differing.steps import nobody

SERVED = (
    'CreateStream DecreaseStreamRetentionPeriod DeleteStream DescribeStream DescribeStreamSummary GetRecords '
    'GetShardIterator IncreaseStreamRetentionPeriod ListShards ListStreams MergeShards PutRecord PutRecords '
    'SplitShard UpdateShardCount'
).split()
# Not asked: the reply of the first is a stream of events, and the second changes what an account pays.
UNASKED = ('SubscribeToShard', 'UpdateAccountSettings')
scene = Scene('operations', lambda stage: None)


def is_unknown(refused):
    return refused.name in ('UnknownOperationException', 'UnknownOperation', 'NotImplemented') or refused.status in (
        404,
        501,
    )


def filled(stage, shape):
    """The members that a request must have, each with something of its kind."""
    given = {
        name: value(stage, name, inner)
        for name, inner in shape.members.items()
        if name in shape.required_members or name in ('StreamName', 'StreamARN')
    }
    if 'StreamName' in given:
        given.pop('StreamARN', None)
    return given


def value(stage, name, shape):
    if name == 'StreamName':
        return nobody(stage)
    if name in ('StreamARN', 'ResourceARN'):
        return f'arn:aws:kinesis:{stage.endpoint.region}:123456789012:stream/{nobody(stage)}'
    if getattr(shape, 'enum', None):
        return shape.enum[0]
    kinds = {
        'structure': lambda: filled(stage, shape),
        'integer': lambda: 1024,
        'long': lambda: 1024,
        'boolean': lambda: True,
        'list': lambda: [value(stage, '', shape.member)],
        'map': lambda: {'x': 'y'},
    }
    return kinds.get(shape.type_name, lambda: 'x')()


def asked(stage, operation):
    try:
        stage.call(operation, **filled(stage, stage.model.operation_model(operation).input_shape))
    except Refused as refused:
        return 'unknown' if is_unknown(refused) else 'fell over' if refused.status == 500 else 'known'
    return 'known'


OF_FEATURES = {
    'Encryption': 'StartStreamEncryption',
    'Metrics': 'EnableEnhancedMonitoring',
    'Enhanced fan-out': 'RegisterStreamConsumer',
}
for row, operation in OF_FEATURES.items():
    scene.case(
        f'the operation {operation}',
        (LEFT, row),
        kds='unknown',
        says='known',
        place=operation,
        reading='the operation',
    )(lambda stage, operation=operation: asked(stage, operation))


@scene.case(
    'the other operations that kds leaves out',
    (LEFT, 'Operations'),
    kds='all unknown',
    says='all known',
    place='AddTagsToStream',
    reading='one of the operations of the model',
)
def others(stage):
    tried = sorted(set(stage.model.operation_names) - set(SERVED) - set(UNASKED) - set(OF_FEATURES.values()))
    found = {name: asked(stage, name) for name in tried}
    if len(set(found.values())) == 1:
        return f'all {next(iter(found.values()))}'
    return '; '.join(
        f'{how}: {" ".join(name for name in tried if found[name] == how)}'
        for how in ('unknown', 'fell over')
        if how in found.values()
    )


@scene.case(
    'LocalEnforceLimits',
    (OWN, 'LocalEnforceLimits'),
    kds='known',
    says='unknown',
    place='ListStreams',
    reading='not one of the operations of the model',
)
def enforce(stage):
    try:
        stage.call('LocalEnforceLimits', StreamName=nobody(stage), Enforce=True)
    except Refused as refused:
        return 'unknown' if is_unknown(refused) else 'fell over' if refused.status == 500 else 'known'
    return 'known'
