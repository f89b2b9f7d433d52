"""The birth and the end of a stream, and its name."""
import re

from differing.case import LEFT, OWN, Scene

STATES = (LEFT, 'States')


def make(stage):
    stage.name = stage.streams.create(1)
    stage.kept.born = stage.streams.status(stage.name)
    stage.streams.ready(stage.name)


scene = Scene('streams', make)


@scene.case(
    'the status right after CreateStream',
    STATES,
    kds='ACTIVE',
    says='CREATING',
    place='CreateStream',
    reading='the stream is CREATING until it can be used',
)
def born(stage):
    return stage.kept.born


@scene.case(
    'the ARN',
    (OWN, 'The ARN'),
    kds='arn:aws:kinesis:local:000000000000:stream/NAME',
    says='arn:aws:kinesis:REGION:12 digits:stream/NAME',
    place='DescribeStreamSummary.StreamARN',
    reading='a region, and the account',
)
def arn(stage):
    text = stage.summary()['StreamARN'].replace(stage.name, 'NAME')
    return (
        text
        if ':local:' in text
        else re.sub(r':\d{12}:', ':12 digits:', text.replace(f':{stage.endpoint.region}:', ':REGION:'))
    )


@scene.case(
    'the status right after DeleteStream',
    STATES,
    kds='ResourceNotFoundException',
    says='DELETING',
    place='DeleteStream',
    reading='the stream is DELETING until it is gone',
)
def deleted(stage):
    stage.call('DeleteStream', StreamName=stage.name)
    return stage.streams.status(stage.name)
