"""What `kds` leaves out of HTTP and of the service's protocol. The calls are of ListStreams, so no stream is made."""
from differing.case import LEFT, Scene
from differing.faults import Refused

scene = Scene('protocol', lambda stage: None)
EMPTY = b'{"Limit":1}'


@scene.case(
    'a call that is signed by a wrong secret',
    (LEFT, 'Signatures'),
    kds='accepted',
    says='refused',
    place='ListStreams',
    reading='its common errors have one for a signature that does not fit',
)
def signature(stage):
    status, _, _ = stage.endpoint.raw('ListStreams', EMPTY, secret='wrong')
    return 'accepted' if status == 200 else 'refused'


@scene.case(
    'the header x-amzn-RequestId of a reply',
    (LEFT, 'Request ids'),
    kds='absent',
    says='present',
    place='ListStreams',
    reading='every reply has an id, which SDKs show as RequestId',
)
def request_id(stage):
    _, headers, _ = stage.endpoint.raw('ListStreams', EMPTY)
    return 'present' if 'x-amzn-requestid' in headers else 'absent'


@scene.case(
    'a body in CBOR',
    (LEFT, 'CBOR'),
    kds='SerializationException',
    says='accepted',
    place='ListStreams',
    reading='the second protocol of the API, which the SDKs for Java use',
)
def cbor(stage):
    status, _, body = stage.endpoint.raw('ListStreams', b'\xa0', kind='application/x-amz-cbor-1.1')
    return (
        'accepted'
        if status == 200
        else 'SerializationException'
        if b'SerializationException' in body
        else f'status {status}'
    )


@scene.case(
    'a chunked body',
    (LEFT, 'Chunked bodies'),
    kds='status 501',
    says='status 200',
    place='ListStreams',
    reading='HTTP/1.1 servers read chunked bodies (RFC 9112, section 7.1)',
)
def chunked(stage):
    try:
        status, _, _ = stage.endpoint.raw(
            'ListStreams', EMPTY, pieces=iter([EMPTY]), headers={'Transfer-Encoding': 'chunked'}, encode_chunked=True
        )
    except Refused as refused:
        return refused.name
    return f'status {status}'


@scene.case(
    'what comes for Expect: 100-continue within 2 seconds',
    (LEFT, 'Expect: 100-continue'),
    kds='nothing',
    says='HTTP/1.1 100 Continue',
    place='ListStreams',
    reading='a server answers status 100 or a final status to this header (RFC 9110, section 10.1.1)',
)
def expect(stage):
    return stage.endpoint.first_line('ListStreams', EMPTY, {'Expect': '100-continue'})
