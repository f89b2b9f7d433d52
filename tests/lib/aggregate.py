"""Aggregated records of the Kinesis Producer Library, written and read back after its published format: four bytes, a
message of Protocol Buffers, and the message's MD5. It shares nothing with the program.

A user record is (key, hash, data): bytes, a number or None, bytes."""
import hashlib

MAGIC = bytes((0xF3, 0x89, 0x9A, 0xC2))
NUMBER, EIGHT, BYTES, FOUR = 0, 1, 2, 5


class Bad(Exception):
    """The bytes aren't what they should be."""


# ---- writing


def varint(number, size=1):
    """The number in `size` bytes at least, the lowest seven bits first."""
    out = bytearray()
    while number > 127 or len(out) + 1 < size:
        out.append(128 | number & 127)
        number >>= 7
    out.append(number)
    return bytes(out)


def tag(label, wire):
    return varint(label << 3 | wire)


def number_field(label, number):
    return tag(label, NUMBER) + varint(number)


def bytes_field(label, content):
    return tag(label, BYTES) + varint(len(content)) + content


def frame(message):
    return MAGIC + message + hashlib.md5(message).digest()


def tables(records):
    """The keys and the hashes, each once, in the order of their first use."""
    keys = list(dict.fromkeys(key for key, _, _ in records))
    hashes = list(dict.fromkeys(hash_ for _, hash_, _ in records if hash_ is not None))
    return keys, hashes


def record_fields(keys, hashes, record):
    """The fields of a record's message."""
    key, hash_, data = record
    fields = [number_field(1, keys.index(key))]
    if hash_ is not None:
        fields.append(number_field(2, hashes.index(hash_)))
    return fields + [bytes_field(3, data)]


def message_fields(records):
    """The fields of an aggregate's message: keys, hashes, records."""
    keys, hashes = tables(records)
    fields = [bytes_field(1, key) for key in keys]
    fields += [bytes_field(2, str(hash_).encode()) for hash_ in hashes]
    return fields + [bytes_field(3, b''.join(record_fields(keys, hashes, record))) for record in records]


def pack(records):
    return frame(b''.join(message_fields(records)))


# ---- reading


def read_varint(data, at):
    """The number at a place, and the place after it."""
    number = 0
    for index in range(10):
        if at + index >= len(data):
            raise Bad('the number is cut')
        byte = data[at + index]
        number |= (byte & 127) << 7 * index
        if byte < 128:
            if number >= 1 << 64:
                raise Bad('the number is too large')
            return number, at + index + 1
    raise Bad('the number has more than ten bytes')


def read_fields(data):
    """The fields of a message: triples of a field number, a wire type, and a number or bytes."""
    at, fields = 0, []
    while at < len(data):
        first, at = read_varint(data, at)
        label, wire = first >> 3, first & 7
        if label == 0:
            raise Bad('there is no field of the number 0')
        if wire == NUMBER:
            value, at = read_varint(data, at)
        elif wire in (EIGHT, BYTES, FOUR):
            size = {EIGHT: 8, FOUR: 4}.get(wire)
            if size is None:
                size, at = read_varint(data, at)
            if size > len(data) - at:
                raise Bad('the field is cut')
            value, at = data[at : at + size], at + size
        else:
            raise Bad('groups and other wire types are no fields here')
        fields.append((label, wire, value))
    return fields


def those(fields, label, wire):
    return [value for own, kind, value in fields if (own, kind) == (label, wire)]


def read_hash(text):
    """A number below 2 ** 128 in decimal digits, with no needless zero in front."""
    number = int(text) if text and all(48 <= byte <= 57 for byte in text) else -1
    if number < 0 or number >= 1 << 128 or str(number).encode() != text:
        raise Bad('the hash is no such number')
    return number


def read_record(keys, hashes, data):
    fields = read_fields(data)
    places, hash_places, contents = those(fields, 1, NUMBER), those(fields, 2, NUMBER), those(fields, 3, BYTES)
    if not places or not contents:
        raise Bad('the record lacks its key or its data')
    if places[-1] >= len(keys) or hash_places and hash_places[-1] >= len(hashes):
        raise Bad('the place is outside its table')
    return keys[places[-1]], hashes[hash_places[-1]] if hash_places else None, contents[-1]


def unpack(payload):
    """The user records of an aggregate, and None where the payload is none."""
    if len(payload) < 20 or payload[:4] != MAGIC or hashlib.md5(payload[4:-16]).digest() != payload[-16:]:
        return None
    try:
        fields = read_fields(payload[4:-16])
        keys = those(fields, 1, BYTES)
        hashes = [read_hash(text) for text in those(fields, 2, BYTES)]
        return [read_record(keys, hashes, data) for data in those(fields, 3, BYTES)]
    except Bad:
        return None
