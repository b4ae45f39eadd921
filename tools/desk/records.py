"""The bytes of a table, as docs/TABLE.md has them: a header, I-PDU records, object records. Nothing is judged here; rules.py does that."""
from dataclasses import dataclass
from typing import NamedTuple

HEADER_SIZE, IPDU_SIZE, OBJECT_SIZE = 16, 16, 32
MOST_IPDUS, MOST_OBJECTS, MOST_DEPTH, MOST_DEPTHS = 32, 128, 16, 512
MOST_LENGTH, MOST_BITS = 8, 32
MOST_TICKS = 0xFFFF
NONE = 255  # no I-PDU, or no sending object
SEND, RECEIVE = 1, 2  # directions of I-PDUs and kinds of objects
DIRECT, PERIODIC, MIXED = 0, 1, 2
BIG, SIGNED = 1, 2  # added in a byte order
TRIGGERED, PENDING = 0, 1
WHOLE = 2**32


class Field(NamedTuple):
    """A number of a record: where it stands, and what people call it."""

    name: str
    at: int
    size: int
    words: str

    def of(self, record):
        return int.from_bytes(record[self.at:self.at + self.size], "little")


HEADER = [
    Field("ipdus", 0, 2, "number of I-PDUs"),
    Field("objects", 2, 2, "number of objects"),
    Field("ipdus_at", 4, 2, "offset of the I-PDU records"),
    Field("objects_at", 6, 2, "offset of the object records"),
    Field("length", 8, 2, "length of the table"),
]
IPDU = [
    Field("direction", 0, 1, "direction"),
    Field("length", 1, 1, "length in bytes"),
    Field("mode", 2, 1, "mode"),
    Field("period", 4, 2, "period"),
    Field("offset", 6, 2, "time offset"),
    Field("minimum_delay", 8, 2, "minimum delay"),
    Field("deadline", 10, 2, "deadline"),
    Field("first_deadline", 12, 2, "first deadline"),
]
OBJECT = [
    Field("kind", 0, 1, "kind"),
    Field("ipdu", 1, 1, "I-PDU"),
    Field("sender", 2, 1, "sending object"),
    Field("start", 3, 1, "start bit"),
    Field("bits", 4, 1, "length in bits"),
    Field("order", 5, 1, "byte order"),
    Field("transfer", 6, 1, "transfer"),
    Field("depth", 7, 1, "queue depth"),
    Field("filter", 8, 1, "filter"),
    Field("initial", 12, 4, "initial value"),
    Field("first", 16, 4, "first filter constant"),
    Field("second", 20, 4, "second filter constant"),
]


def packed(fields, size, values):
    record = bytearray(size)
    for field, value in zip(fields, values, strict=True):
        record[field.at:field.at + field.size] = value.to_bytes(field.size, "little")
    return bytes(record)


@dataclass
class IpduRecord:
    direction: int
    length: int
    mode: int = DIRECT
    period: int = 0
    offset: int = 0
    minimum_delay: int = 0
    deadline: int = 0
    first_deadline: int = 0

    def bytes(self):
        return packed(IPDU, IPDU_SIZE, [getattr(self, field.name) for field in IPDU])


@dataclass
class ObjectRecord:
    """The constants and the initial value are the 32 bits of what they mean."""

    kind: int
    ipdu: int = NONE
    sender: int = NONE
    start: int = 0
    bits: int = MOST_BITS
    order: int = 0
    transfer: int = TRIGGERED
    depth: int = 0
    filter: int = 0
    initial: int = 0
    first: int = 0
    second: int = 0

    def bytes(self):
        return packed(OBJECT, OBJECT_SIZE, [getattr(self, field.name) for field in OBJECT])

    @property
    def big(self):
        return self.order % 2 == BIG

    @property
    def signed(self):
        return self.order >= SIGNED


def table_bytes(ipdus, objects):
    objects_at = HEADER_SIZE + IPDU_SIZE * len(ipdus)
    total = objects_at + OBJECT_SIZE * len(objects)
    header = packed(HEADER, HEADER_SIZE, (len(ipdus), len(objects), HEADER_SIZE, objects_at, total))
    return header + b"".join(record.bytes() for record in ipdus + objects)


def ipdu_bytes(table, number):
    at = HEADER_SIZE + IPDU_SIZE * number
    return table[at:at + IPDU_SIZE]


def objects_begin(table):
    return HEADER_SIZE + IPDU_SIZE * HEADER[0].of(table)


def object_bytes(table, number):
    at = objects_begin(table) + OBJECT_SIZE * number
    return table[at:at + OBJECT_SIZE]


def ipdu_record(table, number):
    return IpduRecord(*(field.of(ipdu_bytes(table, number)) for field in IPDU))


def object_record(table, number):
    return ObjectRecord(*(field.of(object_bytes(table, number)) for field in OBJECT))


def ipdu_records(table):
    return [ipdu_record(table, k) for k in range(HEADER[0].of(table))]


def object_records(table):
    return [object_record(table, i) for i in range(HEADER[1].of(table))]
