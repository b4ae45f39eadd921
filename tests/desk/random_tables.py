"""Random right tables for tests: records are drawn, and those that the proved check refuses are drawn again; and what kinds of records a table has."""
from desk.bits import greatest, least, meant
from desk.records import (HEADER_SIZE, IPDU_SIZE, MOST_BITS, MOST_DEPTH, MOST_DEPTHS, MOST_IPDUS, MOST_OBJECTS, NONE, OBJECT_SIZE, RECEIVE, SEND, WHOLE,
                          IpduRecord, ObjectRecord, ipdu_records, object_records, table_bytes)
from desk.rules import FIRST_OBJECT


def largest():
    """As the one of tests/table_check.py: I-PDUs of 8 bytes, received and sent in turn, each filled by four objects of 16 bits; depths sum to 512."""
    ipdus = [IpduRecord(SEND, 8, deadline=10) if k % 2 else IpduRecord(RECEIVE, 8) for k in range(MOST_IPDUS)]
    objects = [ObjectRecord(SEND if i % 2 else RECEIVE, 2 * (i // 8) + i % 2, start=16 * (i % 8 // 2), bits=16, depth=0 if i % 2 else 8)
               for i in range(MOST_OBJECTS)]
    return table_bytes(ipdus, objects)


def ticks(random):
    return random.choice([0, 0, 1, 2, 10, 255, 256, 65535, random.randrange(65536)])


def word(random):
    """32 bits of any size."""
    return random.choice([0, 1, 255, WHOLE - 1, WHOLE // 2, WHOLE - 20, random.randrange(256), random.randrange(WHOLE)])


def drawn_ipdu(random):
    """Often right."""
    length, mode = random.randint(1, 8), random.randrange(3)
    if random.random() < 0.5:
        return IpduRecord(RECEIVE, length, deadline=ticks(random), first_deadline=ticks(random))
    return IpduRecord(SEND, length, mode, *((ticks(random), ticks(random)) if mode else (0, 0)), ticks(random) if mode != 1 else 0, ticks(random))


def drawn_object(random, ipdus, objects):
    """Often right. `ipdus` are records, `objects` a number."""
    kind, filter_number = random.choice([SEND, RECEIVE]), random.randrange(15)
    constants = (random.randint(0, 256), random.randrange(256)) if filter_number == 14 else (word(random), word(random))
    used = 2 if filter_number in (2, 3, 8, 9, 14) else 1 if filter_number in (6, 7) else 0
    depth = random.choice([0, 0, 1, random.randint(0, MOST_DEPTH)]) if kind == RECEIVE else 0
    record = ObjectRecord(kind, transfer=random.randrange(2) if kind == SEND else 0, depth=depth, filter=filter_number, initial=word(random),
                          first=constants[0] if used else 0, second=constants[1] if used == 2 else 0, order=random.choice([0, 2]))
    ways = [k for k, ipdu in enumerate(ipdus) if ipdu.direction == kind]
    if ways and random.random() < 0.7:
        record.ipdu = random.choice(ways)
        record.start, record.bits, record.order = random.randrange(8 * ipdus[record.ipdu].length), random.randint(1, MOST_BITS), random.randrange(4)
    elif kind == RECEIVE and random.random() < 0.8:
        record.sender = random.randrange(objects)
    return record


def right_table(random, refused, ipdu_count, object_count):
    """`refused` gives the place that the check names, or None."""
    ipdus = [drawn_ipdu(random) for _ in range(ipdu_count)]
    objects = [drawn_object(random, ipdus, object_count) for _ in range(object_count)]
    table = bytearray(table_bytes(ipdus, objects))
    while (place := refused(table)) is not None:
        if place < FIRST_OBJECT:
            ipdus[place] = drawn_ipdu(random)
            at, size, record = HEADER_SIZE + IPDU_SIZE * place, IPDU_SIZE, ipdus[place]
        else:
            at, size = HEADER_SIZE + IPDU_SIZE * ipdu_count + OBJECT_SIZE * (place - FIRST_OBJECT), OBJECT_SIZE
            record = drawn_object(random, ipdus, object_count)
        table[at:at + size] = record.bytes()
    return bytes(table)


def with_full_queues(table):
    """The same table with depths raised from the first receive object on, as far as their sum may go."""
    objects = object_records(table)
    left = MOST_DEPTHS - sum(record.depth for record in objects)
    for record in objects:
        if record.kind == RECEIVE:
            more = min(left, MOST_DEPTH - record.depth)
            record.depth, left = record.depth + more, left - more
    return table_bytes(ipdu_records(table), objects)


# what kinds of records there are

KINDS = {f"{count} I-PDUs" for count in (0, MOST_IPDUS)} | {f"{count} objects" for count in (0, MOST_OBJECTS)} | {f"depths of {MOST_DEPTHS}"}
KINDS |= {f"mode {mode}" for mode in range(3)} | {f"received, deadlines {both}" for both in ("False, False", "True, False", "True, True")}
KINDS |= {"an I-PDU with no object", "another time offset than the period", "a sent minimum delay"}
KINDS |= {f"filter {number} of kind {kind}" for number in range(15) for kind in (SEND, RECEIVE)} | {f"order {order}" for order in range(4)}
KINDS |= {f"depth {depth}" for depth in range(MOST_DEPTH + 1)} | {"pending", "inside, before its sender", "inside, after its sender", "inside, other sign"}
KINDS |= {f"alone, kind {kind}, order {order}" for kind in (SEND, RECEIVE) for order in (0, 2)}
KINDS |= {f"{what} beyond its bits, {sign}" for what in ("initial value", "constant") for sign in ("signed", "unsigned")}


def ipdu_kinds(ipdus, objects):
    for number, record in enumerate(ipdus):
        if not any(entry.ipdu == number for entry in objects):
            yield "an I-PDU with no object"
        if record.direction == RECEIVE:
            yield f"received, deadlines {record.deadline > 0}, {record.first_deadline > 0}"
            continue
        yield f"mode {record.mode}"
        yield "a sent minimum delay" if record.minimum_delay else ""
        yield "another time offset than the period" if record.offset != record.period else ""


def object_kinds(objects):
    for number, record in enumerate(objects):
        yield from (f"filter {record.filter} of kind {record.kind}", f"order {record.order}", f"depth {record.depth}", "pending" if record.transfer else "")
        if record.sender != NONE:
            yield f"inside, {'before' if number < record.sender else 'after'} its sender"
            yield "inside, other sign" if record.signed != objects[record.sender].signed else ""
        elif record.ipdu == NONE:
            yield f"alone, kind {record.kind}, order {record.order}"
        for what, word in (("initial value", record.initial), ("constant", record.first), ("constant", record.second)):
            if not least(record.bits, record.signed) <= meant(word, record.signed) <= greatest(record.bits, record.signed):
                yield f"{what} beyond its bits, {'signed' if record.signed else 'unsigned'}"


def kinds_of(table):
    """What kinds of records a right table has."""
    ipdus, objects = ipdu_records(table), object_records(table)
    counts = {f"{len(ipdus)} I-PDUs", f"{len(objects)} objects", f"depths of {sum(record.depth for record in objects)}"}
    return counts | set(ipdu_kinds(ipdus, objects)) | set(object_kinds(objects))
