"""The rules of docs/TABLE.md: each says what a field has to be, given others. The first place with a failed rule is the one that the proved check names."""
from functools import lru_cache
from itertools import accumulate
from typing import Callable, NamedTuple

from . import bits
from .network import FILTERS
from .records import (BIG, DIRECT, HEADER, HEADER_SIZE, IPDU, IPDU_SIZE, MIXED, MOST_BITS, MOST_DEPTH, MOST_DEPTHS, MOST_IPDUS, MOST_LENGTH,
                      MOST_OBJECTS, MOST_TICKS, NONE, OBJECT, OBJECT_SIZE, PENDING, PERIODIC, RECEIVE, SEND, SIGNED, TRIGGERED, WHOLE, Field,
                      objects_begin)

HEADER_PLACE, FIRST_OBJECT = 65535, 256  # what the check calls the header, and object 0
ANY, ZERO = range(WHOLE), range(1)
ONE_IN_N, LONGEST_N = len(FILTERS) - 1, 255
FILE = Field("file", 0, 0, "length of the file")


def with_reserved(fields, size):
    """The fields of a record by name, and one for each byte that belongs to none."""
    held = {field.at + i for field in fields for i in range(field.size)}
    return {field.name: field for field in [*fields, *(Field(f"reserved_{at}", at, 1, "reserved byte") for at in range(size) if at not in held)]}


HEADER_FIELDS = {FILE.name: FILE, **with_reserved(HEADER, HEADER_SIZE)}
IPDU_FIELDS, OBJECT_FIELDS = with_reserved(IPDU, IPDU_SIZE), with_reserved(OBJECT, OBJECT_SIZE)
DEPTH = OBJECT_FIELDS["depth"]


class Rule(NamedTuple):
    """`demand` gives, from the values of a record by name, what the field may be and the names of those others that decide it just there. `others` are
    all that may decide it; ipdu.direction is the direction of the I-PDU that the object names."""

    field: str
    others: tuple
    demand: Callable


def between(least, most, *because):
    return range(least, most + 1), because


def always(least, most):
    return lambda of: between(least, most)


def anything():
    return ANY, ()


def zero(*because):
    return ZERO, because


def reserved(fields):
    return [Rule(name, (), always(0, 0)) for name in fields if name.startswith("reserved")]


# the header

def objects_at(ipdus):
    return HEADER_SIZE + IPDU_SIZE * ipdus


def length_of(ipdus, objects):
    return objects_at(ipdus) + OBJECT_SIZE * objects


def just(value, *because):
    return between(value, value, *because)


def are_counts(of):
    return of["ipdus"] <= MOST_IPDUS and of["objects"] <= MOST_OBJECTS


HEADER_RULES = [
    Rule("ipdus", (), always(0, MOST_IPDUS)),
    Rule("objects", (), always(0, MOST_OBJECTS)),
    Rule("ipdus_at", (), always(HEADER_SIZE, HEADER_SIZE)),
    Rule("objects_at", ("ipdus",), lambda of: just(objects_at(of["ipdus"]), "ipdus") if of["ipdus"] <= MOST_IPDUS else anything()),
    Rule("length", ("ipdus", "objects"), lambda of: just(length_of(of["ipdus"], of["objects"]), "ipdus", "objects") if are_counts(of) else anything()),
    Rule("length", ("file",), lambda of: just(of["file"], "file")),
    *reserved(HEADER_FIELDS),
]
WHOLE_HEADER = Rule("file", (), lambda of: between(HEADER_SIZE, length_of(MOST_IPDUS, MOST_OBJECTS)))


# an I-PDU

def in_period(of):
    """Period and time offset."""
    if of["direction"] == RECEIVE:
        return zero("direction")
    if of["mode"] > MIXED:
        return anything()
    return zero("mode") if of["mode"] == DIRECT else between(1, MOST_TICKS, "mode")


def minimum_delay(of):
    if of["direction"] == RECEIVE:
        return zero("direction")
    return zero("mode") if of["mode"] == PERIODIC else anything()


def first_deadline(of):
    if of["direction"] == SEND:
        return zero("direction")
    return anything() if of["deadline"] else zero("deadline")


IPDU_RULES = [
    Rule("direction", (), always(SEND, RECEIVE)),
    Rule("length", (), always(1, MOST_LENGTH)),
    Rule("mode", ("direction",), lambda of: zero("direction") if of["direction"] == RECEIVE else between(DIRECT, MIXED)),
    Rule("period", ("direction", "mode"), in_period),
    Rule("offset", ("direction", "mode"), in_period),
    Rule("minimum_delay", ("direction", "mode"), minimum_delay),
    Rule("deadline", ("direction",), lambda of: between(1, MOST_TICKS, "direction") if of["direction"] == SEND else anything()),
    Rule("first_deadline", ("direction", "deadline"), first_deadline),
    *reserved(IPDU_FIELDS),
]


# an object

def ipdu_of_object(of):
    """An I-PDU that goes the object's way."""
    kind, directions = of["kind"], of["directions"]
    if kind not in (SEND, RECEIVE):
        return frozenset([NONE, *range(len(directions))]), ()
    found = ("ipdu.direction",) if of["ipdu.direction"] is not None else ()
    return frozenset([NONE, *(k for k, direction in enumerate(directions) if direction == kind)]), ("kind", *found)


def sending_object(of):
    if of["kind"] == SEND:
        return just(NONE, "kind")
    if of["ipdu"] != NONE:
        return just(NONE, "ipdu")
    found = ("sender.kind",) if of["sender.kind"] is not None else ()
    return frozenset([NONE, *(i for i, kind in enumerate(of["kinds"]) if kind == SEND)]), found


@lru_cache(maxsize=None)
def starts(size, big, length):
    """The start bits from which so many bits lie inside an I-PDU."""
    return frozenset(start for start in range(8 * length) if bits.fits(start, size, big, length))


def start(of):
    if of["ipdu"] == NONE:
        return zero("ipdu")
    length = of["ipdu.length"]
    if length is None or not (1 <= of["bits"] <= MOST_BITS and of["order"] <= BIG + SIGNED and 1 <= length <= MOST_LENGTH):
        return anything()
    return starts(of["bits"], of["order"] % 2 == BIG, length), ("bits", "order", "ipdu.length")


def first_constant(of):
    if of["filter"] == ONE_IN_N:
        return between(1, LONGEST_N, "filter")
    return zero("filter") if of["filter"] < ONE_IN_N and not FILTERS[of["filter"]][1] else anything()


def second_constant(of):
    if of["filter"] == ONE_IN_N and 1 <= of["first"] <= LONGEST_N:
        return between(0, of["first"] - 1, "filter", "first")
    return zero("filter") if of["filter"] < ONE_IN_N and len(FILTERS[of["filter"]][1]) < 2 else anything()


OBJECT_RULES = [
    Rule("kind", (), always(SEND, RECEIVE)),
    Rule("ipdu", ("kind", "ipdu.direction"), ipdu_of_object),
    Rule("sender", ("kind", "ipdu", "sender.kind"), sending_object),
    Rule("bits", ("ipdu",), lambda of: just(MOST_BITS, "ipdu") if of["ipdu"] == NONE else between(1, MOST_BITS)),
    Rule("start", ("ipdu", "bits", "order", "ipdu.length"), start),
    Rule("order", ("ipdu",), lambda of: (frozenset([0, SIGNED]), ("ipdu",)) if of["ipdu"] == NONE else between(0, BIG + SIGNED)),
    Rule("transfer", ("kind",), lambda of: zero("kind") if of["kind"] == RECEIVE else between(TRIGGERED, PENDING)),
    Rule("depth", ("kind",), lambda of: zero("kind") if of["kind"] == SEND else between(0, MOST_DEPTH)),
    Rule("filter", (), always(0, len(FILTERS) - 1)),
    Rule("first", ("filter",), first_constant),
    Rule("second", ("filter", "first"), second_constant),
    *reserved(OBJECT_FIELDS),
]
DEPTH_SUM = Rule("depth", ("depths",), lambda of: between(0, MOST_DEPTHS - of["before"], "depths"))


# records of a table

class Part(NamedTuple):
    """A field of one record."""

    place: int
    field: Field

    def at(self, table):
        """Its first byte in the file."""
        return record_at(table, self.place) + self.field.at


class Around(NamedTuple):
    """What an object's rules look at beyond its record, a byte for each I-PDU or object."""

    directions: bytes
    lengths: bytes
    kinds: bytes


class Fault(NamedTuple):
    """A failed rule of the record at a place, with the values that it looked at."""

    place: int
    rule: Rule
    of: dict

    def parts(self, names):
        """The fields behind names, each with its value; none for what the table does not have."""
        found = []
        for name in names:
            if name == "depths":
                found += [(Part(FIRST_OBJECT + i, DEPTH), depth) for i, depth in enumerate(self.of[name]) if FIRST_OBJECT + i != self.place]
            elif self.of[name] is not None:
                found.append((self.part(name), self.of[name]))
        return found

    def part(self, name):
        if name.startswith("ipdu."):
            return Part(self.of["ipdu"], IPDU_FIELDS[name.removeprefix("ipdu.")])
        if name == "sender.kind":
            return Part(FIRST_OBJECT + self.of["sender"], OBJECT_FIELDS["kind"])
        fields = HEADER_FIELDS if self.place == HEADER_PLACE else IPDU_FIELDS if self.place < FIRST_OBJECT else OBJECT_FIELDS
        return Part(self.place, fields[name])

    def allowed(self):
        """What the field may be."""
        return self.rule.demand(self.of)[0]

    def deciding(self):
        """The other fields that say so, with their values."""
        return self.parts(self.rule.demand(self.of)[1])

    def taking_part(self):
        """All fields of which one other value could mend it."""
        return self.parts((self.rule.field, *self.rule.others))


def record_at(table, place):
    """The first byte of a record."""
    if place == HEADER_PLACE:
        return 0
    return HEADER_SIZE + IPDU_SIZE * place if place < FIRST_OBJECT else objects_begin(table) + OBJECT_SIZE * (place - FIRST_OBJECT)


def record_size(place):
    return HEADER_SIZE if place == HEADER_PLACE else IPDU_SIZE if place < FIRST_OBJECT else OBJECT_SIZE


def around(table):
    ipdus, objects = table[HEADER_SIZE:objects_begin(table)], table[objects_begin(table):]
    return Around(ipdus[IPDU_FIELDS["direction"].at::IPDU_SIZE], ipdus[IPDU_FIELDS["length"].at::IPDU_SIZE], objects[::OBJECT_SIZE])


def values(fields, record):
    return {name: field.of(record) for name, field in fields.items()}


def beyond(of, beside):
    """What an object's rules look at in the records that it names."""
    known, sent = of["ipdu"] < len(beside.directions), of["sender"] < len(beside.kinds)
    return {"ipdu.direction": beside.directions[of["ipdu"]] if known else None, "ipdu.length": beside.lengths[of["ipdu"]] if known else None,
            "sender.kind": beside.kinds[of["sender"]] if sent else None, "directions": beside.directions, "kinds": beside.kinds}


def object_values(record, beside):
    of = values(OBJECT_FIELDS, record)
    return {**of, **beyond(of, beside)}


def failed(rules, of):
    return [rule for rule in rules if of[rule.field] not in rule.demand(of)[0]]


@lru_cache(maxsize=4096)
def failed_of_ipdu(record):
    """Failed rules with the values that they looked at; so below."""
    of = values(IPDU_FIELDS, record)
    return [(rule, of) for rule in failed(IPDU_RULES, of)]


@lru_cache(maxsize=4096)
def failed_of_object(record, beside):
    of = object_values(record, beside)
    return [(rule, of) for rule in failed(OBJECT_RULES, of)]


@lru_cache(maxsize=4096)
def header_faults(header, length):
    """Of a file with this header and length."""
    of = {**values(HEADER_FIELDS, header), FILE.name: length}
    broken = failed(HEADER_RULES, of) if length >= HEADER_SIZE else [WHOLE_HEADER]
    return [Fault(HEADER_PLACE, rule, of) for rule in broken]


def past_the_sum(table):
    """The fault of the object that carries the sum of depths past its most."""
    depths = table[objects_begin(table) + DEPTH.at::OBJECT_SIZE]
    if sum(depths) <= MOST_DEPTHS:
        return None
    number, total = next((i, total) for i, total in enumerate(accumulate(depths)) if total > MOST_DEPTHS)
    return Fault(FIRST_OBJECT + number, DEPTH_SUM, {"depth": depths[number], "depths": depths, "before": total - depths[number]})


def faults(table):
    """The failed rules of a header; or, with a right header, of all records, in the order in which the check looks."""
    header = header_faults(table[:HEADER_SIZE], len(table))
    yield from header
    if header:
        return
    begin = objects_begin(table)
    for k in range((begin - HEADER_SIZE) // IPDU_SIZE):
        at = HEADER_SIZE + IPDU_SIZE * k
        for rule, of in failed_of_ipdu(table[at:at + IPDU_SIZE]):
            yield Fault(k, rule, of)
    beside, past = around(table), past_the_sum(table)
    for i in range((len(table) - begin) // OBJECT_SIZE):
        at = begin + OBJECT_SIZE * i
        for rule, of in failed_of_object(table[at:at + OBJECT_SIZE], beside):
            yield Fault(FIRST_OBJECT + i, rule, of)
        if past and past.place == FIRST_OBJECT + i:
            yield past


def first_fault(table):
    """The first failed rule at the place that the check names, or None for a right table."""
    return next(faults(table), None)
