"""What one byte alone would put right: the bytes of a wrong table, each with the values after which the whole table is right."""
from typing import NamedTuple

from .records import HEADER, HEADER_SIZE, MOST_DEPTHS, MOST_IPDUS, MOST_OBJECTS, OBJECT_SIZE, packed
from .rules import (DEPTH, FIRST_OBJECT, HEADER_FIELDS, HEADER_PLACE, IPDU_FIELDS, IPDU_RULES, OBJECT_FIELDS, OBJECT_RULES, Part, around, beyond,
                    first_fault, length_of, object_values, objects_at, record_at, record_size, values)

# fields that rules of other records look at as well
SHARED = {IPDU_FIELDS["direction"], IPDU_FIELDS["length"], OBJECT_FIELDS["kind"]}


class Remedy(NamedTuple):
    """A byte of the file; it is byte `index` of a field."""

    byte: int
    part: Part
    index: int
    values: list


def by_field(rules):
    """For each field the rule that says what it has to be, and those that it decides with others; every field of these records has one rule at most."""
    return {rule.field: (rule, [other for other in rules if rule.field in other.others]) for rule in rules}


IPDU_RULES_OF, OBJECT_RULES_OF = by_field(IPDU_RULES), by_field(OBJECT_RULES)


def remedies(table, found):
    """For a table with these faults, by rising bytes."""
    return header_remedies(table) if found[0].place == HEADER_PLACE else record_remedies(table, found)


# the header

def header_bytes(ipdus, objects):
    return packed(HEADER, HEADER_SIZE, (ipdus, objects, HEADER_SIZE, objects_at(ipdus), length_of(ipdus, objects)))


def fitting_headers(length):
    """The right headers of a file of this length."""
    pairs = ((ipdus, (length - objects_at(ipdus)) // OBJECT_SIZE) for ipdus in range(MOST_IPDUS + 1))
    return [header_bytes(*pair) for pair in pairs if 0 <= pair[1] <= MOST_OBJECTS and length_of(*pair) == length]


def header_remedies(table):
    """From the right headers for a file of this length, those that are one byte away."""
    found = []
    for header in fitting_headers(len(table)):
        differing = [at for at in range(HEADER_SIZE) if header[at] != table[at]]
        if len(differing) == 1 and first_fault(header + table[HEADER_SIZE:]) is None:
            at = differing[0]
            field = next(field for field in HEADER_FIELDS.values() if field.at <= at < field.at + field.size)
            found.append(Remedy(at, Part(HEADER_PLACE, field), at - field.at, [header[at]]))
    return sorted(found)


# the records under a right header: none of its bytes is a remedy, for each number of it follows from the others

def record_remedies(table, found):
    """A byte is a remedy only where it takes part in each failed rule."""
    common = {part for part, _ in found[0].taking_part()}
    for fault in found[1:]:
        common &= {part for part, _ in fault.taking_part()}
        if not common:
            return []
    beside = around(table)
    return sorted(remedy for part in common for remedy in remedies_of_field(table, part, beside))


def remedies_of_field(table, part, beside):
    """Each byte of a field that takes part in all failed rules."""
    at, size = record_at(table, part.place), record_size(part.place)
    record, name = table[at:at + size], part.field.name
    is_object = part.place >= FIRST_OBJECT
    of = object_values(record, beside) if is_object else values(IPDU_FIELDS, record)
    ruling, ruled = (OBJECT_RULES_OF if is_object else IPDU_RULES_OF)[name]
    for index in range(part.field.size):
        rest, right = of[name] & ~(255 << 8 * index), []
        for value in byte_values(rest, index, ruling.demand(of)[0]):
            changed = {**of, name: rest + (value << 8 * index)}
            if name == "ipdu":
                changed |= beyond(changed, beside)
            if all(changed[rule.field] in rule.demand(changed)[0] for rule in ruled) and is_right_elsewhere(table, part, at + part.field.at, value):
                right.append(value)
        if right:
            yield Remedy(at + part.field.at + index, part, index, right)


def byte_values(rest, index, allowed):
    """The values of byte `index` with which a field that is otherwise `rest` is allowed; a field of several bytes has a range."""
    if not isinstance(allowed, range):
        return sorted(allowed)
    step = 256**index
    return range(max(0, -((rest - allowed.start) // step)), min(255, (allowed.stop - 1 - rest) // step) + 1)


def is_right_elsewhere(table, part, byte, value):
    """Whether the rules that look at this field from other records, or at several records, hold."""
    if part.field in SHARED:
        return first_fault(table[:byte] + bytes([value]) + table[byte + 1:]) is None
    if part.field == DEPTH:
        first = record_at(table, FIRST_OBJECT) + DEPTH.at
        return sum(table[first::OBJECT_SIZE]) - table[byte] + value <= MOST_DEPTHS
    return True
