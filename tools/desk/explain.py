"""What is wrong with a table, for the person who wrote it: the record that the proved check names, each failed rule, and what would put it right."""
from .records import HEADER, HEADER_SIZE, IPDU_SIZE, MOST_IPDUS, MOST_OBJECTS, OBJECT_SIZE
from .remedies import fitting_headers, header_bytes, remedies
from .rules import HEADER_PLACE, are_counts, faults, first_fault, record_at, record_size
from .wording import Names, bytes_words, fault_lines, remedy_line
from .words import joined

RESERVED_FROM = HEADER[-1].at + HEADER[-1].size
MOST_NAMED = 8  # so many other wrong records, or headers that would fit, are named


def explain(table, ipdu_name=None, object_name=None):
    """Lines. The names are functions of a number, as a board has them."""
    found, names = list(faults(table)), Names(ipdu_name, object_name)
    if not found:
        return [f"ok {HEADER[0].of(table)} {HEADER[1].of(table)}"]
    place = found[0].place
    lines = [f"bad {place}: {names.record(place)}, {record_bytes_words(table, place)}"]
    lines += ["  " + line for fault in found if fault.place == place for line in fault_lines(table, fault, names)]
    if place == HEADER_PLACE:
        lines += header_lines(table, found[0].of)
    others = [names.record(other) for other in dict.fromkeys(fault.place for fault in found if fault.place != place)]
    if others:
        lines.append(f"wrong as well: {joined(first_few(others))}")
    return lines + remedy_lines(remedies(table, found), names)


def first_few(words):
    return words if len(words) <= MOST_NAMED else [*words[:MOST_NAMED], f"{len(words) - MOST_NAMED} more"]


def record_bytes_words(table, place):
    first = record_at(table, place)
    size = min(record_size(place), len(table) - first)
    return bytes_words(first, size) if size else "of which the file has nothing"


def remedy_lines(found, names):
    if not found:
        return ["no byte alone would put the table right"]
    return ["one of these bytes alone would put the table right:", *("  " + remedy_line(remedy, names) for remedy in found)]


# The header: five numbers and the length of the file, which follow from the two counts.

def header_lines(table, of):
    """Which number alone disagrees with the others, or what they have to be."""
    if len(table) < HEADER_SIZE:
        return ["the file is cut off inside its header"]
    if not differing(table, header_bytes_or_none(of)) and of["length"] == len(table):
        return []
    return file_lines(table, of) + number_lines(table) or ["no number of the header alone explains it", *by_counts(of), *by_length(table)]


def header_bytes_or_none(of):
    """The header that the counts demand, where they are possible ones."""
    return header_bytes(of["ipdus"], of["objects"]) if are_counts(of) else None


def differing(table, header):
    """The numbers in which a table's header differs from another; all of them where there is no other."""
    return [field for field in HEADER if header is None or field.of(table) != field.of(header)]


def file_lines(table, of):
    """Where the header agrees with itself, and the file is longer or shorter."""
    if table[:HEADER_SIZE] != header_bytes_or_none(of):
        return []
    over = len(table) - of["length"]
    if over < 0:
        return [f"the header agrees with itself, so the file is cut off: at its end {-over} of {of['length']} bytes are missing"]
    return [f"the header agrees with itself, so the file is too long: it has {over} more than {of['length']} bytes{afterwards(table[:of['length']])}"]


def number_lines(table):
    """Where one other number makes the header agree with itself and with the file."""
    lines = []
    for header in fitting_headers(len(table)):
        fields = differing(table, header)
        if len(fields) == 1 and header[RESERVED_FROM:] == table[RESERVED_FROM:HEADER_SIZE]:
            field = fields[0]
            lines.append(f"{field.words}, {bytes_words(field.at, field.size)}, alone disagrees: it is {field.of(table)}, and with {field.of(header)} "
                         f"all numbers and the length of the file agree{afterwards(header + table[HEADER_SIZE:])}")
    return lines


def afterwards(table):
    """What stays wrong."""
    fault = first_fault(table)
    return f"; then the check says bad {fault.place}" if fault else ""


def by_counts(of):
    header = header_bytes_or_none(of)
    return [f"by the counts the header has to be: {numbers(header)}; and the file {HEADER[-1].of(header)} bytes long"] if header else []


def by_length(table):
    """The headers that fit the length of the file and have most numbers in common with the one that is there."""
    fitting = fitting_headers(len(table))
    if not fitting:
        return [f"no table has {len(table)} bytes: there are {HEADER_SIZE} for the header, {IPDU_SIZE} for each of 0 to {MOST_IPDUS} I-PDUs and "
                f"{OBJECT_SIZE} for each of 0 to {MOST_OBJECTS} objects"]
    fewest = min(len(differing(table, header)) for header in fitting)
    nearest = [numbers(header) for header in fitting if len(differing(table, header)) == fewest]
    return [f"by the {len(table)} bytes of the file it may be: {words}" for words in first_few(nearest)]


def numbers(header):
    return joined([f"{field.words} {field.of(header)}" for field in HEADER])
