"""Fields, values and failed rules of a table in words."""
from . import bits
from .network import FILTERS, MODES, TRANSFERS
from .records import BIG, MOST_DEPTHS, NONE, RECEIVE, SEND
from .rules import DEPTH_SUM, FIRST_OBJECT, HEADER_PLACE
from .words import joined

WAYS = {SEND: "send", RECEIVE: "receive"}
# what the numbers of a field are called
NAMES = {
    "direction": WAYS, "kind": WAYS, "mode": dict(enumerate(MODES)), "transfer": dict(enumerate(TRANSFERS)), "ipdu": {NONE: "none"}, "sender": {NONE: "none"},
    "order": dict(enumerate(["little", "big", "signed little", "signed big"])), "filter": {number: name for number, (name, _) in enumerate(FILTERS)},
}
ORDINALS = ["first", "second", "third", "fourth"]
FEW = 4  # so many named values are listed, more are a span
A_LINE = 8  # queue depths


class Names:
    """What records are called; the functions give a name for a number, or None."""

    def __init__(self, ipdu_name=None, object_name=None):
        self.ipdu_name, self.object_name = ipdu_name, object_name

    def record(self, place):
        if place == HEADER_PLACE:
            return "the header"
        number, kind, name = (place, "I-PDU", self.ipdu_name) if place < FIRST_OBJECT else (place - FIRST_OBJECT, "object", self.object_name)
        plain, given = f"{kind} {number}", name and name(number)
        return plain if given in (None, plain) else f"{plain} {given}"


def value_words(field, value):
    name = NAMES.get(field.name, {}).get(value)
    return f"{value} ({name})" if name else str(value)


def spans(numbers):
    """Rising numbers as first and last of each run."""
    if isinstance(numbers, range):
        return [(numbers[0], numbers[-1])] if numbers else []
    runs = []
    for number in sorted(numbers):
        if runs and number == runs[-1][1] + 1:
            runs[-1][1] = number
        else:
            runs.append([number, number])
    return runs


def listed(field, numbers):
    """What a field may be: spans, and the names where they are few."""
    words = []
    for first, last in spans(numbers):
        if last - first < FEW and (field.name in NAMES or last - first < 2):
            words += [value_words(field, value) for value in range(first, last + 1)]
        else:
            words.append(f"{first} to {last}")
    return joined(words, " or ")


def bytes_words(first, size):
    return f"byte {first}" if size == 1 else f"bytes {first} and {first + 1}" if size == 2 else f"bytes {first} to {first + size - 1}"


def part_words(table, part, place, names):
    """A field with its bytes; with its record where that is not the one at the place."""
    words = part.field.words if part.place == place else f"{part.field.words} of {names.record(part.place)}"
    if part.field.name.startswith("reserved"):
        return f"{words} {part.at(table)}"
    return f"{words}, {bytes_words(part.at(table), part.field.size)}," if part.field.size else words


def fault_lines(table, fault, names):
    """A failed rule: the field, what it is, what it has to be and the fields that say so."""
    part, value = fault.parts([fault.rule.field])[0]
    subject = f"{part_words(table, part, fault.place, names)} is {value_words(part.field, value)}"
    if fault.rule is DEPTH_SUM:
        return depth_lines(table, fault, subject)
    allowed = fault.allowed()
    demand = f"it has to be {listed(part.field, allowed)}" if allowed else "no value of it is right"
    deciding = [f"{part_words(table, other, fault.place, names)} is {value_words(other.field, found)}" for other, found in fault.deciding()]
    reason = f", for {joined(deciding)}" if deciding else ""
    return [f"{subject}; {demand}{reason}{reach(fault)}"]


def reach(fault):
    """Where the bits of an object would lie that do not fit."""
    of = fault.of
    if fault.rule.field != "start" or of["ipdu.length"] is None:
        return ""
    last = 8 * of["ipdu.length"] - 1
    if of["start"] > last:
        return f"; bit {of['start']} is behind the last one, {last}"
    if of["order"] % 2 == BIG:
        return f"; from bit {of['start']} up to the end of byte 0 there is room for {bits.turned(of['start']) + 1} of its {of['bits']} bits"
    return f"; it would reach bit {of['start'] + of['bits'] - 1}, and the last one is {last}"


def depth_lines(table, fault, subject):
    before = fault.of["before"]
    lines = [f"{subject}; with the {before} of the objects before it all queue depths are {before + fault.of['depth']}, and may be {MOST_DEPTHS} at most"]
    earlier = [f"byte {part.at(table)} is {depth}" for part, depth in fault.deciding() if depth and part.place < fault.place]
    return lines + ["before it " + ", ".join(earlier[i:i + A_LINE]) for i in range(0, len(earlier), A_LINE)]


def remedy_line(remedy, names):
    """A byte that would put the table right, and with which values."""
    field, record = remedy.part.field, names.record(remedy.part.place)
    words = field.words if field.size == 1 else f"{ORDINALS[remedy.index]} byte of the {field.words}"
    shown = listed(field, remedy.values) if field.size == 1 else joined([f"{a} to {b}" if a < b else str(a) for a, b in spans(remedy.values)], " or ")
    return f"byte {remedy.byte}, {words} of {record}: {shown}"
