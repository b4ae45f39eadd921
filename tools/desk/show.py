"""A table as the TOML that compiles to the same bytes, with the picture of each I-PDU."""
from decimal import Decimal, InvalidOperation

from . import bits
from .explain import explain
from .network import FILTERS, MODES, TRANSFERS
from .records import DIRECT, NONE, PERIODIC, RECEIVE, SEND, ipdu_records, object_records
from .rules import first_fault
from .sections import plain
from .source import NAME
from .words import counted
from .wrong import Wrong, wrong

LEAST_TICK, MOST_TICK, TICK_DIGITS = Decimal("0.000001"), Decimal(1000000), 20
WAYS = {SEND: "sent", RECEIVE: "received"}


def show(table, node="node", tick_ms=1):
    """The text. A table has no names and does not say how long a tick is; a wrong one is refused."""
    if first_fault(table) is not None:
        raise Wrong(*explain(table))
    if not NAME.fullmatch(node):
        raise wrong("node", "", f"\"{node}\" is no name: letters, digits and _, no digit first")
    tick, ipdus, objects = tick_of(tick_ms), ipdu_records(table), object_records(table)
    head = [f"# A table of {len(table)} bytes: {counted(len(ipdus), 'I-PDU')}, {counted(len(objects), 'object')}. Names and tick_ms are not in a table.",
            f"tick_ms = {plain(tick)}", f"nodes = [{quoted(node)}]"]
    sections = [head]
    for number, record in enumerate(ipdus):
        carried = [placed(object_name(i), each) for i, each in enumerate(objects) if each.ipdu == number]
        picture = [f"# {row}" for row in bits.picture(record.length, carried)]
        sections.append([*picture, f"[ipdu.{ipdu_name(number)}]", *ipdu_keys(record, node, tick)])
    for number, record in enumerate(objects):
        sections.append([f"[message.{object_name(number)}]", *object_keys(record, objects, node)])
    return "\n\n".join("\n".join(lines) for lines in sections) + "\n"


def tick_of(tick_ms):
    try:
        tick = Decimal(str(tick_ms))
    except InvalidOperation:
        tick = None
    if tick is None or not tick.is_finite() or not LEAST_TICK <= tick <= MOST_TICK or len(tick.as_tuple().digits) > TICK_DIGITS:
        raise wrong("tick_ms", "", f"is {tick_ms}, has to be a number from {LEAST_TICK:f} to {MOST_TICK} with at most {TICK_DIGITS} digits")
    return tick


def placed(name, record):
    """An object as a picture takes it."""
    return name, record.start, record.bits, record.big


def ipdu_name(number):
    return f"ipdu{number}"


def object_name(number):
    return f"object{number}"


def keys(pairs):
    """Lines of the keys that are not what they are without a line: (key, value as TOML, default)."""
    return [f"{key} = {value}" for key, value, default in pairs if value != default]


def inline(pairs):
    return "{ " + ", ".join(keys(pairs)) + " }"


def quoted(text):
    return f"\"{text}\""


# I-PDUs

def ipdu_keys(record, node, tick):
    def milliseconds(ticks):
        return plain(ticks * tick)

    if record.direction == RECEIVE:
        return [f"size_in_bytes = {record.length}", receiver_key(record, node, milliseconds)]
    return keys([
        ("sender", quoted(node), None),
        ("size_in_bytes", record.length, None),
        ("transmission_mode", quoted(MODES[record.mode]), quoted(MODES[PERIODIC if record.period else DIRECT])),
        ("time_period_ms", milliseconds(record.period), "0"),
        ("time_offset_ms", milliseconds(record.offset), milliseconds(record.period)),
        ("minimum_delay_time_ms", milliseconds(record.minimum_delay), "0"),
        ("deadline_ms", milliseconds(record.deadline), None),
    ])


def receiver_key(record, node, milliseconds):
    if not record.deadline:
        return f"receivers = [{quoted(node)}]"
    times = [("deadline_ms", milliseconds(record.deadline), None), ("first_deadline_ms", milliseconds(record.first_deadline), "0")]
    return f"receiver.{quoted(node) if '.' in node else node} = {inline(times)}"


# objects

def object_keys(record, objects, node):
    if record.sender != NONE:
        return inside_keys(record, objects[record.sender])
    lines = keys([("node", quoted(node), None)])
    if record.ipdu != NONE:
        lines += keys([
            ("ipdu", quoted(ipdu_name(record.ipdu)), None),
            ("start_bit", record.start, None),
            ("size_in_bits", record.bits, None),
            ("byte_order", quoted("big" if record.big else "little"), quoted("little")),
        ])
    else:
        lines += keys([("direction", quoted(WAYS[record.kind]), quoted(WAYS[SEND]))])
    return lines + keys([
        ("signed", flag(record.signed), flag(False)),
        (*initial(record), "0"),
        ("transfer_property", quoted(TRANSFERS[record.transfer]), quoted(TRANSFERS[0])),
        ("queue_size", record.depth, 0),
        ("filter", filter_value(record), filter_name(0)),
    ])


def inside_keys(record, sent):
    """A receiver inside has sign and initial value of what it receives where it does not say otherwise."""
    key, value = initial(record)
    return keys([
        ("receives", quoted(object_name(record.sender)), None),
        ("signed", flag(record.signed), flag(sent.signed)),
        (key, value, value if record.initial == sent.initial else None),
        ("queue_size", record.depth, 0),
        ("filter", filter_value(record), filter_name(0)),
    ])


def flag(value):
    return "true" if value else "false"


def initial(record):
    """Key and value of the initial value; raw where its bits do not hold it."""
    value = bits.meant(record.initial, record.signed)
    if bits.least(record.bits, record.signed) <= value <= bits.greatest(record.bits, record.signed):
        return "initial_value", str(value)
    return "initial_value_raw", f"0x{record.initial:X}"


def filter_name(number):
    return quoted(FILTERS[number][0])


def filter_value(record):
    name, constants = filter_name(record.filter), FILTERS[record.filter][1]
    given = [(constant, constant_value(constant, word, record.signed), None) for constant, word in zip(constants, (record.first, record.second))]
    return inline([("algorithm", name, None), *given]) if given else name


def constant_value(name, word, signed):
    return bits.meant(word, signed) if name in ("min", "max") else f"0x{word:X}" if name in ("mask", "x") else word
