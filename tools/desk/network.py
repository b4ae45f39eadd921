"""The network of a van: I-PDUs and messages by name, with times in ticks and values as 32 bits; and a board for each node, with its table."""
from dataclasses import dataclass, field
from decimal import Decimal, localcontext
from fractions import Fraction

from . import bits
from .records import BIG, MOST_BITS, RECEIVE, SEND, SIGNED, TRIGGERED, WHOLE, IpduRecord, ObjectRecord, table_bytes

MODES = ["direct", "periodic", "mixed"]
TRANSFERS = ["triggered", "pending"]
# OSEK COM's names without their F_, by number; of each the constants that it needs.
FILTERS = [
    ("Always", []), ("Never", []),
    ("MaskedNewEqualsX", ["mask", "x"]), ("MaskedNewDiffersX", ["mask", "x"]),
    ("NewIsEqual", []), ("NewIsDifferent", []),
    ("MaskedNewEqualsMaskedOld", ["mask"]), ("MaskedNewDiffersMaskedOld", ["mask"]),
    ("NewIsWithin", ["min", "max"]), ("NewIsOutside", ["min", "max"]),
    ("NewIsGreater", []), ("NewIsLessOrEqual", []), ("NewIsLess", []), ("NewIsGreaterOrEqual", []),
    ("OneEveryN", ["period", "offset"]),
]


@dataclass
class Scaling:
    """A value in its unit is raw * factor + offset; a raw value may have a name instead."""

    factor: Decimal = Decimal(1)
    offset: Decimal = Decimal(0)
    unit: str = ""
    names: dict = field(default_factory=dict)

    def physical(self, raw):
        with localcontext() as context:
            context.prec = 60
            return raw * self.factor + self.offset

    def decimals(self):
        return max(0, *(-number.normalize().as_tuple().exponent for number in (self.factor, self.offset)))

    def number(self, raw):
        """The value in its unit, with as many decimals as factor and offset have."""
        return f"{self.physical(raw):.{self.decimals()}f}"

    def text(self, raw):
        """The value for people: with its unit, or by its name."""
        return self.names[raw] if raw in self.names else f"{self.number(raw)} {self.unit}".rstrip()

    def raw(self, physical):
        """A fraction where the value is between two steps."""
        return (Fraction(physical) - Fraction(self.offset)) / Fraction(self.factor)


@dataclass
class Filter:
    """A filter with its constants as 32 bits; 0 where it has none."""

    number: int = 0
    first: int = 0
    second: int = 0

    @property
    def name(self):
        return FILTERS[self.number][0]

    def constants(self):
        """By name."""
        return dict(zip(FILTERS[self.number][1], (self.first, self.second)))

    def words(self, scaling, signed):
        """For people; the bounds of a range in units."""
        def shown(name, value):
            return scaling.text(bits.meant(value, signed)) if name in ("min", "max") else f"0x{value:X}" if name in ("mask", "x") else str(value)

        constants = ", ".join(f"{name} {shown(name, value)}" for name, value in self.constants().items())
        return f"{self.name} ({constants})" if constants else self.name


@dataclass
class Ipdu:
    """`receivers` has, by node, deadline and first deadline."""

    name: str
    length: int
    identifier: int | None = None
    extended: bool = False
    sender: str | None = None
    receivers: dict = field(default_factory=dict)
    mode: int = 0
    period: int = 0
    offset: int = 0
    minimum_delay: int = 0
    deadline: int = 0
    comment: str = ""

    def record(self, node):
        if node == self.sender:
            return IpduRecord(SEND, self.length, self.mode, self.period, self.offset, self.minimum_delay, self.deadline)
        deadline, first = self.receivers[node]
        return IpduRecord(RECEIVE, self.length, deadline=deadline, first_deadline=first)


@dataclass
class Receiving:
    """What a receive object of a message has for itself."""

    filter: Filter
    initial: int
    depth: int = 0


@dataclass
class Message:
    """A message of the network, sent by its I-PDU's sender and received by `receivers`; or, where `node` is given, an object of that node alone. One with a
    multiplexor is in a frame only while that has the value; to the layer it is a message that shares bits."""

    name: str
    ipdu: Ipdu | None = None
    start: int = 0
    bits: int = MOST_BITS
    big: bool = False
    signed: bool = False
    scaling: Scaling = field(default_factory=Scaling)
    minimum: Decimal | None = None
    maximum: Decimal | None = None
    transfer: int = TRIGGERED
    filter: Filter = field(default_factory=Filter)
    initial: int = 0
    depth: int = 0
    receivers: dict = field(default_factory=dict)
    node: str | None = None
    kind: int = SEND
    receives: "Message | None" = None
    multiplexor: "Message | None" = None
    multiplexor_value: int = 0
    comment: str = ""

    def sender(self):
        return self.node if self.node is not None and self.kind == SEND else self.ipdu.sender if self.ipdu and self.node is None else None

    def placed(self):
        return self.start, self.bits, self.big

    def in_frame(self, frame):
        """The raw value that a frame of its I-PDU has at its bits."""
        return bits.unpacked(frame, self.start, self.bits, self.big, self.signed)

    def is_in(self, frame):
        """Whether a frame holds it: its multiplexor, where it has one, says so."""
        return self.multiplexor is None or self.multiplexor.in_frame(frame) == self.multiplexor_value


@dataclass
class MessageObject:
    """An object of a board. `of` is the message that says where its bits lie and what its values mean."""

    name: str
    number: int
    of: Message
    record: ObjectRecord

    @property
    def scaling(self):
        return self.of.scaling

    def filter(self):
        return Filter(self.record.filter, self.record.first, self.record.second)

    def text(self, word):
        """32 bits of the layer, for people."""
        return self.scaling.text(bits.meant(word % WHOLE, self.record.signed))


class Board:
    """One node: its I-PDUs and objects by number, and its table."""

    def __init__(self, network, node):
        self.network, self.node = network, node
        self.ipdus = [ipdu for ipdu in network.ipdus if node == ipdu.sender or node in ipdu.receivers]
        self.ipdu_records = [ipdu.record(node) for ipdu in self.ipdus]
        made = [(message, kind, has) for message in network.messages for kind, has in self.objects_of(message)]
        numbers = {id(message): number for number, (message, kind, _) in enumerate(made) if kind == SEND}
        self.objects = [self.object(number, *entry, numbers) for number, entry in enumerate(made)]
        self.table = table_bytes(self.ipdu_records, [entry.record for entry in self.objects])

    def objects_of(self, message):
        """Kind and own properties of each object that this node has for a message."""
        if message.node is not None:
            return [(message.kind, message)] if message.node == self.node else []
        if message.ipdu is not None and message.ipdu.sender == self.node:
            return [(SEND, message)]
        own = any(other.receives is message and other.node == self.node for other in self.network.messages)
        return [(RECEIVE, message.receivers[self.node])] if self.node in message.receivers and not own else []

    def object(self, number, message, kind, has, numbers):
        of = message.receives or message
        inside = message.receives is not None and of.sender() == self.node
        record = ObjectRecord(kind, filter=has.filter.number, initial=has.initial, first=has.filter.first, second=has.filter.second,
                              depth=has.depth, transfer=message.transfer if kind == SEND else TRIGGERED)
        record.order = SIGNED if message.signed else 0
        if inside:
            record.sender = numbers[id(of)]
        elif of.ipdu is not None:
            record.ipdu = self.ipdus.index(of.ipdu)
            record.start, record.bits, record.order = of.start, of.bits, record.order + (BIG if of.big else 0)
        return MessageObject(message.name, number, message, record)

    def carried(self, ipdu):
        """The objects of an I-PDU, by its number."""
        return [entry for entry in self.objects if entry.record.ipdu == ipdu]

    def ipdu_name(self, number):
        return self.ipdus[number].name if number < len(self.ipdus) else f"I-PDU {number}"

    def object_name(self, number):
        return self.objects[number].name if number < len(self.objects) else f"object {number}"

    def by_identifier(self, identifier, extended):
        """The number of the I-PDU with this CAN identifier, or None."""
        for number, ipdu in enumerate(self.ipdus):
            if (ipdu.identifier, ipdu.extended) == (identifier, extended):
                return number
        return None


@dataclass
class Network:
    """A tick lasts `tick` milliseconds. `sources` are the files that it was read from."""

    title: str
    file: str
    tick: Decimal
    nodes: list
    outside: list
    ipdus: list
    messages: list
    sources: list = field(default_factory=list)

    def boards(self):
        return [Board(self, node) for node in self.nodes]

    def milliseconds(self, ticks):
        """For people: no zeros behind the point."""
        return f"{(ticks * self.tick).normalize():f}"
