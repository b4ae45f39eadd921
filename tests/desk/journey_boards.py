"""Boards for the tests of runs: the example's two nodes, tables alone, random networks of two nodes; and a player that makes calls through the archive while
it writes the script of them."""
import glob
import os
import random
from decimal import Decimal

from archive import Layer
from desk import bits
from desk.network import FILTERS, Filter, Ipdu, Message, Network, Receiving, Scaling
from desk.records import MIXED, PERIODIC, RECEIVE, SEND, WHOLE, ipdu_records, object_records
from desk.source import load

EXAMPLES = os.path.join(os.path.dirname(os.path.realpath(__file__)), "..", "..", "examples")
NODES = ["left", "right"]
TICKS = ["1", "10", "2.5", "0.7", "100"]  # in ms
ALWAYS, DIFFERENT, WITHIN, OUTSIDE = [[name for name, _ in FILTERS].index(name) for name in ("Always", "NewIsDifferent", "NewIsWithin", "NewIsOutside")]


class TableObject:
    def __init__(self, number, record):
        self.number, self.record = number, record


class TableBoard:
    """A board of which there is the table alone."""

    def __init__(self, table):
        self.table, self.ipdu_records = table, ipdu_records(table)
        self.objects = [TableObject(number, record) for number, record in enumerate(object_records(table))]


def example_boards():
    """A board for each table of the examples."""
    boards = []
    for path in sorted(glob.glob(os.path.join(EXAMPLES, "*.table"))):
        with open(path, "rb") as file:
            boards.append(TableBoard(file.read()))
    return boards


def van():
    return load(os.path.join(EXAMPLES, "van.toml"))


def random_network():
    """Two nodes that send to each other."""
    ipdus = [random_ipdu(number) for number in range(random.randint(2, 6))]
    messages = [message for ipdu in ipdus for message in random_messages(ipdu)] + [message for node in NODES for message in inside_messages(node)]
    return Network("Random", "random", Decimal(random.choice(TICKS)), NODES, [], ipdus, messages)


def random_ipdu(number):
    sender, receiver = random.sample(NODES, 2)
    extended, mode = random.random() < 0.3, random.randrange(3)
    deadline = random.choice([0, 0, *range(1, 9)])
    ipdu = Ipdu(f"I{number}", random.randint(1, 8), number + 32 * random.randrange(0xFFFFFF if extended else 0x3F), extended, sender, mode=mode)
    ipdu.receivers = {receiver: (deadline, random.randrange(9) if deadline else 0)}
    ipdu.deadline = random.randint(1, 8)
    ipdu.minimum_delay = 0 if mode == PERIODIC else random.randrange(5)
    if mode in (PERIODIC, MIXED):
        ipdu.period, ipdu.offset = random.randint(1, 7), random.randint(1, 5)
    return ipdu


def random_messages(ipdu):
    """Up to four, which share no bits; a short first one may be the multiplexor of others."""
    taken, messages = set(), []
    while not messages or len(messages) < 4 and random.random() < 0.7:
        size, big, start = random.choice([1, 3, 8, 12, 16, 32]), random.random() < 0.5, random.randrange(8 * ipdu.length)
        if not bits.fits(start, size, big, ipdu.length) or taken & set(bits.places(start, size, big)):
            size = 1
        if taken & set(bits.places(start, size, big)):
            break
        taken |= set(bits.places(start, size, big))
        messages.append(random_message(f"{ipdu.name}_{len(messages)}", ipdu, start, size, big))
        if len(messages) > 1 and messages[0].bits <= 3 and random.random() < 0.7:
            messages[-1].multiplexor, messages[-1].multiplexor_value = messages[0], random_raw(messages[0])
    return messages


def inside_messages(node):
    """One with no I-PDU, and two receivers of it inside the node, of which one has a queue."""
    sent = Message(f"{node}_sent", node=node, kind=SEND, signed=random.random() < 0.5)
    shown = [Message(f"{node}_shown{depth}", node=node, kind=RECEIVE, receives=sent, depth=depth, signed=sent.signed) for depth in (0, 3)]
    return [sent, *shown]


def random_message(name, ipdu, start, size, big):
    signed = random.random() < 0.5
    scaling = Scaling(Decimal(random.choice(["1", "0.1", "0.25", "-2"])), Decimal(random.choice(["0", "-40", "0.5"])))
    message = Message(name, ipdu, start, size, big, signed, scaling, transfer=random.choice([0, 0, 0, 1]))
    message.initial = random_raw(message) % WHOLE
    message.filter = random_filter(message, [ALWAYS, DIFFERENT, WITHIN])
    depth = random.choice([0, 1, 2, 5])
    message.receivers = {node: Receiving(random_filter(message, [ALWAYS, ALWAYS, WITHIN, OUTSIDE]), message.initial, depth) for node in ipdu.receivers}
    return message


def random_raw(message):
    """A value that fits the bits."""
    return random.randint(bits.least(message.bits, message.signed), bits.greatest(message.bits, message.signed))


def random_filter(message, numbers):
    number = random.choice(numbers)
    return Filter(number, *(value % WHOLE for value in sorted((random_raw(message), random_raw(message))))) if number in (WITHIN, OUTSIDE) else Filter(number)


def passes(record, new, old=None):
    """Whether a filter of those above lets a value through."""
    least, greatest = (bits.meant(word, record.signed) for word in (record.first, record.second))
    return {ALWAYS: True, DIFFERENT: new != old, WITHIN: least <= new <= greatest, OUTSIDE: not least <= new <= greatest}[record.filter]


class Player:
    """Makes calls over a board, and keeps their lines."""

    def __init__(self, library, board):
        self.board, self.layer, self.lines = board, Layer(library, board.table), []
        self.senders, self.receivers = ([entry for entry in board.objects if entry.record.kind == kind] for kind in (SEND, RECEIVE))

    def script(self):
        return "".join(line + "\n" for line in self.lines)

    def call(self, name, *numbers):
        """Number and value of the answer."""
        self.lines.append(" ".join([name, *map(str, numbers)]))
        return self.layer.answer(name, *numbers)

    def indicate(self, ipdu, data, good=1):
        """The number of the answer."""
        self.lines.append(f"indication {ipdu} {good} {data.hex().upper()}".rstrip())
        return self.layer.indicate(ipdu, data, good)

    def requested(self, answer):
        """The I-PDUs that a send or a tick asks for, with their bytes."""
        records = self.board.ipdu_records
        return [(number, self.layer.frame(number, record.length)) for number, record in enumerate(records) if answer[0] == 0 and answer[1] >> number & 1]

    def marks(self):
        """Of all objects; nothing where the layer is stopped."""
        answers = [self.layer.answer("marks", entry.number) for entry in self.board.objects]
        return {number: value for number, (status, value) in enumerate(answers) if status == 0}
