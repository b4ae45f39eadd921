"""A TOML file, with the database that it may name, as a network. docs/DESK.md lists the keys. What does not fit is refused by file, key and reason."""
import os
import re
import tomllib
from decimal import Decimal

from . import bits
from .database import ENDINGS
from .merge import database_file, merged
from .network import MODES, TRANSFERS, Ipdu, Message, Network, Receiving, Scaling
from .records import MIXED, MOST_BITS, MOST_DEPTH, MOST_DEPTHS, MOST_IPDUS, MOST_LENGTH, MOST_OBJECTS, PERIODIC, RECEIVE, SEND
from .sections import NO_DEFAULT, Section
from .wrong import Wrong, line, read_text, wrong

NAME = re.compile(r"[A-Za-z_][A-Za-z0-9_]*(\.[A-Za-z_][A-Za-z0-9_]*)?")
STANDARD, EXTENDED = 0x7FF, 0x1FFFFFFF  # the greatest CAN identifiers


def load(path):
    """The network of a TOML file."""
    if path.lower().endswith(ENDINGS):
        raise wrong(path, "", f"is no TOML file; a database is named in one: database = \"{os.path.basename(path)}\"")
    try:
        data = tomllib.loads(read_text(path), parse_float=Decimal)
    except tomllib.TOMLDecodeError as error:
        raise wrong(path, "", f"is no TOML: {error}") from None
    network = Source(path, *merged(path, data)).network()
    network.sources = [path, *([database_file(path, data["database"])] if "database" in data else [])]
    return network


def reads_later(section):
    """Sections that name another message are read after it, wherever they stand: those with a multiplexor, then those that receive one."""
    data = section[1] if isinstance(section[1], dict) else {}
    return ("receives" in data, "multiplexor" in data)


class Skipped(Exception):
    """A section that names one which is wrong itself."""


class Source:
    def __init__(self, file, data, origins, known_nodes, refused):
        self.file, self.data, self.origins, self.refused = file, data, origins, refused
        self.top = Section(file, "", data)
        self.problems, self.failed = [], set()
        self.ipdus, self.messages = {}, {}
        self.known_nodes = known_nodes

    def network(self):
        top = self.top
        title = top.text("title", os.path.splitext(os.path.basename(self.file))[0])
        top.text("database", "")
        top.names("leave_out", [])
        self.tick = top.number("tick_ms")
        if self.tick <= 0:
            raise top.wrong("tick_ms", f"is {self.tick}, has to be above 0")
        nodes, outside = top.names("nodes"), top.names("outside", [])
        if not nodes:
            raise top.wrong("nodes", "has no name: a table is made for each of them")
        self.tables = nodes
        self.known_nodes = list(dict.fromkeys(nodes + outside + self.known_nodes))
        self.check_names("nodes", self.known_nodes)
        defaults = top.inner("defaults")
        self.deadline = defaults.ticks("deadline_ms", self.tick, None, 1) if defaults.has("deadline_ms") else None
        defaults.finish()
        for kind, read in (("ipdu", self.ipdu), ("message", self.message)):
            sections = top.table(kind)
            self.check_names(kind, sections)
            for name, data in sorted(sections.items(), key=reads_later):
                self.section(kind, name, data, read)
        top.finish()
        if self.problems:
            raise Wrong(*self.problems)
        messages = [self.messages[name] for name in top.table("message")]
        network = Network(title, self.file, self.tick, nodes, outside, list(self.ipdus.values()), messages)
        self.check_whole(network)
        return network

    def check_names(self, key, names):
        for name in names:
            if not NAME.fullmatch(name):
                raise wrong(self.file, f"{key}.{name}" if key != "nodes" else key, f"\"{name}\" is no name: letters, digits and _, no digit first")

    def section(self, kind, name, data, read):
        """One section; what is wrong with it is kept, so that all of them are named at once."""
        section = Section(self.file, f"{kind}.{name}", data, self.origins.get((kind, name)))
        try:
            if not isinstance(data, dict):
                raise wrong(self.file, section.path, f"has to be a section [{section.path}]")
            if self.refused.get((kind, name)):
                raise Wrong(*self.refused[kind, name])
            read(name, section)
            section.finish()
        except Skipped:
            self.failed.add((kind, name))
        except Wrong as error:
            self.failed.add((kind, name))
            self.problems += error.lines

    def referred(self, section, key, kind, found):
        """What another section describes."""
        name = section.text(key)
        if (kind, name) in self.failed:
            raise Skipped
        return found[section.known(key, name, found, {"ipdu": "I-PDU", "message": "message"}[kind])]

    def node(self, section, key, name):
        return section.known(key, name, self.known_nodes, "node")

    # I-PDUs

    def ipdu(self, name, section):
        ipdu = Ipdu(name, section.whole("size_in_bytes", 1, MOST_LENGTH, what=", the bytes of a frame"), comment=section.text("comment", ""))
        ipdu.extended = section.flag("extended")
        ipdu.identifier = section.whole("id", 0, EXTENDED if ipdu.extended else STANDARD, None, "" if ipdu.extended else ", or extended = true")
        ipdu.sender = section.text("sender", None)
        if ipdu.sender is not None:
            self.node(section, "sender", ipdu.sender)
            self.sending(ipdu, section, ipdu.sender in self.tables)
        deadlines = section.inner("receiver")
        receivers = section.names("receivers", list(dict.fromkeys(self.wanted_receivers(name, ipdu.sender) + list(deadlines.data))))
        for node in receivers:
            self.node(section, "receivers", node)
            if node == ipdu.sender:
                raise section.wrong("receivers", f"\"{node}\" is its sender; a receiver inside is a message with receives = ..")
            ipdu.receivers[node] = (0, 0)
        for node in deadlines.data:
            section.known("receiver", node, receivers, "receiver")
            ipdu.receivers[node] = self.receiving(deadlines.inner(node))
        for other in self.ipdus.values():
            if ipdu.identifier is not None and (other.identifier, other.extended) == (ipdu.identifier, ipdu.extended):
                raise section.wrong("id", f"0x{ipdu.identifier:X} is the identifier of {other.name} too")
        self.ipdus[name] = ipdu

    def sending(self, ipdu, section, has_table):
        """The sender's part; a sender that gets no table needs no deadline."""
        ipdu.mode = section.one_of("transmission_mode", MODES, None)
        if ipdu.mode is None:
            ipdu.mode = PERIODIC if section.has("time_period_ms") else 0
        if ipdu.mode in (PERIODIC, MIXED):
            ipdu.period = section.ticks("time_period_ms", self.tick, None, 1)
            ipdu.offset = section.ticks("time_offset_ms", self.tick, ipdu.period, 1)
        elif section.ticks("time_period_ms", self.tick) or section.ticks("time_offset_ms", self.tick):
            raise section.wrong("transmission_mode", "is direct, so there is no time_period_ms and no time_offset_ms")
        ipdu.minimum_delay = section.ticks("minimum_delay_time_ms", self.tick)
        if ipdu.mode == PERIODIC and ipdu.minimum_delay:
            raise section.wrong("minimum_delay_time_ms", "has no meaning where transmission_mode is periodic; mixed has one")
        ipdu.deadline = section.ticks("deadline_ms", self.tick, self.deadline or (None if has_table else 1), 1)

    def receiving(self, section):
        """Deadline and first deadline of a receiver."""
        deadline, first = section.ticks("deadline_ms", self.tick), section.ticks("first_deadline_ms", self.tick)
        if first and not deadline:
            raise section.wrong("first_deadline_ms", "needs a deadline_ms too")
        section.finish()
        return deadline, first

    def wanted_receivers(self, name, sender):
        """The nodes that receive a message of an I-PDU."""
        nodes = []
        for data in self.top.table("message").values():
            if isinstance(data, dict) and data.get("ipdu") == name:
                named = [data.get("node")] if "node" in data else data.get("receivers", [])
                nodes += [node for node in named if isinstance(node, str) and node != sender] if isinstance(named, list) else []
        return list(dict.fromkeys(nodes))

    # messages

    def message(self, name, section):
        message = Message(name, comment=section.text("comment", ""))
        if section.has("receives"):
            self.second_receiver(message, section)
        else:
            self.own_place(message, section)
            self.meaning(message, section)
            size, signed = message.bits, message.signed
            message.initial = section.value("initial_value", message.scaling, size, signed)
            message.filter = section.filter("filter", message.scaling, signed)
            if message.kind == SEND:
                message.transfer = section.one_of("transfer_property", TRANSFERS, 0)
            else:
                message.depth = section.whole("queue_size", 0, MOST_DEPTH, 0)
            if message.node is None:
                self.receivers(message, section)
            if section.has("multiplexor") or section.has("multiplexor_value"):
                self.multiplexed(message, section)
        self.messages[name] = message

    def own_place(self, message, section):
        message.node = section.text("node", None)
        if message.node is not None:
            self.node(section, "node", message.node)
        if not section.has("ipdu"):
            if message.node is None:
                raise section.wrong("ipdu", "is missing; a message with no I-PDU needs its node")
            message.kind = SEND + section.one_of("direction", ["sent", "received"], 0)
            message.signed = section.flag("signed")
            return
        message.ipdu = self.referred(section, "ipdu", "ipdu", self.ipdus)
        if message.node is not None and message.node != message.ipdu.sender:
            section.known("node", message.node, message.ipdu.receivers, f"sender or receiver of {message.ipdu.name} with the name")
            message.kind = RECEIVE
        message.bits = section.whole("size_in_bits", 1, MOST_BITS, what=", the bits of a value")
        message.big = section.one_of("byte_order", ["little", "big"], 0) == 1
        message.signed = section.flag("signed")
        most = 8 * MOST_LENGTH - 1
        if section.has("dbc_start_bit"):
            if section.has("start_bit"):
                raise section.wrong("start_bit", "stands beside dbc_start_bit: one of them")
            key, start = "dbc_start_bit", section.whole("dbc_start_bit", 0, most)
            message.start = bits.start_from_dbc(start, message.bits, message.big)
        else:
            key, start = "start_bit", section.whole("start_bit", 0, most)
            message.start = start
        if not bits.fits(*message.placed(), message.ipdu.length):
            order = "big" if message.big else "little"
            raise section.wrong(key, f"is {start}: {message.bits} {order} bits from there leave the {message.ipdu.length} bytes of {message.ipdu.name}")

    def meaning(self, message, section):
        """Scaling, named values and what people may expect."""
        scaling = Scaling(section.number("factor", Decimal(1)), section.number("offset", Decimal(0)), section.text("unit", ""))
        if scaling.factor == 0:
            raise section.wrong("factor", "is 0")
        for key, word in section.table("values").items():
            if not re.fullmatch("-?[0-9]+", key) or not isinstance(word, str):
                raise section.wrong("values", f"{key} = {word}: has to be a whole number and a name in quotes")
            scaling.names[int(key)] = word
        message.scaling = scaling
        message.minimum, message.maximum = section.number("minimum", None), section.number("maximum", None)
        if None not in (message.minimum, message.maximum) and message.maximum < message.minimum:
            raise section.wrong("maximum", f"is {message.maximum}, below the minimum {message.minimum}")

    def receivers(self, message, section):
        ipdu = message.ipdu
        nodes = section.names("receivers", list(ipdu.receivers))
        for node in nodes:
            section.known("receivers", node, ipdu.receivers, f"receiver of {ipdu.name} with the name")
        given = section.inner("receiver")
        for node in given.data:
            section.known("receiver", node, nodes, "receiver")
        for node in nodes:
            inner = given.inner(node)
            message.receivers[node] = self.receiver(message, inner)
            inner.finish()

    @staticmethod
    def receiver(message, section):
        return Receiving(section.filter("filter", message.scaling, message.signed),
                         section.value("initial_value", message.scaling, message.bits, message.signed, message.initial),
                         section.whole("queue_size", 0, MOST_DEPTH, 0))

    def multiplexed(self, message, section):
        """The message of the same I-PDU whose value says whether a frame holds this one."""
        of = message.multiplexor = self.referred(section, "multiplexor", "message", self.messages)
        if of.ipdu is not message.ipdu or of.ipdu is None or of.multiplexor is not None:
            raise section.wrong("multiplexor", f"{of.name} has to lie in the same I-PDU and to have no multiplexor itself")
        message.multiplexor_value = section.whole("multiplexor_value", bits.least(of.bits, of.signed), bits.greatest(of.bits, of.signed))

    def second_receiver(self, message, section):
        """A receive object for a message that another section describes: inside its sender, or beside the one of a receiver."""
        of = self.referred(section, "receives", "message", self.messages)
        if of.kind == RECEIVE or of.receives is not None:
            raise section.wrong("receives", f"{of.name} is a receive message itself")
        node = section.text("node", of.sender() or NO_DEFAULT)
        self.node(section, "node", node)
        inside = node == of.sender()
        if not inside and (of.node is not None or node not in of.receivers):
            raise section.wrong("node", f"\"{node}\" neither sends nor receives {of.name}")
        message.kind, message.node, message.receives, message.ipdu = RECEIVE, node, of, None if inside else of.ipdu
        message.scaling, message.minimum, message.maximum = of.scaling, of.minimum, of.maximum
        message.multiplexor, message.multiplexor_value = (None, 0) if inside else (of.multiplexor, of.multiplexor_value)
        message.signed = section.flag("signed", of.signed)
        if not inside:
            message.start, message.bits, message.big = of.placed()
        own = self.receiver(Message("", bits=message.bits, signed=message.signed, scaling=of.scaling, initial=of.initial), section)
        message.filter, message.initial, message.depth = own.filter, own.initial, own.depth

    # the whole

    def check_whole(self, network):
        for board in network.boards():
            key = f"nodes.{board.node}"
            depths = sum(entry.record.depth for entry in board.objects)
            counts = [(len(board.ipdus), MOST_IPDUS, "I-PDUs"), (len(board.objects), MOST_OBJECTS, "messages"), (depths, MOST_DEPTHS, "places in queues")]
            self.problems += [line(self.file, key, f"has {count} {what}, and a table has room for {most}") for count, most, what in counts if count > most]
        if self.problems:
            raise Wrong(*self.problems)
