"""A network as a DBC file: its frames, signals, scalings, times and start values. Deadlines, filters, queues and receivers inside have no word there."""
from . import bits
from .database import NOBODY
from .network import FILTERS
from .records import MOST_TICKS, PENDING, SEND, TRIGGERED, WHOLE
from .wrong import wrong

EXTENDED_FLAG = 1 << 31  # in a DBC's number of a frame
KEYWORDS = ["CM_", "BA_DEF_", "BA_", "VAL_", "BA_DEF_DEF_"]
NO_WORDS = "Deadlines, filters other than a send on change, queues and receivers inside a node are not in this file: a DBC has no word for them."
# By the network's mode; the last is what stands where there is no sender.
SEND_TYPES = ["spontaneous", "cyclic", "cyclicAndSpontaneous", "noMsgSendType"]
ON_CHANGE, CYCLIC, NO_SEND_TYPE = range(3)
SIGNAL_SEND_TYPES = ["onChange", "cyclic", "noSigSendType"]
IS_DIFFERENT = [name for name, _ in FILTERS].index("NewIsDifferent")


def encoded(text):
    """The bytes of a DBC: Latin-1, which most tools take it for, where it has all the letters; else UTF-8."""
    try:
        return text.encode("iso-8859-1")
    except UnicodeEncodeError:
        return text.encode()


def dbc(network):
    """The text of the file."""
    return Writer(network).text()


def quoted(text):
    """A text for a DBC, which has no way to write a quote, a backslash or what can't be printed."""
    plain = "".join(letter if letter.isprintable() else " " for letter in text.replace("\\", "/").replace('"', "'"))
    return f'"{" ".join(plain.split())}"'


def enumeration(words):
    return "ENUM " + ",".join(quoted(word) for word in words)


class Writer:
    def __init__(self, network):
        self.network = network
        used = [node for ipdu in network.ipdus for node in (ipdu.sender, *ipdu.receivers) if node is not None]
        self.nodes = self.short_names("nodes", [*network.nodes, *network.outside, *used])
        self.frames = self.short_names("ipdu", [ipdu.name for ipdu in network.ipdus])
        self.signals = {}
        for ipdu in network.ipdus:
            self.signals |= self.short_names("message", [message.name for message in self.carried(ipdu)])
        self.multiplexors = [self.multiplexor(ipdu) for ipdu in network.ipdus]

    def short_names(self, key, names):
        """FRAME.SIGNAL is SIGNAL in a DBC."""
        short = {name: name.rpartition(".")[2] for name in names}
        taken = {}
        for name, word in short.items():
            if taken.setdefault(word, name) != name:
                raise wrong(self.network.file, f"{key}.{name}", f"is {word} in a DBC, and so is {taken[word]}")
        return short

    def carried(self, ipdu):
        """What its sender puts into it, not what a receiver alone sees in it."""
        return [message for message in self.network.messages if message.ipdu is ipdu and (message.node is None or message.kind == SEND)]

    def multiplexor(self, ipdu):
        """The message whose value says which of the others a frame holds, or None."""
        carried = self.carried(ipdu)
        held = [message for message in carried if message.multiplexor is not None]
        for message in held:
            key, of, first = f"message.{message.name}.multiplexor", message.multiplexor, held[0].multiplexor
            if of is not first:
                raise wrong(self.network.file, key, f"is {of.name}, and another in {ipdu.name} is {first.name}: a DBC has one in a frame")
            if not any(other is of for other in carried):
                raise wrong(self.network.file, key, f"{of.name} is not its sender's, and a DBC has no word for it")
            if message.multiplexor_value < 0:
                raise wrong(self.network.file, f"{key}_value", f"is {message.multiplexor_value}, and a DBC has none below 0")
        return held[0].multiplexor if held else None

    def text(self):
        parts = [self.head(), self.bus(), self.comments(), self.attributes(), self.values()]
        return "\n\n".join("\n".join(part) for part in parts if part) + "\n"

    def head(self):
        nodes = "".join(" " + node for node in self.nodes.values())
        return ['VERSION ""', "", "NS_ :", *("\t" + word for word in KEYWORDS), "", "BS_:", "", f"BU_:{nodes}"]

    # frames and signals

    def number(self, ipdu):
        if ipdu.identifier is None:
            raise wrong(self.network.file, f"ipdu.{ipdu.name}.id", "is missing, and a DBC needs it")
        return ipdu.identifier | (EXTENDED_FLAG if ipdu.extended else 0)

    def bus(self):
        lines = []
        for ipdu in self.network.ipdus:
            sender = self.nodes[ipdu.sender] if ipdu.sender is not None else NOBODY
            lines += [f"BO_ {self.number(ipdu)} {self.frames[ipdu.name]}: {ipdu.length} {sender}", *map(self.signal, self.carried(ipdu)), ""]
        return lines[:-1]

    def signal(self, message):
        place = f"{bits.start_to_dbc(*message.placed())}|{message.bits}@{0 if message.big else 1}{'-' if message.signed else '+'}"
        ends = sorted(message.scaling.physical(end(message.bits, message.signed)) for end in (bits.least, bits.greatest))
        least, greatest = (given if given is not None else end for given, end in zip((message.minimum, message.maximum), ends))
        scaling = f"({message.scaling.factor:f},{message.scaling.offset:f}) [{least:f}|{greatest:f}]"
        receivers = ",".join(self.nodes[node] for node in message.receivers) or NOBODY
        held = " M" if any(of is message for of in self.multiplexors) else f" m{message.multiplexor_value}" if message.multiplexor is not None else ""
        return f" SG_ {self.signals[message.name]}{held} : {place} {scaling} {quoted(message.scaling.unit)}  {receivers}"

    # what is said of them

    def named(self):
        """A DBC's words for each signal, with its message."""
        return [(f"SG_ {self.number(ipdu)} {self.signals[message.name]}", message) for ipdu in self.network.ipdus for message in self.carried(ipdu)]

    def comments(self):
        lines = [f"CM_ {quoted(self.network.title + '. ' + NO_WORDS)};"]
        lines += [f"CM_ BO_ {self.number(ipdu)} {quoted(ipdu.comment)};" for ipdu in self.network.ipdus if ipdu.comment]
        return lines + [f"CM_ {words} {quoted(message.comment)};" for words, message in self.named() if message.comment]

    def attributes(self):
        """Of each attribute its definition and its default, then what differs from that."""
        defined = [*self.times(), self.send_types(), self.start_values(), self.signal_send_types()]
        lines = [f'BA_DEF_ {kind}  "{name}" {what};' for kind, name, what, _, _ in defined]
        lines += [f'BA_DEF_DEF_  "{name}" {default};' for _, name, _, default, _ in defined]
        return lines + [f'BA_ "{name}" {words} {value};' for _, name, _, _, values in defined for words, value in values]

    def times(self):
        most = self.network.milliseconds(MOST_TICKS)
        what = f"INT 0 {most}" if self.network.tick % 1 == 0 else f"FLOAT 0 {most}"
        for name, field in (("GenMsgCycleTime", "period"), ("GenMsgStartDelayTime", "offset"), ("GenMsgDelayTime", "minimum_delay")):
            ticks = [(f"BO_ {self.number(ipdu)}", getattr(ipdu, field)) for ipdu in self.network.ipdus]
            yield "BO_", name, what, "0", [(words, self.network.milliseconds(count)) for words, count in ticks if count]

    def send_types(self):
        modes = [(f"BO_ {self.number(ipdu)}", ipdu.mode) for ipdu in self.network.ipdus if ipdu.sender is not None]
        return "BO_", "GenMsgSendType", enumeration(SEND_TYPES), quoted(SEND_TYPES[-1]), modes

    def start_values(self):
        values = [(words, bits.meant(message.initial, message.signed)) for words, message in self.named() if message.initial]
        return "SG_", "GenSigStartValue", f"FLOAT {-WHOLE // 2} {WHOLE - 1}", "0", values

    def signal_send_types(self):
        types = [(words, send_type(message)) for words, message in self.named()]
        given = [(words, number) for words, number in types if number != NO_SEND_TYPE]
        return "SG_", "GenSigSendType", enumeration(SIGNAL_SEND_TYPES), quoted(SIGNAL_SEND_TYPES[NO_SEND_TYPE]), given

    def values(self):
        return [f"VAL_ {words.removeprefix('SG_ ')} " + "".join(f"{raw} {quoted(name)} " for raw, name in message.scaling.names.items()) + ";"
                for words, message in self.named() if message.scaling.names]


def send_type(message):
    """The number of a signal's send type."""
    if message.transfer == PENDING:
        return CYCLIC
    return ON_CHANGE if (message.transfer, message.filter.number) == (TRIGGERED, IS_DIFFERENT) else NO_SEND_TYPE
