#!/usr/bin/env python3
"""Signals of random DBC files, from the file to the proved layer: tools/desk reads the file and makes the tables of a sender and of a receiver. The
sender's frames are what canmatrix encodes, canmatrix decodes them to the values sent, and the receiver has from canmatrix's frames, also with noise in the
bits of nobody, the values encoded. scapy packs and unpacks the same. Needs target/staticlib/libexports.a, gcc and Debian's python3-canmatrix; left out
without. scapy's part needs python3-scapy, and is left out without."""
import os
import random
import re
import sys
import tempfile
from decimal import Decimal

sys.dont_write_bytecode = True
TOP = os.path.join(os.path.dirname(os.path.realpath(__file__)), "..")
sys.path[:0] = [os.path.join(TOP, "tools"), os.path.join(TOP, "tests", "desk")]

from archive import Layer, load as load_archive
from desk import bits, database
from desk.records import MOST_BITS, MOST_IPDUS, MOST_LENGTH, MOST_OBJECTS
from desk.source import load
from desk.wrong import Wrong, write

FILES = 570
SIGNALS, SCAPY_SIGNALS = 40000, 10000  # at least
SCALINGS = [(Decimal(1), Decimal(0)), (Decimal("0.1"), Decimal(0)), (Decimal("0.5"), Decimal(-40)), (Decimal(-2), Decimal("7.5"))]
TOML = 'database = "random.dbc"\ntick_ms = 1\nnodes = ["VAN", "CASE"]\ndefaults.deadline_ms = 10\n'


def random_value(size, signed):
    least, greatest = bits.least(size, signed), bits.greatest(size, signed)
    return random.choice([least, greatest, (least + greatest) // 2 + 1] + 3 * [random.randint(least, greatest)])


def random_signals(length):
    """Lines of signals that share no bit, as a DBC names them."""
    lines, taken = [], set()
    for _ in range(12):
        size = random.randint(1, min(MOST_BITS, 8 * length))
        first, little = random.randint(0, 8 * length - size), random.random() < 0.5
        held = {bit if little else bits.turned(bit) for bit in range(first, first + size)}
        if not held & taken:
            taken |= held
            factor, offset = random.choice(SCALINGS)
            place = f"{first if little else bits.turned(first)}|{size}@{int(little)}{random.choice('+-')}"
            lines.append(f" SG_ S{len(lines)} : {place} ({factor},{offset}) [0|0] \"\" CASE")
    return lines


def random_dbc():
    """As many frames as a table has room for, with start values."""
    lines, starts, count = ['VERSION ""', "BU_: VAN CASE"], [], 0
    for number in range(MOST_IPDUS):
        length = random.randint(1, MOST_LENGTH)
        signals = random_signals(length)
        count += len(signals)
        if count > MOST_OBJECTS:
            break
        lines += [f"BO_ {number + 1} F{number}: {length} VAN", *signals]
        starts += [f'BA_ "GenSigStartValue" SG_ {number + 1} S{i} {random.choice([0, 1])};' for i in range(len(signals))]
    return "\n".join([*lines, 'BA_DEF_ SG_ "GenSigStartValue" INT 0 1;', *starts, ""])


class Frame:
    """One frame on both boards, beside canmatrix."""

    def __init__(self, text, matrix, ipdu, sender, receiver):
        self.text, self.matrix, self.length = text, matrix, ipdu.length
        self.sender, self.receiver = sender, receiver
        self.sent, self.received = (board.ipdus.index(ipdu) for board in (sender.board, receiver.board))
        self.objects = sender.board.carried(self.sent)
        self.received_objects = receiver.board.carried(self.received)
        self.messages = [entry.of for entry in self.objects]
        self.values = [bits.meant(entry.record.initial, entry.record.signed) for entry in self.objects]

    def same(self, what, found, expected):
        if found != expected:
            sys.exit(f"desk_signals.py: {what} {found}, should be {expected}; frame {self.matrix.name}, values {self.values}, of\n{self.text.rstrip()}")

    def random_values(self):
        return [random_value(message.bits, message.signed) for message in self.messages]

    def encoded(self, values):
        """What canmatrix makes of the values, as they are stored."""
        return bytes(self.matrix.encode({signal.name: value for signal, value in zip(self.matrix.signals, values)}))

    def compare(self):
        starts = [signal.get_startbit(bit_numbering=1, start_little=True) for signal in self.matrix.signals]
        self.same("the start bits are", [message.start for message in self.messages], starts)
        for i, entry in enumerate(self.objects):
            self.values[i] = random_value(self.messages[i].bits, self.messages[i].signed)
            frame = self.sender.send(entry.number, self.values[i], self.sent, self.length)
            self.same(f"the sender packs, at S{i},", frame.hex(), self.encoded(self.values).hex())
        values = self.matrix.decode(bytearray(frame))
        decoded = [values[signal.name] for signal in self.matrix.signals]
        self.same("canmatrix decodes", [value.raw_value for value in decoded], self.values)
        self.same("the desk has in units", [message.scaling.physical(value) for message, value in zip(self.messages, self.values)],
                  [value.phys_value for value in decoded])
        self.same("the desk reads in the frame", [message.in_frame(frame) for message in self.messages], self.values)
        self.values = self.random_values()
        frame = self.encoded(self.values)
        own = self.encoded([-1 if message.signed else bits.greatest(message.bits, False) for message in self.messages])
        noisy = bytes(byte | random.randrange(256) & ~held for byte, held in zip(frame, own))
        for arriving in (frame, noisy):
            self.same("an indication answers", self.receiver.indicate(self.received, arriving), 0)
            readings = [bits.meant(self.receiver.call("receive", entry.number), entry.record.signed) for entry in self.received_objects]
            self.same(f"the receiver has from {arriving.hex()}", readings, self.values)

    def compare_scapy(self, can):
        kinds = {(False, False): can.LEUnsignedSignalField, (False, True): can.LESignedSignalField,
                 (True, False): can.BEUnsignedSignalField, (True, True): can.BESignedSignalField}
        fields = [kinds[message.big, message.signed](signal.name, 0, bits.start_to_dbc(*message.placed()), message.bits)
                  for signal, message in zip(self.matrix.signals, self.messages)]
        packet = type("Signals", (can.SignalPacket,), {"fields_desc": fields})
        values = self.random_values()
        packed = bytes(packet(**{field.name: value for field, value in zip(fields, values)})).ljust(self.length, b"\0")
        self.same("canmatrix encodes, beside scapy,", self.encoded(values).hex(), packed.hex())
        self.receiver.indicate(self.received, packed)
        readings = [bits.meant(self.receiver.call("receive", entry.number), entry.record.signed) for entry in self.received_objects]
        self.same(f"the receiver has from scapy's {packed.hex()}", readings, values)
        for entry, value in zip(self.objects, values):
            frame = self.sender.send(entry.number, value, self.sent, self.length)
        read = packet(frame)
        self.same(f"scapy unpacks {frame.hex()} to", [getattr(read, field.name) for field in fields], values)


class Node(Layer):
    """A board in the layer, started."""

    def __init__(self, library, board):
        super().__init__(library, board.table)
        self.board = board
        self.call("start")

    def send(self, number, value, ipdu, length):
        """The frame that a send asks for, which is confirmed."""
        word = self.call("send", number, value)
        if word != 1 << ipdu:
            sys.exit(f"desk_signals.py: a send asks for {word}, should be I-PDU {ipdu}, table {self.table.hex()}")
        self.call("confirm", ipdu, 1)
        return self.frame(ipdu, length)


def frames_of(library, folder, text):
    """The frames of a DBC, on both boards."""
    path = os.path.join(folder, "random.dbc")
    write(path, text)
    write(os.path.join(folder, "random.toml"), TOML)
    network = load(os.path.join(folder, "random.toml"))
    sender, receiver = (Node(library, board) for board in network.boards())
    matrices = database.load(path).frames
    if [frame.name for frame in matrices] != [ipdu.name for ipdu in network.ipdus]:
        sys.exit(f"desk_signals.py: other frames than in\n{text}")
    texts = re.findall(r"BO_ .*\n(?: SG_ .*\n)*", text)
    return [Frame(*entry, sender, receiver) for entry in zip(texts, matrices, network.ipdus, strict=True)]


def test_known(library, folder):
    """Places that people of this field have worked out by hand: start bit in a table, value and frame."""
    for place, start, value, expected in (("23|12@0-", 28, -186, "0000f460"), ("13|12@0+", 18, 2748, "002af000")):
        text = f'VERSION ""\nBU_: VAN CASE\nBO_ 1 F: 4 VAN\n SG_ S : {place} (1,0) [0|0] "" CASE\n'
        frame = frames_of(library, folder, text)[0]
        frame.same(f"{place} starts at", frame.messages[0].start, start)
        frame.same(f"{place} is sent as", frame.sender.send(0, value, 0, 4).hex(), expected)
        frame.same(f"{place} is for canmatrix", frame.encoded([value]).hex(), expected)


def scapy_fields():
    """scapy's signals, or None where it is not there."""
    try:
        with database.caught():
            from scapy.layers import can
        return can
    except ImportError:
        return None


def main():
    try:
        database.library("desk_signals.py")
    except Wrong:
        print("desk_signals.py: left out: python3-canmatrix is not on this machine")
        return
    random.seed(207)
    can, count, beside_scapy, met = scapy_fields(), 0, 0, set()
    with tempfile.TemporaryDirectory() as folder, database.caught():
        library = load_archive(folder)
        test_known(library, folder)
        for _ in range(FILES):
            for frame in frames_of(library, folder, random_dbc()):
                frame.compare()
                count += len(frame.messages)
                met |= {(message.bits, message.big, message.signed) for message in frame.messages}
                if can and beside_scapy < SCAPY_SIGNALS:
                    frame.compare_scapy(can)
                    beside_scapy += len(frame.messages)
    if count < SIGNALS or len(met) < 4 * MOST_BITS or can and beside_scapy < SCAPY_SIGNALS:
        sys.exit(f"desk_signals.py: only {count} signals, {beside_scapy} beside scapy, {len(met)} of {4 * MOST_BITS} sizes and orders")
    words = f"{beside_scapy} of them as by scapy" if can else "scapy's part left out: python3-scapy is not on this machine"
    print(f"desk_signals.py: {count} signals of {FILES} DBC files are packed and unpacked as by canmatrix, {words}")


main()
