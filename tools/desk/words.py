"""Words that several texts for people share, and a board's I-PDUs and objects in words."""
import os

from .records import NONE, SEND

PROGRAM = "tools/table compile"


def one_line(text):
    """A text with no line ends and nothing that does not print."""
    return "".join(character if character.isprintable() else "?" for character in " ".join(text.split()))


def made_by(board):
    """Which program made a file, and from what."""
    return f"Made by {PROGRAM} from {one_line(os.path.basename(board.network.file))}; not to be changed by hand."


def made_from(board):
    """What the first line of a header says."""
    return f"Node {board.node} of {one_line(board.network.title)}. {made_by(board)}"


def counted(number, what):
    """1 tick, 2 ticks."""
    return f"{number:,} {what}{'' if number == 1 else 's'}"


def joined(words, last=" and "):
    """One, two and three."""
    return last.join([", ".join(words[:-1]), words[-1]] if len(words) > 1 else words)


def identifier(ipdu):
    """A CAN identifier as people write it."""
    return "no identifier" if ipdu.identifier is None else f"0x{ipdu.identifier:X}{' extended' if ipdu.extended else ''}"


def can_identifier(ipdu):
    return "no identifier" if ipdu.identifier is None else f"identifier {identifier(ipdu)}"


def ends(ipdu):
    """Who sends an I-PDU and who receives it."""
    return f"sent by {ipdu.sender or 'no node here'}, received by {', '.join(ipdu.receivers) or 'no node'}"


def commented(words, comment):
    comment = one_line(comment)
    return f"{words}. {comment}" if comment else f"{words}."


def ipdu_words(board, number):
    """Direction, length and identifier of an I-PDU."""
    ipdu, direction = board.ipdus[number], "sent" if board.ipdu_records[number].direction == SEND else "received"
    return commented(f"I-PDU {ipdu.name}: {direction}, {counted(ipdu.length, 'byte')}, {can_identifier(ipdu)}", ipdu.comment)


def lies(board, entry):
    """The kind of an object, the I-PDU or object that it belongs to, and what its multiplexor has to be."""
    record, of = entry.record, entry.of
    kind = "sent" if record.kind == SEND else "received"
    if record.ipdu != NONE:
        held = f" while {of.multiplexor.name} is {of.multiplexor_value}" if of.multiplexor is not None else ""
        return f"{kind} in {board.ipdu_name(record.ipdu)}{held}"
    return f"{kind} inside from {board.object_name(record.sender)}" if record.sender != NONE else f"{kind} in no I-PDU"


def object_words(board, entry):
    """Kind, I-PDU, bits, filter and unit of an object."""
    record, unit = entry.record, one_line(entry.scaling.unit)
    place = f", {'big' if record.big else 'little'}, from bit {record.start}" if record.ipdu != NONE else ""
    words = f"{entry.name}: {lies(board, entry)}, {counted(record.bits, 'signed bit' if record.signed else 'bit')}{place}"
    words += f"; {one_line(entry.filter().words(entry.scaling, record.signed))}" + (f"; in {unit}" if unit else "")
    return commented(words, entry.of.comment)


def records(board):
    """The rows of the table, 16 bytes each, with the name of the record before its first one."""
    table, at = board.table, 0
    names = [f"{counted(len(board.ipdus), 'I-PDU')}, {counted(len(board.objects), 'object')}, {len(table)} bytes"]
    names += [f"I-PDU {number}, {ipdu.name}" for number, ipdu in enumerate(board.ipdus)]
    names += [name for entry in board.objects for name in (f"object {entry.number}, {entry.name}", "")]
    for name in names:
        yield name, ", ".join(f"0x{byte:02X}" for byte in table[at:at + 16]) + ","
        at += 16
