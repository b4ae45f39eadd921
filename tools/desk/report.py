"""A node's report, for people: its I-PDUs with their bits, its message objects and what their values mean, and what is worth a look."""
import textwrap

from . import bits
from .network import MODES, TRANSFERS
from .records import MIXED, MOST_DEPTHS, MOST_IPDUS, MOST_OBJECTS, NONE, PERIODIC, SEND
from .steps import raw_ends
from .words import can_identifier, counted, ends, lies, made_by, one_line
from .worth_a_look import worth_a_look

WIDTH = 120
GAP = "  "


def wrapped(text, indent=""):
    """Lines within the width; those after the first a little further in."""
    return textwrap.wrap(text, WIDTH, initial_indent=indent, subsequent_indent=indent + GAP, break_on_hyphens=False) or [""]


def heading(text, mark):
    lines = wrapped(text)
    return [*lines, mark * max(map(len, lines)), ""]


def columns(rows):
    """Rows of cells under each other. Where they are too wide, the widest columns are made narrower and their cells get several lines."""
    widths = [max(map(len, column)) for column in zip(*rows)]
    while sum(widths) + len(GAP) * len(widths) > WIDTH:
        widths[widths.index(max(widths))] -= 1
    for row in rows:
        cells = [textwrap.wrap(cell, width, break_on_hyphens=False) for cell, width in zip(row, widths)]
        for at in range(max(map(len, cells))):
            parts = [(cell[at] if at < len(cell) else "").ljust(width) for cell, width in zip(cells, widths)]
            yield (GAP + GAP.join(parts)).rstrip()


def section(title, rows):
    """A heading and the rows below it; nothing where there is no row but the first, the heads of the columns."""
    return [*heading(title, "-"), *columns(rows), ""] if len(rows) > 1 else []


class Report:
    """The parts of a board's report, as lines."""

    def __init__(self, board):
        self.board, self.network = board, board.network

    def lines(self):
        lines = [*heading(f"{one_line(self.network.title)}: node {self.board.node}", "="), *wrapped(made_by(self.board)), "", *self.used(), ""]
        lines += self.warned()
        for number in range(len(self.board.ipdus)):
            lines += self.ipdu(number)
        return lines + self.objects() + self.values() + self.names() + self.inside() + self.comments()

    def time(self, ticks):
        return f"{self.network.milliseconds(ticks)} ms ({counted(ticks, 'tick')})"

    def used(self):
        board = self.board
        depths = sum(entry.record.depth for entry in board.objects)
        parts = [("I-PDUs", len(board.ipdus), MOST_IPDUS), ("objects", len(board.objects), MOST_OBJECTS), ("places in queues", depths, MOST_DEPTHS)]
        rows = [("tick", f"{self.network.milliseconds(1)} ms"), *((what, f"{number} of {most}") for what, number, most in parts),
                ("table", f"{len(board.table)} bytes")]
        return list(columns(rows))

    def warned(self):
        found = [line for words in worth_a_look(self.board) for line in wrapped(words, GAP)]
        return [*heading("Worth a look", "-"), *found, ""] if found else []

    # I-PDUs

    def ipdu(self, number):
        ipdu, record, carried = self.board.ipdus[number], self.board.ipdu_records[number], self.board.carried(number)
        covered = {place for entry in carried for place in bits.places(entry.record.start, entry.record.bits, entry.record.big)}
        rows = [("direction", "send" if record.direction == SEND else "receive"), ("bus", f"{can_identifier(ipdu)}, {ends(ipdu)}"),
                ("length", f"{counted(ipdu.length, 'byte')}, {len(covered)} of {8 * ipdu.length} bits used"), *self.times(ipdu, record)]
        comment = wrapped(one_line(ipdu.comment), GAP) + [""] if ipdu.comment else []
        picture = bits.picture(ipdu.length, [(entry.name, entry.record.start, entry.record.bits, entry.record.big) for entry in carried])
        shown = [line for row in picture for line in wrapped(row, GAP)]
        return [*heading(f"I-PDU {number}: {ipdu.name}", "-"), *comment, *columns(rows), "", *shown, ""]

    def times(self, ipdu, record):
        """The mode and the times that it has."""
        if record.direction == SEND:
            rows = [("mode", MODES[record.mode])]
            rows += [("period", f"{self.time(record.period)}, first after {self.time(record.offset)}")] * (record.mode != 0)
            rows += [("minimum delay", self.time(record.minimum_delay) if record.minimum_delay else "none")] * (record.mode != PERIODIC)
            return [*rows, ("deadline", self.time(record.deadline))]
        period = f", every {self.time(ipdu.period)}" if ipdu.mode in (PERIODIC, MIXED) else ""
        first = f", the first {self.time(record.first_deadline)}" if record.first_deadline else ""
        sent = [("sent", MODES[ipdu.mode] + period)] if ipdu.sender is not None else []
        return [*sent, ("deadline", self.time(record.deadline) + first if record.deadline else "none")]

    # objects

    def objects(self):
        rows = [("no", "object", "kind", "bits", "start", "DBC", "order", "sign", "transfer", "queue")]
        for entry in self.board.objects:
            record, placed = entry.record, entry.record.ipdu != NONE
            rows.append((str(entry.number), entry.name, lies(self.board, entry), str(record.bits), str(record.start) if placed else "-",
                         str(bits.start_to_dbc(record.start, record.bits, record.big)) if placed else "-",
                         ("big" if record.big else "little") if placed else "-", "signed" if record.signed else "unsigned",
                         TRANSFERS[record.transfer] if record.kind == SEND else "-", str(record.depth) if record.depth else "-"))
        return section("Message objects", rows)

    def values(self):
        rows = [("no", "object", "step", "least", "greatest", "initial", "filter")]
        for entry in self.board.objects:
            record, scaling = entry.record, entry.scaling
            ranged = [one_line(f"{scaling.number(raw)} {scaling.unit}") for raw in sorted(raw_ends(record), key=scaling.physical)]
            step = one_line(f"{scaling.factor:f} {scaling.unit}") + (f" from {scaling.offset:f}" if scaling.offset else "")
            rows.append((str(entry.number), entry.name, step, *ranged, one_line(entry.text(record.initial)),
                         one_line(entry.filter().words(scaling, record.signed))))
        return section("Values", rows)

    def names(self):
        rows = [("no", "object", "raw", "name")]
        for entry in self.board.objects:
            rows += [(str(entry.number), entry.name, str(raw), one_line(name)) for raw, name in sorted(entry.scaling.names.items())]
        return section("Named values", rows)

    def inside(self):
        rows = [("no", "object", "receives inside")]
        rows += [(str(entry.number), entry.name, f"{entry.record.sender} {self.board.object_name(entry.record.sender)}")
                 for entry in self.board.objects if entry.record.sender != NONE]
        return section("Receivers inside", rows)

    def comments(self):
        rows = [("no", "object", "comment")]
        rows += [(str(entry.number), entry.name, one_line(entry.of.comment)) for entry in self.board.objects if entry.of.comment]
        return section("Comments", rows)


def report(board):
    """The text of NODE.txt."""
    return "\n".join(Report(board).lines()).rstrip("\n") + "\n"
