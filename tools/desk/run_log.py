"""What was on the bus in a run, as frames of a log: the requests of the layer, and what was indicated to it."""
from decimal import Decimal
from fractions import Fraction
from math import ceil, floor

from .candump import Frame
from .wrong import wrong

MICROSECONDS = 1000  # of a millisecond
SCALE = -6  # a microsecond, as a power of ten of a second


def microseconds(at, tick):
    """A step's time, rounded so that it stays within its tick. `tick` is in ms."""
    length, ticks = Fraction(tick) * MICROSECONDS, floor(at)
    return max(ceil(ticks * length), min(round(Fraction(at) * length), ceil((ticks + 1) * length) - 1))


def seen(step, sent_only):
    """The I-PDUs of a step that were on the bus, with their bytes."""
    if not sent_only and step.call == "indication" and step.is_done and step.numbers[1] == 1:
        return [(step.numbers[0], step.frame)]
    return step.requests


def frames(board, made, begin=1.0, interface="can0", sent_only=False):
    """The frames of a run in the order of its steps; the script begins at `begin`, in seconds. log2asc repeats its header for each frame before 1 s."""
    first = floor(Fraction(str(begin)) / Fraction(10) ** SCALE)
    result = []
    for step in made:
        for number, data in seen(step, sent_only):
            ipdu = board.ipdus[number]
            if ipdu.identifier is None:
                raise wrong(board.network.file, f"ipdu.{ipdu.name}", "has no id, and a frame in a log has one")
            time = first + microseconds(step.at, board.network.tick)
            result.append(Frame(Decimal(time).scaleb(SCALE), interface, ipdu.identifier, ipdu.extended, data))
    return result
