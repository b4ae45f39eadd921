"""A log of the bus as a script of one node: its frames are indicated to the node at their ticks. docs/SCRIPT.md has the lines."""
from dataclasses import dataclass
from fractions import Fraction

from .candump import DATA
from .records import RECEIVE, SEND
from .sheet import drain
from .wrong import wrong

MOST_LINES = 200_000_000  # a script of a gigabyte or two
DRAIN_LINES = 3  # the least lines that a drain has for an object
MILLISECONDS = 1000  # of a second


@dataclass
class Summary:
    """The ticks and drains of a script, and what became of the frames of the log: each is counted once, as one of those that `words` names."""

    ticks: int = 0
    drains: int = 0
    indicated: int = 0
    other_length: int = 0
    own: int = 0
    others: int = 0
    unknown: int = 0
    remote: int = 0
    error: int = 0
    fd: int = 0
    xl: int = 0
    earlier: int = 0

    words = {
        "indicated": "indicated", "other_length": "indicated with another length than the I-PDU's: the layer refuses them with 2",
        "own": "of the node itself: left out",
        "others": "of the network, neither sent nor received by the node: left out", "unknown": "with an identifier that the network does not have: left out",
        "remote": "remote: left out", "error": "error frames: left out", "fd": "CAN FD: left out", "xl": "CAN XL: left out",
        "earlier": "before the beginning: left out",
    }

    def count(self, name):
        setattr(self, name, getattr(self, name) + 1)

    def frames(self):
        return sum(getattr(self, name) for name in self.words)

    def lines(self):
        """For people: the ticks and drains, then each kind of frame that was met."""
        met = {name: getattr(self, name) for name in self.words if getattr(self, name)}
        return [f"{self.ticks} ticks, {self.drains} drains, {self.frames()} frames"] + [f"{count} {self.words[name]}" for name, count in met.items()]


class Maker:
    """Makes the parts of a script in order: texts of whole lines."""

    def __init__(self, board, begin, drain_ms):
        self.board, self.begin = board, begin
        self.drain_ticks = None if drain_ms is None else ticks_of_drain(board, drain_ms)
        self.numbers = {(ipdu.identifier, ipdu.extended): number for number, ipdu in enumerate(board.ipdus) if ipdu.identifier is not None}
        self.known = {(ipdu.identifier, ipdu.extended) for ipdu in board.network.ipdus}
        self.queued = {entry.number: entry.record.ipdu for entry in board.objects if entry.record.kind == RECEIVE and entry.record.depth}
        self.arrivals = dict.fromkeys(self.queued, 0)
        self.summary = Summary()

    def parts(self, frames):
        yield "start\n"
        for frame in frames:
            if self.begin is None:
                self.begin = frame.time
            if frame.time < self.begin:
                self.summary.count("earlier")
                continue
            yield from self.time_passes(frame)
            yield self.frame_line(frame)
        if self.drain_ticks:
            yield self.drain()

    def time_passes(self, frame):
        """The ticks up to a frame, with the drains that fall between."""
        until = whole_ticks(self.begin, frame.time, self.board.network.tick)
        drains = until // self.drain_ticks if self.drain_ticks else 0
        if until + drains * len(self.queued) * DRAIN_LINES > MOST_LINES:
            passed = f"at {frame.time} s {until} ticks and {drains} drains have passed since {self.begin} s"
            raise wrong(self.board.network.file, "tick_ms", f"{passed}, and a script has at most {MOST_LINES} lines")
        while self.summary.ticks < until:
            step = until - self.summary.ticks
            if self.drain_ticks:
                step = min(step, self.drain_ticks - self.summary.ticks % self.drain_ticks)
            self.summary.ticks += step
            yield "tick\n" * step
            if self.drain_ticks and self.summary.ticks % self.drain_ticks == 0:
                yield self.drain()

    def frame_line(self, frame):
        """The line of a frame, or nothing; the summary counts it."""
        key = (frame.identifier, frame.extended)
        number = self.numbers.get(key)
        if frame.kind != DATA:
            return self.counted(frame.kind)
        if number is None:
            return self.counted("others" if key in self.known else "unknown")
        if self.board.ipdu_records[number].direction == SEND:
            return self.counted("own")
        for queue, ipdu in self.queued.items():
            self.arrivals[queue] += ipdu == number
        right = len(frame.data) == self.board.ipdus[number].length
        return self.counted("indicated" if right else "other_length", f"indication {number} 1 {frame.data.hex().upper()}".rstrip() + "\n")

    def counted(self, name, text=""):
        self.summary.count(name)
        return text

    def drain(self):
        self.summary.drains += 1
        lines = drain(self.board, self.arrivals)
        self.arrivals = dict.fromkeys(self.queued, 0)
        return "".join(line + "\n" for line in lines)


def whole_ticks(begin, end, tick):
    """How many ticks of `tick` ms have passed between two times in seconds, exactly."""
    (begin_top, begin_bottom), (end_top, end_bottom), (tick_top, tick_bottom) = (number.as_integer_ratio() for number in (begin, end, tick))
    passed = end_top * begin_bottom - begin_top * end_bottom
    return passed * MILLISECONDS * tick_bottom // (begin_bottom * end_bottom * tick_top)


def ticks_of_drain(board, drain_ms):
    """From one drain to the next."""
    ticks = Fraction(drain_ms) / Fraction(board.network.tick)
    if ticks.denominator != 1 or ticks < 1:
        raise wrong(board.network.file, "tick_ms", f"a drain every {drain_ms} ms is not one every 1, 2, 3 .. ticks of {board.network.milliseconds(1)} ms")
    return int(ticks)


def script(board, frames, begin=None, drain_ms=None):
    """The script of a node for a log, and its Summary. Time begins with the first frame, or at `begin`, in seconds. With `drain_ms` all queues are drained every
    so many ms and at the end."""
    maker = Maker(board, begin, drain_ms)
    return "".join(maker.parts(frames)), maker.summary
