"""The values of each object of a board in a run: carried by frames, held or taken, and given to sends; and when its marks were set."""
from dataclasses import dataclass, field
from typing import NamedTuple

from . import bits
from .records import SEND, WHOLE
from .report_words import MARKS
from .run import ARRIVED, LIMIT
from .timeline import Span


class Value(NamedTuple):
    """A raw value at a time. `how` is carried, held, taken, lost (taken, and the queue had lost one) or given (to a send, and no frame carried it)."""

    at: float
    raw: int
    how: str
    line: int


class Run(NamedTuple):
    """Values from one start to the next; `end` is where that is."""

    end: float
    values: list


@dataclass
class Reading:
    """`lines` are what frames carried or the layer held, a Run from each start on; `dots` what was taken or given; `samples` what counts as a reading:
    carried by a frame that holds the message, seen to arrive with one, or taken. An initial value that nothing carried is none."""

    entry: object
    lines: list = field(default_factory=list)
    dots: list = field(default_factory=list)
    samples: list = field(default_factory=list)

    def text(self, value):
        return self.entry.scaling.text(value.raw)

    @property
    def is_sent(self):
        return self.entry.record.kind == SEND

    @property
    def is_queued(self):
        return self.entry.record.depth > 0

    @property
    def may_have_strays(self):
        """Whether values of frames that do not hold the message can't be told from its own."""
        return self.is_queued and self.entry.of.multiplexor is not None

    @property
    def passes_all(self):
        return self.entry.filter().name == "Always"

    @property
    def is_named(self):
        """Whether its values are names in the place of numbers, and not numbers some of which have a name."""
        scaling = self.entry.scaling
        is_plain = not scaling.unit and scaling.physical(1) == 1 and scaling.physical(0) == 0
        return bool(scaling.names) and (is_plain or all(value.raw in scaling.names for value in self.samples))

    def side(self, value):
        """Where a value lies that is not expected: below or above; nothing for others, and for one with a name."""
        of, physical = self.entry.of, self.entry.scaling.physical(value.raw)
        if value.raw in self.entry.scaling.names:
            return ""
        return "below" if of.minimum is not None and physical < of.minimum else "above" if of.maximum is not None and physical > of.maximum else ""

    def outside(self, side, end):
        """How many samples lie on a side, and for how many ticks: each until the next sample, the last until `end`."""
        ends = [*(int(value.at) for value in self.samples[1:]), end]
        ticks = [until - int(value.at) for value, until in zip(self.samples, ends) if self.side(value) == side]
        return len(ticks), sum(ticks)

    def seen(self):
        """The raw values of the samples, in the order in which they came first."""
        return list(dict.fromkeys(value.raw for value in self.samples))

    def changes(self):
        """Samples that differ from the one before: (the one before, the sample, the next change or None)."""
        pairs = [(before, value) for before, value in zip(self.samples, self.samples[1:]) if before.raw != value.raw]
        return [(*pair, following) for pair, following in zip(pairs, [*(value for _, value in pairs[1:]), None])]

    def raws(self):
        """All values that a picture shows."""
        return [value.raw for run in self.lines for value in run.values] + [value.raw for value in self.dots]

    def extremes(self):
        """The first of the least and the first of the greatest samples, by what they mean in the unit."""
        def physical(value):
            return self.entry.scaling.physical(value.raw)
        return min(self.samples, key=physical), max(self.samples, key=physical)


class Strays:
    """Follows what unqueued receive objects hold, and tells the values that came with a frame that does not hold their message."""

    def __init__(self):
        self.raws = {}

    def is_stray(self, entry, step, raw):
        """Whether an object's value after a step is one of these; to be asked after each step that may change it."""
        if step.call == "start" or step.call == "initialise" and step.numbers[0] == entry.number:
            self.raws.pop(entry.number, None)
        elif step.call == "indication" and step.numbers == (entry.record.ipdu, 1):
            if not entry.of.is_in(step.frame):
                self.raws[entry.number] = raw
            elif entry.of.in_frame(step.frame) == raw:
                self.raws.pop(entry.number, None)
        return self.raws.get(entry.number) == raw


class Collect:
    """Follows a run and fills the readings of a board."""

    def __init__(self, board):
        self.board = board
        self.readings = [Reading(entry) for entry in board.objects]
        self.carried = [board.carried(number) for number in range(len(board.ipdus))]
        self.open, self.held, self.waiting = {}, {}, {}
        self.strays, self.before = Strays(), None

    def start(self, at):
        """Ends what ran before."""
        for number, values in self.open.items():
            self.readings[number].lines.append(Run(at, values))
        for number, values in self.waiting.items():
            self.readings[number].dots += values
        self.open, self.held, self.waiting = {}, {}, {}

    def step(self, step, state):
        if not step.is_done:
            return
        if step.call == "start":
            self.start(step.at)
        elif step.call == "send":
            self.given(step)
        elif step.call == "receive":
            self.taken(step)
        self.frames(step)
        if state is not self.before:
            self.hold(step, state)
        self.before = state

    def frames(self, step):
        for number, frame in step.requests:
            for entry in self.carried[number]:
                if not entry.of.is_in(frame):
                    continue
                value = Value(step.at, entry.of.in_frame(frame), "carried", step.line)
                self.open.setdefault(entry.number, []).append(value)
                self.readings[entry.number].samples.append(value)
                self.settle(entry, value.raw)

    def settle(self, entry, carried):
        """What was given to sends since the last frame that held the message: this one holds the value, cut to its bits, or the value did not go."""
        values = self.waiting.pop(entry.number, [])
        self.readings[entry.number].dots += [value for value in values if (value.raw - carried) % 2**entry.record.bits]

    def given(self, step):
        """A send's value waits for a frame."""
        number, word = step.numbers
        signed = self.board.objects[number].record.signed
        self.waiting.setdefault(number, []).append(Value(step.at, bits.meant(word % WHOLE, signed), "given", step.line))

    def taken(self, step):
        reading = self.readings[step.numbers[0]]
        if reading.is_queued:
            value = Value(step.at, step.value, "lost" if step.status == LIMIT else "taken", step.line)
            reading.dots.append(value)
            reading.samples.append(value)

    def arrives(self, step, number):
        """Whether a step surely brings an object a value: it is delivered, and the object has no filter."""
        record, given = self.board.objects[number].record, step.numbers
        delivered = step.call == "indication" and given == (record.ipdu, 1) or step.call == "send" and given[0] == record.sender
        return delivered and self.readings[number].passes_all

    def hold(self, step, state):
        """What unqueued receive objects hold; a reading where a value arrives, where it is another, or where it was not marked as arrived before."""
        for number, raw in state.values.items():
            if raw is None or self.strays.is_stray(self.board.objects[number], step, raw):
                continue
            changed = self.held.get(number) != raw
            value = Value(step.at, raw, "held", step.line)
            if changed:
                self.open.setdefault(number, []).append(value)
                self.held[number] = raw
            newly = state.marks[number] & ARRIVED and not (self.before and (self.before.marks[number] or 0) & ARRIVED)
            if step.call not in ("start", "initialise") and (changed or newly or self.arrives(step, number)):
                self.readings[number].samples.append(value)


def readings(board, made, states, end):
    """A Reading for each object, by its number, up to the time `end`."""
    collect = Collect(board)
    for step, state in zip(made, states, strict=True):
        collect.step(step, state)
    collect.start(end)
    for reading in collect.readings:
        reading.dots.sort(key=lambda value: value.line)
    return collect.readings


def mark_spans(board, made, states, end):
    """For each object, by the name of a mark, the times in which it was set."""
    spans = [{name: [] for name in MARKS.values()} for _ in board.objects]
    since, before = {}, None
    for step, state in zip(made, states, strict=True):
        if state is before:
            continue
        for number, marks in enumerate(state.marks):
            for bit, name in MARKS.items():
                key = number, name
                if (marks or 0) & bit:
                    since.setdefault(key, step.at)
                elif key in since:
                    spans[number][name].append(Span(since.pop(key), step.at, "cleared"))
        before = state
    for (number, name), begin in since.items():
        spans[number][name].append(Span(begin, end, "end"))
    return spans


def layer_spans(made, end):
    """The times in which the layer ran or was stopped, and the times of the starts."""
    spans, starts, since, how = [], [], 0.0, "stopped"
    for step in made:
        if step.is_done and step.call in ("start", "stop"):
            spans.append(Span(since, step.at, how))
            since, how = step.at, "running" if step.call == "start" else "stopped"
            starts += [step] if step.call == "start" else []
    return spans + [Span(since, end, how)], starts
