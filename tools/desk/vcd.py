"""A run as a Value Change Dump (IEEE 1364), which GTKWave, PulseView and others show as waves. The same run gives the same bytes.

What happens is a pulse of a microsecond, since not every viewer shows the type `event`. Two calls are at least two microseconds apart, so that each pulse can
be seen: a tick with more calls than it has room for pushes those behind it on."""
import re
from dataclasses import dataclass, field

from . import bits
from .readings import Strays
from .records import NONE, RECEIVE, SEND, WHOLE
from .run import ARRIVED, RECEIVE_ERROR, SEND_ERROR, SENT, duration
from .run_log import microseconds
from .timeline import lanes

PULSE, APART = 1, 2  # in microseconds
SIZES = {"wire": 1, "integer": 32, "real": 64}
MARKS = {RECEIVE: {"arrived": ARRIVED, "receive_error": RECEIVE_ERROR}, SEND: {"sent": SENT, "send_error": SEND_ERROR}}
EVENTS = {RECEIVE: ["indication", "error", "deadline"], SEND: ["request", "confirm", "no_confirm", "deadline"]}
SPANS = {RECEIVE: {"watched": "watched"}, SEND: {"open": "open", "delay": "delays"}}  # of each what a Lane calls it
FIRST_CODE, CODES = 33, 94  # the printable characters


@dataclass
class Signal:
    """A variable; None is a value that is not known. `first` is the one at the beginning."""

    kind: str
    name: str
    code: str
    first: object
    value: object

    def declaration(self):
        return f"$var {self.kind} {SIZES[self.kind]} {self.code} {self.name} $end\n"

    def change(self, value):
        """The text of a value; a real has no text for one that is not known."""
        if self.kind == "real":
            return f"r{value} {self.code}\n" if value is not None else ""
        if self.kind == "integer":
            return f"b{'x' if value is None else f'{value % WHOLE:b}'} {self.code}\n"
        return f"{'x' if value is None else int(value)}{self.code}\n"


@dataclass
class Scope:
    name: str
    signals: list = field(default_factory=list)
    inner: list = field(default_factory=list)

    def scope(self, name):
        """A new one inside. Its name gets underlines where a VCD has no such character, and a number where another has it already."""
        base = valid(name)
        taken = {scope.name for scope in self.inner}
        names = (base if number == 1 else f"{base}_{number}" for number in range(1, len(taken) + 2))
        self.inner.append(Scope(next(name for name in names if name not in taken)))
        return self.inner[-1]

    def declarations(self):
        yield f"$scope module {self.name} $end\n"
        yield from (signal.declaration() for signal in self.signals)
        for scope in self.inner:
            yield from scope.declarations()
        yield "$upscope $end\n"


def valid(name):
    """A name with letters, digits and underlines alone, no digit first."""
    plain = re.sub("[^A-Za-z0-9_]", "_", name)
    return plain if re.match("[A-Za-z_]", plain) else "_" + plain


class Dump:
    """All signals, and their changes by time."""

    def __init__(self, title):
        self.top, self.signals, self.changes = Scope(valid(title)), [], {}

    def signal(self, scope, kind, name, first=None):
        rest, code = len(self.signals), ""
        while rest or not code:
            rest, digit = divmod(rest, CODES)
            code += chr(FIRST_CODE + digit)
        made = Signal(kind, name, code, first, first)
        scope.signals.append(made)
        self.signals.append(made)
        return made

    def set(self, time, signal, value):
        """The times of one signal have to rise."""
        if value != signal.value:
            signal.value = value
            self.changes.setdefault(time, []).append(signal.change(value))

    def pulse(self, time, signal):
        self.set(time, signal, True)
        self.set(time + PULSE, signal, False)

    def text(self, end):
        parts = ["$timescale 1 us $end\n", *self.top.declarations(), "$enddefinitions $end\n", "#0\n$dumpvars\n"]
        parts += [signal.change(signal.first) for signal in self.signals]
        parts.append("$end\n")
        for time in sorted({*self.changes, end}):
            parts += [f"#{time}\n", *self.changes.get(time, [])]
        return "".join(parts)


def step_times(made, tick):
    """By each step's `at`, its microsecond; the last one is that of the end."""
    times, last = {}, PULSE - APART
    for at in [*(step.at for step in made), float(duration(made))]:
        last = max(microseconds(at, tick), last + APART)
        times[at] = last
    return times


def draw_layer(dump, made, times):
    scope = dump.top.scope("layer")
    running, status = dump.signal(scope, "wire", "running", False), dump.signal(scope, "integer", "status")
    for step in made:
        if step.is_done and step.call in ("start", "stop"):
            dump.set(times[step.at], running, step.call == "start")
        dump.set(times[step.at], status, step.status)


def draw_ipdu(dump, scope, lane, times):
    pulses = {what: dump.signal(scope, "wire", what, False) for what in EVENTS[lane.record.direction]}
    for event in lane.events:
        dump.pulse(times[event.at], pulses[event.what])
    for name, of_lane in SPANS[lane.record.direction].items():
        levels = {}
        for span in getattr(lane, of_lane):
            levels[times[span.begin]] = True
            if span.how != "end":
                levels[times[span.end]] = False
        wire = dump.signal(scope, "wire", name, False)
        for time, level in levels.items():
            dump.set(time, wire, level)


def shown_values(entry, made, news):
    """Times and raw values that are to be seen of an object: of a send object those in the frames that hold it, or where it has no I-PDU those that are sent;
    of a queue what receives give; else what the layer holds, but for what came with a frame that does not hold it."""
    record, number = entry.record, entry.number
    if record.kind == SEND and record.ipdu != NONE:
        return [(step.at, entry.of.in_frame(frame)) for step in made for ipdu, frame in step.requests
                if ipdu == record.ipdu and entry.of.is_in(frame)]
    if record.kind == SEND:
        sends = [step for step in made if step.call == "send" and step.is_done and step.numbers[0] == number]
        return [(step.at, bits.meant(step.numbers[1] % WHOLE, record.signed)) for step in sends]
    if record.depth:
        return [(step.at, step.value) for step in made if step.call == "receive" and step.is_done and step.numbers[0] == number]
    strays = Strays()
    return [(step.at, state.values[number]) for step, state in news if number in state.values and not strays.is_stray(entry, step, state.values[number])]


def draw_message(dump, scope, entry, made, news, times):
    value, raw = dump.signal(scope, "real", "value"), dump.signal(scope, "integer", "raw")
    for at, shown in shown_values(entry, made, news):
        if shown != raw.value:
            dump.set(times[at], raw, shown)
            dump.set(times[at], value, entry.scaling.number(shown))
    for name, mark in MARKS[entry.record.kind].items():
        wire = dump.signal(scope, "wire", name)
        for step, state in news:
            word = state.marks[entry.number]
            dump.set(times[step.at], wire, None if word is None else bool(word & mark))


def new_states(made, states):
    """The states that were asked for anew, with their steps."""
    return [(step, state) for step, state, before in zip(made, states, [None, *states]) if state is not before]


def vcd(board, made, states, title):
    """The text for a run of a board, as layer.played gives it."""
    dump, times = Dump(title), step_times(made, board.network.tick)
    end, news = float(duration(made)), new_states(made, states)
    draw_layer(dump, made, times)
    ipdus, messages = dump.top.scope("ipdu"), dump.top.scope("message")
    for lane in lanes(board, made, end):
        draw_ipdu(dump, ipdus.scope(board.ipdu_name(lane.number)), lane, times)
    for entry in board.objects:
        draw_message(dump, messages.scope(entry.name), entry, made, news, times)
    return dump.text(times[end])
