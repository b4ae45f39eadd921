"""A run's VCD, read back by a reader of its own, beside what the run says."""
import re
from decimal import Decimal
from fractions import Fraction

from desk import bits
from desk.layer import played
from desk.network import Board
from desk.records import NONE, RECEIVE, SEND, WHOLE
from desk.run import duration
from desk.timeline import lanes
from desk.vcd import vcd
from journey_boards import van
from journey_check import fail, same

NAME = re.compile("[A-Za-z_][A-Za-z0-9_]*")
MARKS = {RECEIVE: [("arrived", 1), ("receive_error", 4)], SEND: [("sent", 2), ("send_error", 8)]}


class Read:
    """`changes` has, by path and name, the values of each variable with their times, that of the beginning first."""

    def __init__(self, text):
        self.kinds, self.paths, self.changes, self.times = {}, {}, {}, []
        head, body = text.split("$enddefinitions $end\n")
        self.declarations(head)
        for line in body.splitlines():
            self.line(line)

    def declarations(self, text):
        path = []
        for words in re.findall(r"\$(\w+) ?(.*?) ?\$end\n", text):
            if words[0] == "scope":
                kind, name = words[1].split(" ")
                self.expect(kind == "module" and NAME.fullmatch(name), words)
                path.append(name)
            elif words[0] == "upscope":
                path.pop()
            elif words[0] == "var":
                kind, size, code, name = words[1].split(" ")
                self.expect({"wire": "1", "integer": "32", "real": "64"}[kind] == size and NAME.fullmatch(name), words)
                key = (*path[1:], name)
                self.expect(code not in self.paths and key not in self.changes, words)
                self.kinds[code], self.paths[code], self.changes[key] = kind, key, []
            else:
                self.expect(words == ("timescale", "1 us"), words)
        self.expect(not path, path)

    @staticmethod
    def expect(holds, what):
        if not holds:
            fail(f"the VCD can't be read: {what}")

    def line(self, line):
        if line.startswith("#"):
            self.times.append(int(line[1:]))
            self.expect(self.times == [0] or self.times[-1] > self.times[-2], line)
        elif line not in ("$dumpvars", "$end"):
            value, code = line.split(" ") if line[0] in "br" else (line[0], line[1:])
            kind = self.kinds[code]
            self.expect((value[0] if value[0] in "br" else "") == {"wire": "", "integer": "b", "real": "r"}[kind], line)
            known = None if value in ("x", "bx") else Fraction(value[1:]) if kind == "real" else int(value.lstrip("b"), 2)
            changes = self.changes[self.paths[code]]
            self.expect(not changes or changes[-1][0] < self.times[-1], f"{self.paths[code]} changes twice at {self.times[-1]}")
            changes.append((self.times[-1], known))

    def values(self, *path):
        return [value for _, value in self.changes[path]]

    def pulses(self, *path):
        """When it rises."""
        self.expect(self.values(*path)[::2] == [0] * len(self.values(*path)[::2]) and set(self.values(*path)[1::2]) <= {1}, path)
        return [time for time, value in self.changes[path] if value]


def changes_of(values):
    """Without those that are as the one before."""
    return [value for place, value in enumerate(values) if place == 0 or value != values[place - 1]]


def object_values(entry, made, states):
    """The raw values that are to be seen of an object, one after the other; of a message with a multiplexor those of frames that hold it."""
    if entry.record.kind == SEND and entry.record.ipdu != NONE:
        return [entry.of.in_frame(frame) for step in made for number, frame in step.requests
                if number == entry.record.ipdu and entry.of.is_in(frame)]
    if entry.record.kind == SEND:
        sends = [step.numbers for step in made if step.call == "send" and step.is_done]
        return [bits.meant(value % WHOLE, entry.record.signed) for number, value in sends if number == entry.number]
    if entry.record.depth:
        return [step.value for step in made if step.call == "receive" and step.numbers[0] == entry.number and step.is_done]
    held = [(step, state.values[entry.number]) for step, state in zip(made, states) if entry.number in state.values]
    if entry.of.multiplexor is None:
        return [value for _, value in held]
    return [value for step, value in held if step.is_done and (step.call == "start" or step.call == "initialise" and step.numbers[0] == entry.number
                                                               or is_brought(entry, step, value))]


def is_brought(entry, step, value):
    """Whether a step is a frame that holds a message, with this value."""
    return step.call == "indication" and step.numbers == (entry.record.ipdu, 1) and entry.of.is_in(step.frame) and entry.of.in_frame(step.frame) == value


def check_ipdus(read, board, made, met):
    length = Fraction(board.network.tick) * 1000
    for lane in lanes(board, made, float(duration(made))):
        name = board.ipdu_name(lane.number)
        sends = lane.record.direction == SEND
        for what in ("request", "confirm", "no_confirm", "deadline") if sends else ("indication", "error", "deadline"):
            events = [int(event.at) for event in lane.events if event.what == what]
            same(f"the VCD's {name} {what}", [int(time // length) for time in read.pulses("ipdu", name, what)], events)
            met[f"vcd {what}"] += len(events)
        for wire, spans in (("open", lane.open), ("delay", lane.delays)) if sends else (("watched", lane.watched),):
            rises = sum(span.begin not in {before.end for before in spans} for span in spans)
            falls = rises - (bool(spans) and spans[-1].how == "end")
            values = read.values("ipdu", name, wire)
            same(f"the VCD's {name} {wire}", [values[0], values.count(1), values.count(0) - 1], [0, rises, falls])
            met[f"vcd {wire}"] += rises


def check_crowded():
    """More calls than microseconds: each is still to be seen."""
    board = Board(van(), "van")
    calls, board.network.tick = 500, Decimal("0.001")
    script = "start\n" + "indication 2 0\n" * calls + "tick\n" * calls
    read = Read(vcd(board, *played(board, script, "script"), ""))
    same("the VCD's pulses of a crowded run", [len(read.pulses("ipdu", "Case", "error"))], [calls])


def check_names():
    """Names that a VCD can't have are changed, and stay apart."""
    network = van()
    for ipdu, name in zip(network.ipdus, ("a.b", "a_b", "a b")):
        ipdu.name = name
    board = Board(network, "van")
    text = vcd(board, *played(board, "start\n", "script"), "9 lives $end")
    same("the VCD's names", re.findall(r"\$scope module (\w*) \$end", text)[:6], ["_9_lives__end", "layer", "ipdu", "a_b", "a_b_2", "a_b_3"])
    Read(text)


def check_messages(read, board, made, states, met):
    for entry in board.objects:
        shown = changes_of(object_values(entry, made, states))
        same(f"the VCD's {entry.name} raw", read.values("message", entry.name, "raw"), [None] + [raw % WHOLE for raw in shown])
        same(f"the VCD's {entry.name} value", read.values("message", entry.name, "value"), [Fraction(entry.scaling.physical(raw)) for raw in shown])
        words = [state.marks[entry.number] for state in states]
        for name, mark in MARKS[entry.record.kind]:
            marks = changes_of([None] + [None if word is None else int(bool(word & mark)) for word in words])
            same(f"the VCD's {entry.name} {name}", read.values("message", entry.name, name), marks)
            met["vcd marks"] += len(marks)
        met["vcd values"] += len(shown)
        met["vcd values of multiplexed messages"] += len(shown) * (entry.of.multiplexor is not None)


def check_layer(read, made):
    running = [int(step.call == "start") for step in made if step.is_done and step.call in ("start", "stop")]
    same("the VCD's running", read.values("layer", "running"), changes_of([0] + running))
    same("the VCD's status", read.values("layer", "status"), changes_of([None] + [step.status for step in made]))


def check_vcd(board, script, met):
    """One run."""
    made, states = played(board, script, "script")
    text = vcd(board, made, states, board.network.title)
    if text != vcd(board, *played(board, script, "script"), board.network.title):
        fail("the VCD of the same run is another")
    read = Read(text)
    check_ipdus(read, board, made, met)
    check_messages(read, board, made, states, met)
    check_layer(read, made)
    same("the VCD's end", read.times[-1:], [int(duration(made) * Fraction(board.network.tick) * 1000)])
