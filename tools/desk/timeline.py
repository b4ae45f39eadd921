"""What the I-PDUs of a board went through in a run: requests, confirms, minimum delays, indications and deadlines, by the rules of docs/MANUAL.md from
the table, the calls and their answers. Which requests were made is what the layer answered; nothing is guessed."""
from dataclasses import dataclass, field
from typing import NamedTuple

from .records import SEND


class Span(NamedTuple):
    """From a time to a time, and how it ended."""

    begin: float
    end: float
    how: str


class Event(NamedTuple):
    """`what` is request, confirm, no_confirm, indication, error, deadline."""

    at: float
    what: str
    line: int
    frame: bytes | None = None


@dataclass
class Lane:
    """One I-PDU. `open` are its open requests (until confirm, no_confirm, deadline, start or end), `delays` its minimum delays (until passed, start or
    end); of a received one `watched` are the times in which a frame is waited for (until indication, deadline, start or end)."""

    number: int
    record: object
    events: list = field(default_factory=list)
    open: list = field(default_factory=list)
    delays: list = field(default_factory=list)
    watched: list = field(default_factory=list)


class Running:
    """A countdown of a lane that is drawn as a span."""

    def __init__(self, spans):
        self.spans, self.left, self.begin = spans, 0, 0.0

    def set(self, at, ticks, how):
        """Ends what runs, and begins anew where there are ticks."""
        self.end(at, how)
        self.left, self.begin = ticks, at

    def end(self, at, how):
        if self.left:
            self.spans.append(Span(self.begin, at, how))
        self.left = 0

    def tick(self):
        """One tick less; whether it has come to its end now."""
        if not self.left:
            return False
        if self.left > 1:
            self.left -= 1
            return False
        return True


class Follow:
    """Follows one lane from step to step."""

    def __init__(self, lane):
        self.lane = lane
        self.request, self.delay, self.timer = Running(lane.open), Running(lane.delays), Running(lane.watched)

    def note(self, step, what, frame=None):
        self.lane.events.append(Event(step.at, what, step.line, frame))

    def step(self, step):
        if not step.is_done:
            return
        if step.call == "start":
            self.start(step)
        elif step.call == "tick":
            self.tick(step)
        elif step.call == "confirm" and step.numbers[0] == self.lane.number:
            self.confirm(step)
        elif step.call == "indication" and step.numbers[0] == self.lane.number:
            self.indication(step)
        for number, frame in step.requests:
            if number == self.lane.number:
                self.requested(step, frame)

    def start(self, step):
        for running in (self.request, self.delay):
            running.end(step.at, "start")
        record = self.lane.record
        self.timer.set(step.at, (record.first_deadline or record.deadline) if record.direction != SEND else 0, "start")

    def tick(self, step):
        if self.delay.tick():
            self.delay.end(step.at, "passed")
        if self.request.tick():
            self.request.end(step.at, "deadline")
            self.note(step, "deadline")
        if self.timer.tick():
            self.note(step, "deadline")
            self.timer.set(step.at, self.lane.record.deadline, "deadline")

    def requested(self, step, frame):
        self.note(step, "request", frame)
        if not self.request.left:
            self.request.set(step.at, self.lane.record.deadline, "request")

    def confirm(self, step):
        good = step.numbers[1] == 1
        self.note(step, "confirm" if good else "no_confirm")
        self.request.end(step.at, "confirm" if good else "no_confirm")
        self.delay.set(step.at, self.lane.record.minimum_delay if good else 0, "confirm")

    def indication(self, step):
        if step.numbers[1] != 1:
            self.note(step, "error", step.frame)
            return
        self.note(step, "indication", step.frame)
        self.timer.set(step.at, self.lane.record.deadline, "indication")

    def finish(self, at):
        for running in (self.request, self.delay, self.timer):
            running.end(at, "end")


def lanes(board, made, end):
    """A lane for each I-PDU, up to the time `end`."""
    result = []
    for number, record in enumerate(board.ipdu_records):
        follow = Follow(Lane(number, record))
        for step in made:
            follow.step(step)
        follow.finish(end)
        result.append(follow.lane)
    return result
