"""timeline.lanes beside the layer: what a lane says of an I-PDU after each call of random scripts is what the marks of its objects, a confirm that is tried and
the stored numbers of docs/MEMORY.md say."""
import collections
import random

from desk.layer import played
from desk.records import SEND
from desk.run import duration
from desk.timeline import lanes
from journey_boards import Player
from journey_check import fail
from memory_view import default_layout

SENT, RECEIVE_ERROR, SEND_ERROR = 2, 4, 8
# What a new mark on the objects of an I-PDU means, by the call that set it.
MEANS = {("tick", SEND_ERROR): "deadline", ("tick", RECEIVE_ERROR): "deadline", ("confirm", SEND_ERROR): "no_confirm", ("confirm", SENT): "confirm",
         ("indication", RECEIVE_ERROR): "error"}
# Spans of a lane, and the stored number that is above 0 just then.
STORED = {"open": "request_open", "delays": "delay", "watched": "receive_timer"}
WEIGHTS = {"tick": 44, "send": 20, "confirm": 14, "indication": 12, "bad": 4, "short": 1, "start": 1, "stop": 1, "start_periodic": 2, "stop_periodic": 1,
           "initialise": 2, "receive": 2, "status": 1, "nobody": 1}
STOPPED = 7


def random_call(player):
    """Makes one call, or a stop with some calls and a start behind it; then clears marks where one stands that a later event would set again."""
    what = random.choices(list(WEIGHTS), WEIGHTS.values())[0]
    records = player.board.ipdu_records
    number, value = random.randrange(len(records)), random.getrandbits(random.choice([1, 8, 12, 32]))
    entry = random.choice(player.board.objects).number
    if what == "send":
        player.call("send", random.choice(player.senders or player.receivers).number, value)
    elif what in ("confirm", "nobody"):
        player.call("confirm", number if what == "confirm" else len(records), random.choice([0, 1, 1]))
    elif what in ("indication", "bad", "short"):
        player.indicate(number, random.randbytes(records[number].length - (what == "short")), int(what != "bad"))
    elif what in ("initialise", "receive", "status"):
        player.call(what, *([entry, value] if what == "initialise" else [entry]))
    else:
        player.call(what)
    for number, marks in player.marks().items():
        if marks & (SENT | RECEIVE_ERROR | SEND_ERROR):
            player.call("clear_marks", number)
    if what == "stop":
        for _ in range(random.randrange(4)):
            random_call(player)
        player.call("start")


def random_script(library, board, calls):
    player = Player(library, board)
    player.call("start")
    for _ in range(calls):
        random_call(player)
    return player.script()


def is_in(spans, at):
    """Whether a time, just after what happens at it, lies in a span."""
    return any(span.begin <= at < span.end for span in spans)


class Check:
    """One run beside its lanes. The steps are played again through the archive."""

    layout = default_layout()

    def __init__(self, library, board, script):
        self.board, self.script = board, script
        self.made, self.states = played(board, script, "random.script")
        self.lanes = lanes(board, self.made, float(duration(self.made)))
        self.layer = Player(library, board).layer
        self.carried = [[entry.number for entry in board.objects if entry.record.ipdu == number] for number in range(len(board.ipdu_records))]
        self.events = collections.defaultdict(set)
        for lane in self.lanes:
            for event in lane.events:
                self.events[event.line].add((lane.number, event.what))

    def fail(self, step, text):
        fail(f"line {step.line}: {text}; table {self.board.table.hex()}, script {self.script.splitlines()[:step.line]}")

    def whole_run(self, met):
        """Counts in `met` the events and the ends of spans."""
        before = [0] * len(self.board.objects)
        for step, state in zip(self.made, self.states, strict=True):
            if self.play(step) != step.status:
                self.fail(step, f"drive answers {step.status}, and the archive otherwise")
            self.check_events(step, before, state.marks)
            for lane in self.lanes:
                self.check_levels(step, lane)
            before = state.marks
        for lane in self.lanes:
            met.update(f"{event.what} {'sent' if lane.record.direction == SEND else 'received'}" for event in lane.events)
            met.update(f"{name} until {span.how}" for name in STORED for span in getattr(lane, name))

    def play(self, step):
        if step.call == "indication":
            return self.layer.indicate(step.numbers[0], step.frame, step.numbers[1])
        return self.layer.answer(step.call, *step.numbers)[0]

    def check_events(self, step, before, after):
        """The events of a step are those that the answer and new marks show; an I-PDU with no objects has no marks to show any."""
        shown = {(number, "request") for number, _ in step.requests}
        if step.call == "indication" and step.is_done and step.numbers[1] == 1:
            shown.add((step.numbers[0], "indication"))
        means = [(mark, what) for (call, mark), what in MEANS.items() if call == step.call and step.is_done]
        for number, objects in enumerate(self.carried):
            shown |= {(number, what) for mark, what in means if self.is_new(step, mark, objects, before, after)}
        found = {(number, what) for number, what in self.events[step.line] if self.carried[number] or what in ("request", "indication")}
        if found != shown:
            self.fail(step, f"the lanes have {sorted(found)}, and the layer shows {sorted(shown)}")

    def is_new(self, step, mark, objects, before, after):
        """Whether a mark was set now; it is on all objects of an I-PDU or on none, and no one had it before."""
        if any(before[number] & mark for number in objects):
            self.fail(step, f"an event could not be seen, since mark {mark} stands already")
        has = {bool(after[number] & mark) for number in objects}
        if len(has) > 1:
            self.fail(step, f"mark {mark} is on some of the objects {objects} alone")
        return True in has

    def check_levels(self, step, lane):
        """The spans of a lane after a step."""
        stored = self.layout.row(self.layer.memory.raw, "ipdu", lane.number)
        for name, number in STORED.items():
            if is_in(getattr(lane, name), step.at) != (stored[number] > 0):
                self.fail(step, f"I-PDU {lane.number}: its {name} are otherwise than the stored {number} {stored[number]}")
        if lane.record.direction == SEND:
            answer = self.tried_confirm(lane.number)
            if answer != STOPPED and is_in(lane.open, step.at) != (answer == 0):
                self.fail(step, f"I-PDU {lane.number}: a confirm would answer {answer}, and open is {is_in(lane.open, step.at)}")

    def tried_confirm(self, ipdu):
        """What a confirm would answer; all stays as it was."""
        kept = self.layer.memory.raw
        answer = self.layer.answer("confirm", ipdu, 1)[0]
        self.layer.memory.raw = kept
        return answer


def check_lanes(library, board, calls, met):
    """One random script; gives its number of calls."""
    check = Check(library, board, random_script(library, board, calls))
    check.whole_run(met)
    return len(check.made)
