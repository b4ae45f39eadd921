"""The sheet that tools/desk/sheet.py works out of a run beside the proved sheet: the same calls, with a proved drain where the script has the lines of one."""
import ctypes
import random

from desk.layer import DRIVE, drive
from desk.records import NONE, RECEIVE
from desk.run import LIMIT, steps
from desk.sheet import drain, sheet
from journey_boards import Player
from journey_check import fail

SHEET, TEXT = 520, 1536  # bytes
MOST_FOLLOWED = 16


class ProvedSheet:
    """Of all queued objects of a layer that runs."""

    def __init__(self, layer, objects):
        self.layer = layer
        self.lent = [layer.table, ctypes.c_size_t(len(layer.table)), layer.memory, ctypes.c_size_t(len(layer.memory))]
        self.sheet, self.text = ctypes.create_string_buffer(SHEET), ctypes.create_string_buffer(TEXT)
        self.lent_sheet = [self.sheet, ctypes.c_size_t(SHEET)]
        numbers = (ctypes.c_uint32 * len(objects))(*objects)
        self.expect_done("begin", layer.library.birnenschloss_sheet_begin(*self.lent, *self.lent_sheet, numbers, ctypes.c_size_t(len(objects))))

    def expect_done(self, what, answer):
        if answer.number != 0:
            fail(f"the sheet's {what} answers {answer.number}, table {self.layer.table.hex()}")
        return answer.value

    def drain(self):
        """The lines."""
        answer = self.layer.library.birnenschloss_sheet_drain(*self.lent, *self.lent_sheet, self.text, ctypes.c_size_t(TEXT))
        return self.text.raw[:self.expect_done("drain", answer)].decode().splitlines()


class Journey(Player):
    """Random calls, and drains among them: the script gets their lines, the layer a proved drain. `arrivals` has of each queue how much may have come."""

    def __init__(self, library, board):
        super().__init__(library, board)
        self.arrivals = {entry.number: 0 for entry in self.receivers if entry.record.depth}
        self.received = [number for number, record in enumerate(board.ipdu_records) if record.direction == RECEIVE]
        self.call("start")
        self.proved, self.drained = ProvedSheet(self.layer, list(self.arrivals)), []

    def arrive(self, is_reached):
        for number in self.arrivals:
            self.arrivals[number] += is_reached(self.board.objects[number].record)

    def random_call(self):
        what = random.choices(["indication", "bad", "send", "tick", "start"], [60, 4, 15, 30, 1])[0]
        if what in ("indication", "bad") and self.received:
            number = random.choice(self.received)
            self.indicate(number, random.randbytes(self.board.ipdu_records[number].length), int(what == "indication"))
            self.arrive(lambda record: record.ipdu == number)
        elif what == "send" and self.senders:
            number = random.choice(self.senders).number
            self.call("send", number, random.getrandbits(32))
            self.arrive(lambda record: record.ipdu == NONE and record.sender == number)
        elif what in ("tick", "start"):
            self.call(what)

    def drain(self):
        """The script's calls up to here, and the proved lines."""
        self.lines += drain(self.board, self.arrivals)
        self.arrivals = dict.fromkeys(self.arrivals, 0)
        self.drained.append((len(self.lines), self.proved.drain()))


def check_sheet(library, board, drains, met):
    """One journey over a board, where it has queues and not more than a sheet follows."""
    if not 0 < sum(entry.record.depth > 0 for entry in board.objects) <= MOST_FOLLOWED:
        return
    journey = Journey(library, board)
    for _ in range(drains):
        for _ in range(random.choice([0, 1, 3, 10, 30])):
            journey.random_call()
        journey.drain()
    script = journey.script()
    made = steps(script, "script", drive(DRIVE, board.table, script), "drive")
    for end, lines in journey.drained:
        worked_out = [row.line() for row in sheet(board, made[:end])]
        if worked_out != lines:
            fail(f"after {end} calls the sheet is {worked_out}, the proved one {lines}; table {board.table.hex()}, script {script.splitlines()[:end]}")
        met["drains"] += 1
    met["overflows"] += sum(step.call == "receive" and step.status == LIMIT for step in made)
    met["errors"] += sum(row.errors for row in sheet(board, made))
    met["values below 0"] += sum(row.least is not None and row.least < 0 for row in sheet(board, made))
    met["rows with nothing"] += sum(row.first is None for row in sheet(board, made[:journey.drained[0][0]]))


def check_errors(board):
    """An error is counted where it was seen and cleared, once: not where the marks are cleared unseen or again, nor where they are only read."""
    number = next(entry.number for entry in board.objects if entry.record.kind == RECEIVE and entry.record.depth)
    bad = f"indication {board.objects[number].record.ipdu} 0\n"
    seen, cleared, stopped = f"marks {number}\n", f"clear_marks {number}\n", "stop\n"
    for script, count in [(bad + seen + cleared + cleared, 1), (bad + cleared, 0), (bad + seen + seen, 0), (2 * (bad + seen + cleared), 2), (seen + cleared, 0),
                          (bad + seen + stopped + cleared, 0)]:
        made = steps("start\n" + script, "script", drive(DRIVE, board.table, "start\n" + script), "drive")
        found = next(row.errors for row in sheet(board, made) if row.entry.number == number)
        if found != count:
            fail(f"the sheet of {script!r} counts {found} errors, should be {count}")
