"""Logs against the layer: a log becomes a script, drive plays it, and the run's log has the same frames; and two nodes of a network beside each other, where
each request of one is indicated to the other."""
import random
from decimal import Decimal
from fractions import Fraction

from desk import bits, candump, log_script, run_log
from desk.layer import DRIVE, drive
from desk.network import Board, Ipdu
from desk.records import NONE, WHOLE
from desk.run import CANNOT_BE_READ, duration, steps
from desk.timeline import lanes
from desk.wrong import Wrong
from journey_boards import Player, passes, random_raw, van
from journey_check import fail, same

BEGIN = Decimal("1436509052.249713")
KINDS = ["right", "right", "right", "right", "length", "unknown", "extended", "remote", "error", "fd", "xl"]
NO_VALUE = 4


def tick_of(frame, begin, tick):
    """The whole ticks that have passed at a frame, worked out apart from the tool."""
    return (Fraction(frame.time) - Fraction(begin)) * 1000 // Fraction(tick)


def shown(frames, begin, tick):
    """Frames by what has to stay the same."""
    return [(tick_of(frame, begin, tick), frame.identifier, frame.extended, frame.data) for frame in frames]


def run_of(board, script):
    """The steps that drive makes of a script, each line of which it can read."""
    printed = drive(DRIVE, board.table, script)
    if any(line.startswith(f"{CANNOT_BE_READ} ") for line in printed.splitlines()):
        fail(f"drive can't read a line of {script!r}")
    return steps(script, "script", printed, "drive")


# a log as a script

def random_log(network, count):
    """Pairs of a frame and of what was made of it: one of KINDS, `right` is a frame of the network as it should be."""
    frames, time = [], BEGIN
    free = sorted(set(range(candump.MOST_STANDARD + 1)) - {ipdu.identifier for ipdu in network.ipdus})
    for _ in range(count):
        time += Decimal(random.choice([0, 1, random.randrange(1000), random.randrange(300_000), random.randrange(3_000_000)])).scaleb(-6)
        ipdu, kind = random.choice(network.ipdus), random.choice(KINDS)
        identifier, extended, data = ipdu.identifier, ipdu.extended, random.randbytes(ipdu.length)
        if kind == "length":
            data = random.randbytes(random.choice([length for length in range(9) if length != ipdu.length]))
        elif kind == "unknown":
            identifier = random.choice(free)
        elif kind == "extended":
            extended = not extended
        more = {"remote": "8", "fd": "0", "xl": "81:00:12345678"}.get(kind, "")
        written = kind if kind in candump.KINDS else candump.DATA
        frames.append((candump.Frame(time, "can0", identifier, extended or kind == "error", b"" if kind == "remote" else data, written, more=more), kind))
    return frames


def expected(board, marked):
    """What the summary should count, and the frames that should be in the run's log."""
    counts, good = {}, []
    numbers = {ipdu.identifier: number for number, ipdu in enumerate(board.ipdus)}
    for frame, kind in marked:
        number = numbers.get(frame.identifier)
        if kind in candump.KINDS:
            name = kind
        elif kind in ("unknown", "extended"):
            name = "unknown"
        elif number is None:
            name = "others"
        elif board.ipdus[number].sender == board.node:
            name = "own"
        else:
            name = "other_length" if kind == "length" else "indicated"
            good += [frame] if kind != "length" else []
        counts[name] = counts.get(name, 0) + 1
    return counts, good


def check_log(board, count, drain_ms, met):
    """A random log as a script of a node, and back."""
    marked = random_log(board.network, count)
    script, summary = log_script.script(board, [frame for frame, _ in marked], drain_ms=drain_ms)
    counts, good = expected(board, marked)
    found = {name: getattr(summary, name) for name in summary.words if getattr(summary, name)}
    if found != counts or summary.frames() != count or summary.ticks != script.count("tick\n"):
        fail(f"the summary has {found}, should be {counts}; {summary.ticks} ticks; script {script!r}")
    made = run_of(board, script)
    begin = marked[0][0].time
    log = [frame for frame in run_log.frames(board, made, begin) if board.ipdus[board.by_identifier(frame.identifier, frame.extended)].sender != board.node]
    same(f"the frames of a log that {board.node} receives", shown(log, begin, board.network.tick), shown(good, begin, board.network.tick))
    check_drains(board, made, drain_ms)
    met.update({f"log {name}": number for name, number in counts.items()})
    met["log drains"] += summary.drains


def check_run_log(board, script):
    """The log of a run has of each I-PDU the frames that its lane has, in the same ticks."""
    made = run_of(board, script)
    log = run_log.frames(board, made, interface="vcan0")
    if [frame.time for frame in log] != sorted(frame.time for frame in log) or {frame.interface for frame in log} - {"vcan0"}:
        fail(f"the times or interfaces of a run's log are {log}")
    for lane, ipdu in zip(lanes(board, made, float(duration(made))), board.ipdus, strict=True):
        events = [(int(event.at), ipdu.identifier, ipdu.extended, event.frame) for event in lane.events if event.what in ("request", "indication")]
        own = [frame for frame in log if (frame.identifier, frame.extended) == (ipdu.identifier, ipdu.extended)]
        same(f"the frames of {ipdu.name} in a run's log", shown(own, 1, board.network.tick), events)


def check_crowded_log():
    """A frame stays in its tick, also where that is no whole number of microseconds and has more calls than these."""
    board = Board(van(), "van")
    board.network.tick = Decimal("0.0033")
    check_run_log(board, "start\nstart_periodic\n" + ("indication 2 1 00000000\n" * 20 + "tick\nconfirm 1 1\n") * 50)


def check_drains(board, made, drain_ms):
    """Each drain of a queue has a receive for each value that may have come and found room, and one more, which answers 4; and drains come when they should."""
    arrived, receives, ticks, drained = {entry.number: 0 for entry in board.objects if entry.record.depth}, 0, 0, []
    for before, step in zip(made, made[1:]):
        ticks += step.call == "tick"
        if step.call == "indication":
            arrived = {number: so_far + (board.objects[number].record.ipdu == step.numbers[0]) for number, so_far in arrived.items()}
        receives += step.call == "receive"
        if step.call == "marks":
            number = step.numbers[0]
            wanted = 1 + min(arrived[number], board.objects[number].record.depth)
            if before.status != NO_VALUE or receives != wanted:
                fail(f"line {step.line}: a drain of {board.object_name(number)} has {receives} receives, should be {wanted}; the last answers {before.status}")
            arrived[number], receives = 0, 0
            drained.append((ticks, number))
    every = int(drain_ms / board.network.tick) if drain_ms else None
    times = [*range(every, ticks + 1, every), ticks] if every else []
    same("the drains", drained, [(time, number) for time in times for number in arrived])


def boards_with_others():
    """The example's nodes, beside an I-PDU that neither of them sends or receives."""
    network = van()
    network.ipdus.append(Ipdu("Others", 4, 0x321))
    return network.boards()


def check_earlier():
    """Frames before the beginning are left out."""
    board = Board(van(), "van")
    frames = [candump.Frame(Decimal(time), "can0", 0x200, data=bytes(4)) for time in (1, 2, 3)]
    script, summary = log_script.script(board, frames, begin=Decimal("1.75"))
    ticks = ["tick\n" * count + "indication 2 1 00000000\n" for count in (2, 10)]
    if script != "start\n" + "".join(ticks) or (summary.earlier, summary.indicated) != (1, 2):
        fail(f"with a beginning between the frames: {summary}, script {script!r}")
    same("the summary's lines", summary.lines(), ["12 ticks, 0 drains, 3 frames", "2 indicated", "1 before the beginning: left out"])


def check_wrong_uses():
    """What a person can get wrong is said in one line."""
    board = Board(van(), "van")
    file = board.network.file
    gap, drained = ([candump.Frame(Decimal(time), "can0", 0x200, data=bytes(4)) for time in (0, end)] for end in (1436509052, 10000000))
    cases = [
        (lambda: log_script.script(board, [], drain_ms=250), "tick_ms: a drain every 250 ms is not one every 1, 2, 3 .. ticks of 100 ms"),
        (lambda: log_script.script(board, [], drain_ms=0), "tick_ms: a drain every 0 ms is not one every 1, 2, 3 .. ticks of 100 ms"),
        (lambda: log_script.script(board, gap),
         "tick_ms: at 1436509052 s 14365090520 ticks and 0 drains have passed since 0 s, and a script has at most 200000000 lines"),
        (lambda: log_script.script(board, drained, drain_ms=100),
         "tick_ms: at 10000000 s 100000000 ticks and 100000000 drains have passed since 0 s, and a script has at most 200000000 lines"),
        (lambda: run_log.frames(board, run_of(board, "start\nsend 0 1\n")), "ipdu.Humidity: has no id, and a frame in a log has one"),
    ]
    board.ipdus[0].identifier = None
    for use, reason in cases:
        try:
            fail(f"{use()} instead of: {reason}")
        except Wrong as error:
            same("the line for a wrong use", str(error), f"{file}: {reason}")


def check_days():
    """The ticks of days are exact, with a tick that no binary fraction has."""
    board = Board(van(), "van")
    board.network.tick = Decimal("123.4567")
    times = [BEGIN, BEGIN + 86400, BEGIN + 3 * 86400 + Decimal("0.000001"), BEGIN + 40 * 86400]
    frames = [candump.Frame(time, "can0", 0x200, data=bytes(4)) for time in times]
    script, _ = log_script.script(board, frames)
    wanted = [tick_of(frame, BEGIN, board.network.tick) for frame in frames]
    passed = [0]
    for part in script.split("indication 2 1 00000000\n")[:-1]:
        passed.append(passed[-1] + part.count("tick\n"))
    same("the ticks of days", passed[1:], wanted)


# two nodes

class Node(Player):
    """`kept` has of each send object the value that its filter let through last."""

    def __init__(self, library, board):
        super().__init__(library, board)
        self.senders = [entry for entry in self.senders if entry.record.ipdu != NONE]
        self.kept = {entry.number: bits.meant(entry.record.initial, entry.record.signed) for entry in self.senders}
        self.unconfirmed = []

    def send(self):
        """A random value of a random object; gives the requests."""
        if not self.senders:
            return []
        entry = random.choice(self.senders)
        value = random_raw(entry.of)
        if passes(entry.record, value, self.kept[entry.number]):
            self.kept[entry.number] = value
        return self.requested(self.call("send", entry.number, value))

    def confirm_some(self):
        for number in self.unconfirmed:
            if random.random() < 0.7:
                self.call("confirm", number, 1)
        self.unconfirmed = []


class Bus:
    """Two nodes, left and right; what one requests is indicated to the other at once."""

    def __init__(self, library, network, met):
        self.network, self.met = network, met
        self.nodes = [Node(library, board) for board in network.boards()]
        for node in self.nodes:
            node.call("start")

    def carry(self, sender, requests):
        receiver = self.nodes[1 - self.nodes.index(sender)]
        for number, data in requests:
            ipdu = sender.board.ipdus[number]
            there = receiver.board.by_identifier(ipdu.identifier, ipdu.extended)
            if receiver.indicate(there, data) != 0:
                fail(f"a frame of {ipdu.name} is refused: {data.hex()}")
            self.met["carried"] += 1
            self.check_readings(sender, receiver, there, data)
            sender.unconfirmed.append(number)

    def check_readings(self, sender, receiver, ipdu, data):
        """Each object of the I-PDU has the reading of its sender, in its unit, where its filter lets it through."""
        for entry in receiver.board.objects:
            if entry.record.ipdu != ipdu:
                continue
            source = next(other for other in sender.senders if other.of is (entry.of.receives or entry.of))
            raw = sender.kept[source.number]
            through = passes(entry.record, raw)
            status, word = receiver.call("receive", entry.number)
            if entry.record.depth and status != (0 if through else NO_VALUE):
                fail(f"{entry.name} answers {status} after {data.hex()}, filter {entry.filter()}, value {raw}")
            if through and entry.scaling.physical(bits.meant(word, entry.record.signed)) != source.scaling.physical(raw):
                fail(f"{entry.name} is {entry.text(word)} after {data.hex()}, and {source.text(raw % WHOLE)} was sent")
            self.met["readings through" if through else "readings dropped"] += 1

    def tick(self):
        wanted = [(node, node.requested(node.call("tick"))) for node in self.nodes]
        for node, requests in wanted:
            self.carry(node, requests)

    def run(self, ticks):
        for _ in range(ticks):
            for node in random.sample(self.nodes, 2):
                for _ in range(random.choice([0, 0, 1, 2])):
                    self.carry(node, node.send())
                node.confirm_some()
                if random.random() < 0.05:
                    node.call(random.choice(["start_periodic", "start_periodic", "stop_periodic"]))
            self.tick()

    def check_logs(self):
        """What one node sent is what was indicated to the other, in the run's logs, and in the script that the log becomes."""
        tick, boards = self.network.tick, [node.board for node in self.nodes]
        runs = [run_of(node.board, node.script()) for node in self.nodes]
        for sender, receiver in ((0, 1), (1, 0)):
            sent = run_log.frames(boards[sender], runs[sender], sent_only=True)
            own = {(ipdu.identifier, ipdu.extended) for ipdu in boards[receiver].ipdus if ipdu.sender == boards[receiver].node}
            both = run_log.frames(boards[receiver], runs[receiver])
            indicated = [frame for frame in both if (frame.identifier, frame.extended) not in own]
            same("what one node sends is indicated to the other", shown(indicated, 1, tick), shown(sent, 1, tick))
            again = run_of(boards[receiver], log_script.script(boards[receiver], sent, begin=Decimal(1))[0])
            same("a log of one node as a script of the other", shown(run_log.frames(boards[receiver], again), 1, tick), shown(sent, 1, tick))


def check_two_nodes(library, network, ticks, met):
    bus = Bus(library, network, met)
    bus.run(ticks)
    bus.check_logs()
    met["networks"] += 1
