"""For tests of pictures and reports: scripts and a network to draw, and what the tests work out of a run themselves, from calls, answers and table."""
import random
from bisect import bisect_right
from collections import Counter
from decimal import Decimal

NONE = 255  # no I-PDU
PAGES = """
title = 'Pages'
tick_ms = 50
nodes = ['van']
outside = ['case']
[ipdu.Goes]
id = 1
size_in_bytes = 4
sender = 'van'
transmission_mode = 'direct'
deadline_ms = 150
[ipdu.Comes]
id = 2
size_in_bytes = 4
sender = 'case'
deadline_ms = 100
receiver.van = { deadline_ms = 200, first_deadline_ms = 300 }
[message.Page]
ipdu = 'Goes'
start_bit = 0
size_in_bits = 1
[message.Warmth]
ipdu = 'Goes'
start_bit = 8
size_in_bits = 8
factor = 0.5
unit = '°C'
initial_value = 20
minimum = 18
maximum = 22.5
multiplexor = 'Page'
multiplexor_value = 0
[message.Door]
ipdu = 'Goes'
start_bit = 8
size_in_bits = 2
values = { 0 = 'closed', 1 = 'open', 2 = 'ajar' }
multiplexor = 'Page'
multiplexor_value = 1
[message.CasePage]
ipdu = 'Comes'
start_bit = 0
size_in_bits = 1
[message.CaseWarmth]
ipdu = 'Comes'
start_bit = 8
size_in_bits = 8
factor = 0.5
unit = '°C'
maximum = 60
multiplexor = 'CasePage'
multiplexor_value = 0
[message.CaseDoor]
ipdu = 'Comes'
start_bit = 8
size_in_bits = 2
values = { 0 = 'closed', 1 = 'open', 2 = 'ajar' }
multiplexor = 'CasePage'
multiplexor_value = 1
[message.CaseLock]
ipdu = 'Comes'
start_bit = 16
size_in_bits = 2
values = { 0 = 'locked', 2 = 'unlocked' }
multiplexor = 'CasePage'
multiplexor_value = 1
receiver.van = { queue_size = 3 }
[message.CaseShock]
ipdu = 'Comes'
start_bit = 24
size_in_bits = 8
factor = 0.1
unit = 'g'
values = { 255 = 'no sensor' }
minimum = 1
receiver.van = { queue_size = 2 }
[message.CaseSpare]
ipdu = 'Comes'
start_bit = 8
size_in_bits = 8
multiplexor = 'CasePage'
multiplexor_value = 0
receiver.van = { filter = { algorithm = 'NewIsWithin', min = 100, max = 200 } }
"""


class Expected:
    """Counts of a run, from the calls, the answers, the marks and the records of the table alone; and its frames as (line, I-PDU, bytes)."""

    def __init__(self, journey):
        self.records, self.objects, self.messages = journey.board.ipdu_records, journey.board.objects, journey.messages
        self.counts = Counter()
        self.frames = []
        self.left, self.waiting = {}, {}
        self.gaps, self.open_gaps, self.last_frame, self.asked = [], {}, {}, {}
        for step in journey.made:
            if step.status == 0:
                self.step(step)
            if step.call == "receive" and step.value is not None and self.objects[step.numbers[0]].record.depth:
                self.counts["lost" if step.status == 3 else "taken"] += 1
        self.drop_waiting()
        self.count_marks(journey.states)

    def step(self, step):
        if step.call in ("start", "stop"):
            for ipdu in range(len(self.records)):
                self.end_gap(ipdu, step)
        if step.call == "start":
            self.drop_waiting()
            self.left = {k: record.first_deadline or record.deadline for k, record in enumerate(self.records) if record.direction == 2}
        elif step.call == "send":
            self.waiting.setdefault(step.numbers[0], []).append(step.numbers[1])
        elif step.call == "tick":
            self.tick(step)
        elif step.call == "confirm":
            self.counts["confirm" if step.numbers[1] else "no_confirm"] += 1
            self.left.pop(step.numbers[0])
            self.end_gap(step.numbers[0], step)
        elif step.call == "indication":
            self.indication(step)
        for ipdu, frame in step.requests:
            self.counts["request"] += 1
            self.frames.append((step.line, ipdu, frame))
            if ipdu not in self.left:
                self.asked[ipdu] = step.line
            self.left.setdefault(ipdu, self.records[ipdu].deadline)
            self.carry(ipdu, frame)

    def indication(self, step):
        ipdu, good = step.numbers
        self.counts["indication" if good else "error"] += 1
        self.end_gap(ipdu, step)
        if good:
            self.left[ipdu] = self.records[ipdu].deadline
            self.frames.append((step.line, ipdu, step.frame))

    def end_gap(self, ipdu, step):
        """A frame, a confirm, a start or a stop ends what deadlines were missed one after the other."""
        self.last_frame[ipdu] = step.line
        if ipdu in self.open_gaps:
            self.open_gaps.pop(ipdu)["end"] = step.line

    def miss(self, ipdu, step):
        if ipdu not in self.open_gaps:
            begin = self.asked[ipdu] if self.records[ipdu].direction == 1 else self.last_frame[ipdu]
            self.open_gaps[ipdu] = {"ipdu": ipdu, "lines": [], "begin": begin, "end": None}
            self.gaps.append(self.open_gaps[ipdu])
        self.open_gaps[ipdu]["lines"].append(step.line)

    def carry(self, ipdu, frame):
        """Values that were sent since the last frame that held their message, and are not in this one."""
        for entry in self.objects:
            record = entry.record
            if record.ipdu == ipdu and entry.number in self.waiting and is_held(self.messages, entry.name, frame):
                here = walked(frame, record.start, record.bits, record.order % 2 == 1, False)
                self.counts["given"] += sum(value % 2**record.bits != here for value in self.waiting.pop(entry.number))

    def drop_waiting(self):
        self.counts["given"] += sum(len(values) for values in self.waiting.values())
        self.waiting = {}

    def count_marks(self, states):
        """How often a mark was set anew."""
        before = [0] * len(self.objects)
        for state in states:
            now = [marks or 0 for marks in state.marks]
            self.counts["marked"] += sum((new & ~old).bit_count() for new, old in zip(now, before))
            before = now

    def tick(self, step):
        for ipdu, ticks in list(self.left.items()):
            if ticks == 1:
                self.counts["deadline"] += 1
                self.miss(ipdu, step)
                self.counts["deadline of a request"] += self.records[ipdu].direction == 1
                del self.left[ipdu]
                if self.records[ipdu].direction == 2:
                    self.left[ipdu] = self.records[ipdu].deadline
            elif ticks > 1:
                self.left[ipdu] = ticks - 1


def walked(frame, start, size, big, signed):
    """A value from its bits, one after the other from bit 0 on."""
    raw, place = 0, start
    for bit in range(size):
        raw += (frame[place // 8] >> place % 8 & 1) << bit
        place = place + 1 if not big or place % 8 != 7 else place - 15
    return raw - 2**size if signed and raw >> size - 1 else raw


def raw_in(message, frame):
    return walked(frame, message["start_bit"], message["size_in_bits"], message.get("byte_order") == "big", message.get("signed", False))


def is_held(messages, name, frame):
    """Whether a frame holds a message, as its multiplexor says."""
    message = messages[name]
    return "multiplexor" not in message or raw_in(messages[message["multiplexor"]], frame) == message["multiplexor_value"]


def in_units(message, raw, with_unit=True):
    names = message.get("values", {})
    if str(raw) in names:
        return names[str(raw)]
    factor, offset = (Decimal(message.get(key, default)) for key, default in (("factor", 1), ("offset", 0)))
    places = max(0, -factor.normalize().as_tuple().exponent, -offset.normalize().as_tuple().exponent)
    return f"{raw * factor + offset:.{places}f} {message.get('unit', '') if with_unit else ''}".strip()


def samples_of(journey, expected, entry):
    """(line, raw value) of each frame that holds a message that is sent, or received with no filter, or of each receive of a queued one; None for others."""
    if entry.record.depth:
        return [(step.line, step.value) for step in journey.made if step.call == "receive" and step.numbers[0] == entry.number and step.value is not None]
    if entry.record.kind == 2 and (entry.record.ipdu == NONE or entry.record.filter):
        return None
    return [(line, raw_in(journey.messages[entry.name], frame)) for line, ipdu, frame in expected.frames
            if ipdu == entry.record.ipdu and is_held(journey.messages, entry.name, frame)]


def ticks_to(journey, line):
    """How many ticks there are up to a line."""
    return bisect_right(journey.ticks, line)


def in_time(journey, ticks):
    tick = journey.board.network.tick
    unit, step = ("s", tick / 1000) if (len(journey.ticks) + 1) * tick > 2000 else ("ms", tick)
    return f"{ticks * step.normalize():f} {unit}"


def time_of(journey, line):
    return f"at {in_time(journey, ticks_to(journey, line))}"


def has_names(message, samples):
    """Whether what its values mean are names, and not numbers some of which have one."""
    return "values" in message and ("unit" not in message or all(str(raw) in message["values"] for _, raw in samples))


def changes_of(journey, entry, samples):
    """Rows of the changes of a message: time, name, from, to and how long it stayed; each behind its line."""
    message = journey.messages[entry.name]
    found = [(line, before, raw) for (_, before), (line, raw) in zip(samples, samples[1:]) if before != raw]
    ends = [ticks_to(journey, line) for line, _, _ in found[1:]] + [len(journey.ticks)]
    for place, ((line, before, raw), end) in enumerate(zip(found, ends), 1):
        begin = ticks_to(journey, line)
        stayed = in_time(journey, end - begin) + ", to the end" * (place == len(found))
        if entry.record.depth and place < len(found) and begin == end:
            stayed = "not known: taken with the next"
        yield line, [in_time(journey, begin), entry.name, in_units(message, before), in_units(message, raw), stayed]


def wandering(board, ticks, seed):
    """A script of random calls, most of which can be done, with some starts and stops."""
    chance = random.Random(seed)
    sent = [entry for entry in board.objects if entry.record.kind == 1]
    received = [entry for entry in board.objects if entry.record.kind == 2]
    level = {entry.number: entry.record.initial for entry in sent}
    lines = ["start", "start_periodic"]
    for tick in range(ticks):
        entry = chance.choice(sent)
        level[entry.number] = (level[entry.number] + chance.randrange(-2, 3)) % 2**entry.record.bits
        lines.append(f"send {entry.number} {level[entry.number]}")
        for number, record in enumerate(board.ipdu_records):
            if record.direction == 1 and chance.random() < 0.6:
                lines.append(f"confirm {number} {int(chance.random() < 0.9)}")
            elif record.direction == 2 and chance.random() < 0.25:
                lines.append(f"indication {number} {int(chance.random() < 0.9)} {chance.randbytes(record.length).hex().upper()}")
        for entry in received:
            if chance.random() < 0.3:
                lines.append(f"receive {entry.number}")
        lines += [f"clear_marks {chance.randrange(len(board.objects))}"] * (chance.random() < 0.2)
        lines += ["stop", "tick", "start", "start_periodic"] * (chance.random() < 1 / ticks)
        lines.append("tick")
    return "".join(line + "\n" for line in lines)


def largest():
    """A network whose node van has 32 I-PDUs and 128 messages, with awkward words."""
    lines = ["title = 'Largest'", "tick_ms = 10", "nodes = ['van']", "outside = ['case']"]
    for k in range(32):
        lines += [f"[ipdu.Ipdu{k}]", f"id = {0x100 + k}", "size_in_bytes = 8", "comment = '<i> & \"q\" </i>'"]
        lines += ["sender = 'van'", f"transmission_mode = '{['direct', 'mixed'][k // 2 % 2]}'", "deadline_ms = 50"] if k % 2 == 0 else []
        lines += ["time_period_ms = 70"] if k % 4 == 2 else []
        lines += ["sender = 'case'", "deadline_ms = 50", "receiver.van = { deadline_ms = 60 }"] if k % 2 else []
        for part in range(4):
            name = f"Message{k}_{part}" + "_with_a_long_name_that_has_no_room" * (part == 3)
            lines += [f"[message.{name}]", f"ipdu = 'Ipdu{k}'", f"start_bit = {24 if part == 1 else 16 * part}", f"size_in_bits = {2 if part == 2 else 16}"]
            lines += [["factor = 0.25", "unit = '<&>'"], ["byte_order = 'big'", "signed = true", "unit = '°C'"],
                      ["values = { 0 = '</text>', 1 = 'öffnet & schließt', 2 = 'auf', 3 = 'a state with a name of many words' }"],
                      ["factor = 0.000001", "offset = -40", "unit = 'a long unit'"]][part]
            lines += ["receiver.van = { queue_size = 4 }"] if k % 2 and part % 2 else []
    return "\n".join(lines) + "\n"
