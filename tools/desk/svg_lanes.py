"""The lanes of a picture: one for each I-PDU and one for each message. A lane knows its height, and draws itself at a place of a canvas."""
from itertools import product

from .network import MODES
from .readings import Run
from .records import NONE, SEND
from .svg_draw import NORMAL, SMALL, Box, text_width
from .words import counted, identifier

NAMES_AT, INDENT, PLOT_AT = 16, 12, 262  # where names and the time's beginning are, from the left
ABOVE, BELOW = 6, 6  # left free in a message's lane
SCALE_ROOM = 76  # for the least and the greatest value, left of the plot
NEAR = 5.0  # marks of a kind that are nearer than this are drawn as one
LABEL_SHIFTS = (0, 12, 24, 36)  # how far a value is written behind its change where something is in the way
CROWDED, BIN = 10.0, 3.0  # with fewer pixels for each, marks of a kind are drawn as strokes, one for all within a bin
THIN = 1.0  # spans and changes nearer than this are drawn as one

ENDED = {"confirm": "confirmed", "no_confirm": "not sent", "deadline": "deadline missed", "start": "ended by a start", "end": "open at the end"}
DELAYED = {"passed": "passed", "start": "ended by a start", "end": "runs at the end"}
WATCHED = {"indication": "in time", "deadline": "deadline missed", "start": "ended by a start", "end": "waits at the end"}
EVENTS = {"request": "request", "confirm": "good confirm", "no_confirm": "confirm, not sent", "indication": "good indication",
          "error": "indication, not good", "deadline": "missed deadline"}
# Where a kind of event is drawn in its lane: a mark's middle, and from where to where strokes go.
LEVELS = {"request": (12, 5, 17), "confirm": (25.5, 31, 36), "no_confirm": (25.5, 20, 36), "indication": (13, 6, 18), "error": (13, 6, 22),
          "deadline": (26, 21, 35)}
TIP_FRAMES = 8  # frames whose bytes a tip has, at most
TONES = ["#fff", "#b9d7ea", "#e9edf0", "#8fbfdd", "#d5e6d9"]  # of named states, one after the other
GIVEN = {"given": "given to a send, and carried by no frame", "taken": "taken by a receive", "lost": "taken by a receive; a value before it was lost"}


class Times:
    """Times as places: `width` pixels for all ticks of a clock."""

    def __init__(self, clock, width):
        self.clock, self.width = clock, width
        self.scale = width / clock.ticks

    def x(self, at):
        return PLOT_AT + at * self.scale

    def are_many(self, items):
        return len(items) * CROWDED > self.width

    def near(self, items):
        """Neighbours that are drawn as one mark or one stroke."""
        return near(items, lambda item: self.x(item.at), lambda group: self.x(group[0].at), BIN if self.are_many(items) else NEAR)

    def middle(self, group):
        return (self.x(group[0].at) + self.x(group[-1].at)) / 2

    def words(self, begin, end):
        return self.clock.span(begin, end)


def near(items, begin, end, gap):
    """Neighbours in lists: each begins less than `gap` after the first of its list began, or, with spans, after the one before it ended."""
    groups = []
    for item in items:
        if groups and begin(item) - end(groups[-1]) < gap:
            groups[-1].append(item)
        else:
            groups.append([item])
    return groups


def hex_bytes(frame):
    return frame.hex(" ").upper() if frame else "no bytes"


class IpduLane:
    """Requests with their confirms and delays, or indications with the time in which one is waited for."""

    height = 38

    def __init__(self, ipdu, lane, times):
        self.ipdu, self.lane, self.times = ipdu, lane, times
        self.is_sent = lane.record.direction == SEND

    def draw(self, canvas, top):
        room = PLOT_AT - 14 - NAMES_AT
        canvas.name(NAMES_AT, top + 17, self.ipdu.name, NORMAL, room, "strong")
        words = f"{identifier(self.ipdu)}, " + (f"sent, {MODES[self.lane.record.mode]}" if self.is_sent else "received")
        canvas.name(NAMES_AT, top + 31, words, SMALL, room, "quiet")
        if self.is_sent:
            self.spans(canvas, self.lane.open, top + 21, 9, lambda how: ("open", how), "request open", ENDED)
            self.spans(canvas, self.lane.delays, top + 21, 9, lambda how: ("delay", "delay"), "minimum delay", DELAYED)
        else:
            self.spans(canvas, self.lane.watched, top + 24, 4, lambda how: ("watched", "deadline" if how == "deadline" else "in_time"),
                       "waits for a frame", WATCHED)
        for what, (level, above, below) in LEVELS.items():
            self.marks(canvas, what, top + level, top + above, top + below)

    def spans(self, canvas, spans, y, height, kinds, words, endings):
        x = self.times.x
        for how in dict.fromkeys(span.how for span in spans):
            alike = [span for span in spans if span.how == how]
            for group in near(alike, lambda span: x(span.begin), lambda group: x(group[-1].end), 0 if x(1) - x(0) > 2 else THIN):
                first, last = group[0], group[-1]
                several = f"{len(group)} times " if len(group) > 1 else ""
                tip = f"{self.ipdu.name}: {several}{words}, {self.times.words(first.begin, last.end)}: {endings[how]}"
                kind, fill = kinds(how)
                canvas.bar(f"bar {kind}", fill, x(first.begin), y, x(last.end), height, tip, len(group))

    def marks(self, canvas, what, y, above, below):
        events = [event for event in self.lane.events if event.what == what]
        for group in self.times.near(events):
            if self.times.are_many(events):
                canvas.stroke(what, self.times.middle(group), above, below, self.tip(what, group), len(group))
            else:
                canvas.mark(what, self.times.middle(group), y, self.tip(what, group), len(group))

    def tip(self, what, group):
        first, last = group[0], group[-1]
        when = self.times.words(first.at, last.at)
        if len(group) == 1:
            return f"{self.ipdu.name}: {EVENTS[what]}, {when}, line {first.line}" + (f": {hex_bytes(first.frame)}" if first.frame else "")
        frames = "".join(f"; {hex_bytes(event.frame)}" for event in group[:TIP_FRAMES] if event.frame)
        return f"{self.ipdu.name}: {len(group)} of {EVENTS[what]}, {when}{frames}" + ("; .." if frames and len(group) > TIP_FRAMES else "")


class MessageLane:
    """A value over time, as a line, as a band of named states or as dots; below it two thin strips of marks."""

    strip, still = 4, 1.5  # heights of a mark, and of an error's that stays marked

    def __init__(self, board, reading, marks, times):
        self.board, self.reading, self.times = board, reading, times
        self.entry, self.scaling = reading.entry, reading.entry.scaling
        raws = reading.raws()
        self.is_band = bool(raws) and bool(reading.lines) and all(raw in self.scaling.names for raw in raws)
        self.body = 17 if self.is_band or not raws else 34
        self.height = ABOVE + self.body + 4 + 2 * self.strip + BELOW
        self.least, self.greatest = (min(raws, key=self.drawn), max(raws, key=self.drawn)) if raws else (0, 0)
        good, bad = ("sent", "send error") if reading.is_sent else ("arrived", "receive error")
        self.strips = [(good, "good", marks[good]), (bad, "bad", marks[bad])]

    def drawn(self, raw):
        """What orders values as their meanings do."""
        return raw if self.scaling.factor > 0 else -raw

    def y(self, top, raw):
        """The place of a value; one that is all there is lies in the middle."""
        part = (raw - self.least) / (self.greatest - self.least) if self.greatest != self.least else 0.5
        return top + ABOVE + self.body * (1 - part)

    def kind(self):
        """Where the values come from or go to, in words."""
        record = self.entry.record
        queue = f", queue of {record.depth}" if record.depth else ""
        if record.kind == SEND:
            return "sent" if record.ipdu != NONE else "sent inside"
        return ("received" if record.ipdu != NONE else f"from {self.board.object_name(record.sender)}" if record.sender != NONE else "received inside") + queue

    def draw(self, canvas, top):
        room = PLOT_AT - SCALE_ROOM - 14 - NAMES_AT - INDENT
        canvas.name(NAMES_AT + INDENT, top + 15, self.entry.name, NORMAL, room)
        canvas.name(NAMES_AT + INDENT, top + 28, self.kind(), SMALL, room, "quiet")
        for place, (name, how, spans) in enumerate(self.strips):
            self.marked(canvas, spans, top + ABOVE + self.body + 4 + place * (self.strip + 1), how, name)
        if not self.reading.raws():
            canvas.text(PLOT_AT + 6, top + 19, "no value", SMALL, "quiet")
            return
        if self.is_band:
            self.bands(canvas, top)
        else:
            self.scale_ends(canvas, top)
            self.dots(canvas, top)
            for run in self.runs():
                self.line(canvas, top, run)

    def marked(self, canvas, spans, y, how, name):
        """The strip of one mark; that of an error is thin after the tick in which it was set."""
        x = self.times.x
        for group in near(spans, lambda span: x(span.begin), lambda group: x(group[-1].end), THIN):
            first, last = group[0], group[-1]
            several = f", {len(group)} times" if len(group) > 1 else ""
            tip = f"{self.entry.name}: marked {name}{several}, {self.times.words(first.begin, last.end)}"
            right = end = x(last.end)
            if how == "bad" and len(group) == 1:
                right = min(end, max(x(first.begin + 1), x(first.begin) + NEAR))
            canvas.bar("marked", how, x(first.begin), y, right, self.strip, tip, len(group))
            if right < end:
                canvas.bar("still", "still", right, y + self.strip - self.still, end, self.still, tip)

    def scale_ends(self, canvas, top):
        ends = [(self.greatest, 4), (self.least, self.body + 4)] if self.greatest != self.least else [(self.least, self.body / 2 + 4)]
        for raw, down in ends:
            value = self.scaling.physical(raw)
            ways = (self.scaling.text(raw), self.scaling.number(raw), f"{value:.6g}")
            words = next((each for each in ways if text_width(each, SMALL) <= SCALE_ROOM), f"{value:.3g}")
            canvas.text(PLOT_AT - 8, top + ABOVE + down, words, SMALL, "quiet", "end")

    # lines

    def runs(self):
        """From each start on; those that begin within one pixel as one."""
        x = self.times.x
        groups = near(self.reading.lines, lambda run: x(run.values[0].at), lambda group: x(group[0].values[0].at), THIN)
        return [Run(group[-1].end, [value for run in group for value in run.values]) for group in groups]

    def changes(self, run):
        """The values of a run that differ from the one before."""
        return [value for place, value in enumerate(run.values) if place == 0 or value.raw != run.values[place - 1].raw]

    def line(self, canvas, top, run):
        """A step line; changes within one pixel are drawn from the least to the greatest of them."""
        changes, x = self.changes(run), self.times.x
        groups = near(changes, lambda value: x(value.at), lambda group: x(group[0].at), THIN)
        parts = [f"M{x(changes[0].at):.1f} {self.y(top, changes[0].raw):.1f}"]
        for group in groups:
            places = [self.y(top, value.raw) for value in group]
            ends = [min(places), max(places)] if len(group) > 2 else []
            parts.append(f"H{x(group[0].at):.1f}" + "".join(f"V{place:.1f}" for place in [*places[:1], *ends, places[-1]]))
        parts.append(f"H{max(x(run.end), x(changes[-1].at) + 1):.1f}")
        least, greatest = (pick(changes, key=lambda value: self.drawn(value.raw)) for pick in (min, max))
        shown = self.reading.text(least) + (f" to {self.reading.text(greatest)}" if least.raw != greatest.raw else "")
        canvas.add("path", {"class": "value", "d": "".join(parts)},
                   f"{self.entry.name}: {shown}, {counted(len(changes), 'value')}, {self.times.words(changes[0].at, run.end)}")
        self.labels(canvas, top, groups, run.end)

    def labels(self, canvas, top, groups, end):
        """Each value above or below its own flat piece, where that is long enough."""
        x = self.times.x
        for group, following in zip(groups, [*groups[1:], None]):
            value = group[-1]
            words, left = self.reading.text(value), x(value.at) + 4
            right = x(following[0].at if following else end)
            if left + text_width(words, SMALL) > right:
                continue
            y, room = self.y(top, value.raw), right - left - text_width(words, SMALL)
            lines = [line for line in ([y - 4, y + 12] if y - top > 16 else [y + 12, y - 4]) if top + 8 <= line <= top + self.body + 8]
            for shift, line in product([shift for shift in LABEL_SHIFTS if shift <= room], lines):
                if canvas.text_where_free(left + shift, line, words, SMALL):
                    break

    # dots

    def dots(self, canvas, top):
        for how in GIVEN:
            values = [value for value in self.reading.dots if value.how == how]
            are_many = self.times.are_many(values)
            for group in self.times.near(values) if are_many else near(values, self.place_of, lambda group: self.place_of(group[0]), THIN):
                self.dot(canvas, top, how, group, are_many)
        if not self.times.are_many(self.reading.dots):
            for value in self.reading.dots:
                self.dot_label(canvas, top, value)

    def place_of(self, value):
        return self.times.x(value.at)

    def dot(self, canvas, top, how, group, is_stroke):
        """A value, or several near each other from the least to the greatest of them."""
        ordered = sorted(group, key=lambda value: self.drawn(value.raw))
        low, high = self.y(top, ordered[0].raw), self.y(top, ordered[-1].raw)
        shown = self.reading.text(ordered[0]) + (f" to {self.reading.text(ordered[-1])}" if ordered[0].raw != ordered[-1].raw else "")
        several = f"{len(group)} values, " if len(group) > 1 else ""
        tip = f"{self.entry.name}: {several}{shown}, {GIVEN[how]}, {self.times.words(group[0].at, group[-1].at)}"
        middle = self.times.middle(group)
        if is_stroke:
            canvas.stroke(how, middle, high - 1, low + 1, tip, len(group))
            return
        if low - high > 2:
            canvas.line("between", middle, high, middle, low)
        canvas.mark(how, middle, (low + high) / 2, tip, len(group))

    def dot_label(self, canvas, top, value):
        """The value beside a dot that was taken, where there is room."""
        if value.how == "given":
            return
        words, y = self.reading.text(value), self.y(top, value.raw)
        left = self.times.x(value.at) + 9
        if left + text_width(words, SMALL) <= self.times.x(self.times.clock.ticks):
            canvas.text_where_free(left, min(max(y + 3.5, top + 8), top + self.body + 8), words, SMALL)

    # bands of named states

    def bands(self, canvas, top):
        are_many = self.times.are_many(self.reading.dots)
        if not are_many:
            canvas.taken += [Box(self.place_of(value) - 4, top, self.place_of(value) + 4, top + ABOVE + self.body) for value in self.reading.dots]
        shades = {raw: place for place, raw in enumerate(sorted(self.scaling.names))}
        for run in self.runs():
            self.band(canvas, top, run, shades)
        for group in self.times.near(self.reading.dots):
            names = ", ".join(dict.fromkeys(self.reading.text(value) for value in group))
            tip = f"{self.entry.name}: {names}, {GIVEN['given']}, {self.times.words(group[0].at, group[-1].at)}"
            if are_many:
                canvas.stroke("given", self.times.middle(group), top + 2, top + ABOVE, tip, len(group))
            else:
                canvas.mark("given", self.times.middle(group), top + ABOVE + self.body / 2, tip, len(group))

    def band(self, canvas, top, run, shades):
        """A piece for each state, with its name where there is room; changes within one pixel are one piece of their own pattern."""
        changes, x = self.changes(run), self.times.x
        groups = near(changes, lambda value: x(value.at), lambda group: x(group[0].at), THIN)
        for group, following in zip(groups, [*groups[1:], None]):
            end = following[0].at if following else run.end
            value, left, right = group[-1], x(group[0].at), x(end)
            name = self.reading.text(value)
            when = self.times.words(group[0].at, end)
            if len(group) > 1:
                canvas.bar("state", "many", left, top + ABOVE, left + THIN, self.body, f"{self.entry.name}: {len(group)} changes, {when}", len(group))
                left += THIN
            canvas.add("rect", {"class": "state", "x": left, "y": top + ABOVE, "width": max(0.5, right - left), "height": self.body,
                                "fill": TONES[shades[value.raw] % len(TONES)]}, f"{self.entry.name}: {name}, {when}")
            if text_width(name, SMALL) + 6 <= right - left:
                canvas.text_where_free(left + 4, top + ABOVE + self.body / 2 + 4, name, SMALL)
