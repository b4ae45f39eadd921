"""The picture of a journey: what the I-PDUs, the messages and the layer went through, over time, as SVG with no reference to anything outside."""
import math

from .readings import layer_spans, mark_spans, readings
from .records import NONE
from .report_words import Clock, escaped, titled
from .svg_draw import LARGE, NORMAL, SMALL, Canvas, definitions, shortened, text_width
from .svg_lanes import NAMES_AT, PLOT_AT, THIN, IpduLane, MessageLane, Times, near
from .timeline import lanes
from .words import counted

TICK_WIDTH, LEAST_WIDTH, MOST_WIDTH = 30, 760, 1700  # pixels of a tick, and of the plot
RIGHT = 26
HEAD, AXIS, LAYER, GAP, FOOT = 56, 22, 26, 8, 14
AXIS_STEP = 84  # pixels between two labels of the axis, at least
ROUNDING = 1e-9  # what a float may be off
AXIS_AGAIN = 900  # pixels after which the axis is drawn again
LEGEND_LINE = 22
PAGE_RATIO = 0.64  # of a landscape page, height by width
LEGEND = [
    ("mark", "request", "request"), ("mark", "confirm", "good confirm"), ("mark", "no_confirm", "not sent, or a bad indication"),
    ("mark", "indication", "good indication"), ("mark", "deadline", "deadline missed"), ("several", "request", "several in one place"),
    ("dense", "request", "very many: a stroke for some of them"), ("bar", "confirm", "request open until it is confirmed"),
    ("bar", "no_confirm", "until it is not sent"), ("bar", "deadline", "until its deadline is missed"), ("bar", "start", "until a start"),
    ("bar", "end", "open at the end"), ("bar", "delay", "minimum delay"), ("thin", "in_time", "a frame is waited for"), ("thin", "deadline", "in vain"),
    ("line", "value", "value carried by frames, or held"), ("mark", "given", "value given to a send, carried by no frame"),
    ("mark", "taken", "value taken from a queue"), ("mark", "lost", "taken, and one before it was lost"),
    ("thin", "good", "marked sent or arrived, until cleared"), ("thin", "bad", "marked send or receive error"),
    ("rest", "still", "still marked so, until cleared"),
    ("bar", "stopped", "layer stopped"), ("line", "started", "start: nothing of before is left"),
]


class Scene:
    """The lanes of a run in groups: an I-PDU, then its messages, each with those that it gives inside."""

    def __init__(self, board, made, states):
        self.board, self.made = board, made
        self.clock = Clock(board.network, made)
        end = float(self.clock.ticks)
        self.times = Times(self.clock, min(max(LEAST_WIDTH, TICK_WIDTH * self.clock.ticks), MOST_WIDTH))
        self.width = PLOT_AT + self.times.width + RIGHT
        self.spans, self.starts = layer_spans(made, end)
        self.readings = readings(board, made, states, end)
        marks = mark_spans(board, made, states, end)
        self.messages = [MessageLane(board, reading, mark, self.times) for reading, mark in zip(self.readings, marks)]
        self.lanes = lanes(board, made, end)
        self.groups = [[IpduLane(board.ipdus[lane.number], lane, self.times), *self.under(board.carried(lane.number))] for lane in self.lanes]
        alone = [entry for entry in board.objects if entry.record.ipdu == NONE and entry.record.sender == NONE]
        self.groups += [self.under(alone)] if alone else []

    def under(self, entries):
        """The lanes of some messages; behind each those of its receivers inside."""
        result = []
        for entry in entries:
            inside = [other for other in self.board.objects if other.record.sender == entry.number]
            result += [self.messages[each.number] for each in (entry, *inside)]
        return result


def axis_steps(least):
    """Rounded distances of labels, from `least` on: 1, 2 or 5 with zeros."""
    power = 10.0 ** math.floor(math.log10(least))
    while True:
        yield from (power * factor for factor in (1, 2, 5) if power * factor >= least * (1 - ROUNDING))
        power *= 10


def axis_labels(clock, scale):
    """(time in ticks, words) of the axis: as near as there is room for the words, but not nearer than ticks."""
    tick = float(clock.step)
    for step in axis_steps(tick):
        decimals = max(0, -math.floor(math.log10(step) + ROUNDING))
        count = int(clock.ticks * tick / step + ROUNDING)
        labels = [(0.0, "0"), *((place * step / tick, f"{place * step:.{decimals}f}") for place in range(1, count + 1))]
        if step / tick * scale >= max(AXIS_STEP, text_width(labels[-1][1], SMALL) + LEGEND_LINE):
            return labels


class Page:
    """One SVG with some of a scene's groups."""

    def __init__(self, scene, title, has_legend=True, has_definitions=True):
        self.scene, self.title = scene, titled(title)
        self.has_legend, self.has_definitions = has_legend, has_definitions
        self.canvas = Canvas()
        self.labels = axis_labels(scene.clock, scene.times.scale)

    def rows(self, groups):
        """What is drawn below the layer's band, each with its height: axes, lanes and the gaps between groups."""
        since = 0
        for group in groups:
            yield self.rule, GAP
            for lane in group:
                yield lane.draw, lane.height
                since += lane.height
            if since > AXIS_AGAIN:
                yield self.axis, AXIS
                since = 0
        yield self.rule, GAP

    def text(self, groups):
        rows = list(self.rows(groups))
        body = HEAD + AXIS + LAYER
        bottom = body + sum(height for _, height in rows)
        self.head()
        self.layer(HEAD + AXIS)
        self.grid(HEAD + AXIS, bottom)
        self.axis(self.canvas, HEAD)
        top = body
        for draw, height in rows:
            self.canvas.taken = []
            draw(self.canvas, top)
            top += height
        self.axis(self.canvas, bottom)
        height = self.legend(bottom + AXIS + FOOT) if self.has_legend else bottom + AXIS + FOOT
        return self.whole(height)

    def whole(self, height):
        scene = self.scene
        width = scene.width
        description = (f"Node {scene.board.node}, {counted(len(scene.made), 'call')} in {scene.clock.length()}: I-PDUs with requests, confirms, indications "
                       "and deadlines, and each message's values and marks, over time.")
        return (f"<svg xmlns=\"http://www.w3.org/2000/svg\" class=\"journey\" viewBox=\"0 0 {width:g} {height:g}\" width=\"{width:g}\" height=\"{height:g}\" "
                f"role=\"img\"><title>{escaped(self.title)}</title><desc>{escaped(description)}</desc>\n"
                + (definitions() if self.has_definitions else "") + f"<rect width=\"{width:g}\" height=\"{height:g}\" fill=\"#fff\"/>\n"
                + "\n".join(self.canvas.parts) + "\n</svg>\n")

    def head(self):
        scene = self.scene
        self.canvas.text(NAMES_AT, 26, shortened(self.title, LARGE, scene.width - NAMES_AT - RIGHT, True), LARGE, "strong")
        tick = scene.board.network.milliseconds(1)
        words = (f"Node {scene.board.node}; {counted(len(scene.made), 'call')} in {scene.clock.length()}, a tick is {tick} ms; calls between two ticks are "
                 "drawn at even distances")
        self.canvas.text(NAMES_AT, 45, shortened(words, NORMAL, scene.width - NAMES_AT - RIGHT), NORMAL, "quiet")

    def grid(self, top, bottom):
        """The lines of the axis, and a line for each start; very many starts cross the layer's band alone."""
        x = self.scene.times.x
        for at, _ in self.labels:
            self.canvas.line("grid", x(at), top, x(at), bottom)
        for group in near(self.scene.starts, lambda step: x(step.at), lambda group: x(group[0].at), THIN):
            words = f"start, line {group[0].line}" if len(group) == 1 else f"{len(group)} starts"
            low = top + LAYER if self.scene.times.are_many(self.scene.starts) else bottom
            self.canvas.line("started", x(group[0].at), top, x(group[0].at), low, f"{words}, {self.scene.times.words(group[0].at, group[-1].at)}")

    def axis(self, canvas, top):
        """The times, and their unit in front of them."""
        x = self.scene.times.x
        canvas.text(PLOT_AT - 14, top + 14, f"time in {self.scene.clock.unit}", SMALL, "quiet", "end")
        for at, words in self.labels:
            if x(at) + text_width(words, SMALL) / 2 <= self.scene.width - 2:
                canvas.text(x(at), top + 14, words, SMALL, "quiet", "middle")

    def rule(self, canvas, top):
        canvas.line("rule", NAMES_AT, top + GAP / 2, self.scene.width - RIGHT, top + GAP / 2)

    def layer(self, top):
        canvas, x = self.canvas, self.scene.times.x
        canvas.text(NAMES_AT, top + 16, "Layer", NORMAL, "strong")
        for span in sorted(self.scene.spans, key=lambda span: span.how):
            left, right = x(span.begin), x(span.end)
            canvas.bar("layer", span.how, left, top + 4, right, LAYER - 8, f"layer {span.how}, {self.scene.times.words(span.begin, span.end)}")
            if text_width(span.how, SMALL) + 10 <= right - left:
                canvas.text(left + 5, top + 16.5, span.how, SMALL)

    def legend(self, top):
        """Draws it in lines; says where it ends."""
        canvas, left = self.canvas, NAMES_AT
        for kind, name, words in LEGEND:
            needed = 30 + text_width(words, SMALL) + 18
            if left + needed > self.scene.width - RIGHT:
                left, top = NAMES_AT, top + LEGEND_LINE
            canvas.parts.append("<g class=\"legend\">")
            self.sample(kind, name, left, top + 8)
            canvas.text(left + 30, top + 11.5, words, SMALL)
            canvas.parts.append("</g>")
            left += needed
        return top + LEGEND_LINE + FOOT

    def sample(self, kind, name, left, middle):
        canvas = self.canvas
        if kind == "mark":
            canvas.mark(name, left + 12, middle, None)
        elif kind == "several":
            canvas.mark(name, left + 12, middle + 1, None, 2)
        elif kind == "dense":
            for place in range(7):
                canvas.stroke(name, left + 3 + 3 * place, middle - 5, middle + 5, None)
        elif kind == "line":
            canvas.line(name, left + 1, middle, left + 23, middle)
        else:
            height = {"bar": 9, "thin": MessageLane.strip, "rest": MessageLane.still}[kind]
            canvas.bar("bar" if kind == "bar" else "marked", name, left + 1, middle - height / 2, left + 23, height)


def svg(board, made, states, title):
    """The whole picture as one SVG."""
    scene = Scene(board, made, states)
    return Page(scene, title).text(scene.groups)


def shared_out(groups, room):
    """Groups in lists whose lanes are together no higher than `room`; a group that is higher by itself is cut."""
    pages, used = [[]], 0
    for group in groups:
        if used and used + GAP + sum(lane.height for lane in group) > room:
            pages.append([])
            used = 0
        pages[-1].append([])
        used += GAP
        for lane in group:
            if pages[-1][-1] and used + lane.height > room:
                pages.append([[]])
                used = GAP
            pages[-1][-1].append(lane)
            used += lane.height
    return pages


def pictures(scene, title):
    """The picture in SVGs for the pages of one HTML file: the first has style and patterns for all, the last the legend."""
    room = scene.width * PAGE_RATIO - (HEAD + 2 * AXIS + LAYER + GAP + FOOT)
    pages = shared_out(scene.groups, room)
    last = len(pages) - 1
    return [Page(scene, f"{title}, picture {place + 1} of {last + 1}" if last else title, place == last, place == 0).text(groups)
            for place, groups in enumerate(pages)]
