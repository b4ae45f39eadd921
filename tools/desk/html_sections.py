"""The tables of a report, each from the run and the board to HTML."""
from html import escape

from . import bits
from .gaps import gaps
from .network import MODES, TRANSFERS
from .records import NONE, SEND
from .report_words import escaped, refusal, refused, spaced
from .sections import plain
from .sheet import sheet
from .words import counted, identifier


class Markup(str):
    """Text that is HTML already."""


class Wide(Markup):
    """HTML that stands in two columns."""


def cell(content):
    columns = " colspan=\"2\"" if isinstance(content, Wide) else ""
    return f"<td{columns}>{content if isinstance(content, Markup) else escaped(content)}</td>"


def table(kind, heads, rows, nothing):
    """A table, or a sentence where it has no rows."""
    if not rows:
        return f"<p>{escaped(nothing)}</p>\n"
    head = "".join(f"<th scope=\"col\">{escaped(name)}</th>" for name in heads)
    body = "".join("<tr>" + "".join(map(cell, row)) + "</tr>\n" for row in rows)
    return f"<table class=\"{kind}\">\n<thead><tr>{head}</tr></thead>\n<tbody>\n{body}</tbody>\n</table>\n"


def section(name, body):
    return f"<section>\n<h2>{escaped(name)}</h2>\n{body}</section>\n"


def folded(name, count, body):
    """A section that a reader may fold; it is open at first, and in print."""
    return f"<section>\n<details open>\n<summary><h2>{escaped(name)}</h2> <span>{count:,}</span></summary>\n{body}</details>\n</section>\n"


def without_unit(scaling, raw):
    return scaling.names[raw] if raw in scaling.names else scaling.number(raw)


def shown_at(reading, value, clock):
    """A value and its time; between them a word where it is not expected."""
    side = reading.side(value)
    mark, words = (" class=\"bad\"", f"<small class=\"bad\">{side} the expected</small> ") if side else ("", "")
    return Markup(f"<b{mark}>{escaped(without_unit(reading.entry.scaling, value.raw))}</b> {words}<small>at {escaped(clock.words(value.at))}</small>")


def expected_words(of):
    """What people may expect of a message, in its unit."""
    if of.minimum is None:
        return "" if of.maximum is None else f"{plain(of.maximum)} or less"
    return f"{plain(of.minimum)} or more" if of.maximum is None else f"{plain(of.minimum)} to {plain(of.maximum)}"


def outside_lines(reading, clock):
    """What the summary says of readings that are not expected. Those of a queue have the times at which they were taken, which say nothing of how long."""
    scaling, of = reading.entry.scaling, reading.entry.of
    lines = []
    for side, bound in (("below", of.minimum), ("above", of.maximum)):
        count, ticks = reading.outside(side, clock.ticks - 1)
        if not count:
            continue
        decimals = max(scaling.decimals(), -bound.normalize().as_tuple().exponent)
        how_long = "" if reading.is_queued else f", for {clock.words(ticks)}"
        lines.append(f"{spaced(reading.entry.name)}: {side} the expected {f'{bound:.{decimals}f} {scaling.unit}'.rstrip()} "
                     f"in {how_many(reading, count)}{how_long}")
    return lines


def how_many(reading, count):
    """Behind a filter a second arrival of the same value may not be seen; a request is no frame on the bus before it is confirmed."""
    at_least = "" if reading.is_sent or reading.is_queued or reading.passes_all else "at least "
    return at_least + counted(count, "requested frame" if reading.is_sent else "reading")


def tally(reading):
    """How many readings there were."""
    if reading.is_sent and reading.entry.record.ipdu == NONE:
        return "sent inside, in no frame"
    if reading.is_sent:
        return f"in {how_many(reading, len(reading.samples))}" if reading.samples else "in no requested frame"
    verb = "taken" if reading.is_queued else "arrived"
    strays = " from a queue, also from frames that do not hold it" if reading.may_have_strays else ""
    return f"{how_many(reading, len(reading.samples))} {verb}{strays}" if reading.samples else f"no reading {verb}"


def reading_rows(readings, clock):
    rows = []
    for reading in readings:
        name = Markup(f"{escaped(reading.entry.name)}" + (f"<br><small>{escaped(reading.entry.of.comment)}</small>" if reading.entry.of.comment else ""))
        if not reading.samples:
            rows.append([name, "-", "-", expected_words(reading.entry.of), "-", "-", reading.entry.scaling.unit, tally(reading)])
            continue
        span = [names_seen(reading)] if reading.is_named else [shown_at(reading, value, clock) for value in reading.extremes()]
        ends = [shown_at(reading, value, clock) for value in (reading.samples[0], reading.samples[-1])]
        rows.append([name, *span, expected_words(reading.entry.of), *ends, reading.entry.scaling.unit, tally(reading)])
    return rows


def names_seen(reading):
    return Wide(escaped(", ".join(without_unit(reading.entry.scaling, raw) for raw in reading.seen())))


def reading_table(readings, clock):
    heads = ["reading", "least", "greatest", "expected", "first", "last", "unit", "how many"]
    return table("readings", heads, reading_rows(readings, clock), "The node has no messages.")


def changes(readings):
    """(reading, the value before, the value, the next change or None) of readings with named values, in the order of time."""
    found = [(reading, *change) for reading in readings if reading.is_named for change in reading.changes()]
    return sorted(found, key=lambda change: change[2].line)


def change_table(found, clock):
    rows = []
    for reading, before, value, following in found:
        values = [without_unit(reading.entry.scaling, each.raw) for each in (before, value)]
        rows.append([clock.words(value.at), reading.entry.name, *values, stayed(reading, value, following, clock)])
    note = "<p>What was taken from a queue has the time at which it was taken.</p>\n" if any(reading.is_queued for reading, *_ in found) else ""
    return note + table("changes", ["time", "reading", "from", "to", "stayed"], rows, "No reading with named values changed.")


def stayed(reading, value, following, clock):
    """How long a change lasted. Of two values that were taken from a queue in one tick it is not known when they came."""
    ticks = int(following.at if following else clock.ticks - 1) - int(value.at)
    if reading.is_queued and following and not ticks:
        return "not known: taken with the next"
    return clock.words(ticks) + ("" if following else ", to the end")


def numbered(entry, value):
    """A value of the sheet; one with a name as number and name, since least and greatest are those of the numbers."""
    return f"{value} {entry.scaling.names[value]}" if value in entry.scaling.names else entry.text(value)


def sheet_table(board, made):
    rows = []
    for row in sheet(board, made):
        values = ["-" if value is None else numbered(row.entry, value) for value in (row.first, row.last, row.least, row.greatest)]
        rows.append([row.entry.number, row.entry.name, f"{row.drained:,}", *values, f"{row.overflows:,}", f"{row.errors:,}"])
    return table("sheet", ["number", "message", "drained", "first", "last", "least", "greatest", "overflows", "errors"], rows, "The node has no queue.")


# the table

def ipdu_words(board, record):
    """What an I-PDU's record says."""
    def time(ticks):
        return f"{board.network.milliseconds(ticks)} ms"

    if record.direction != SEND:
        first = f", the first after a start {time(record.first_deadline)}" if record.first_deadline else ""
        return f"received; {f'deadline {time(record.deadline)}{first}' if record.deadline else 'no deadline'}"
    period = f", every {time(record.period)}, first after {time(record.offset)}" if record.period else ""
    delay = f"; minimum delay {time(record.minimum_delay)}" if record.minimum_delay else ""
    return f"sent, {MODES[record.mode]}{period}{delay}; deadline {time(record.deadline)}"


def ipdu_table(board):
    rows = [[number, ipdu.name, identifier(ipdu), counted(ipdu.length, "byte"), ipdu_words(board, record), ipdu.comment]
            for number, (ipdu, record) in enumerate(zip(board.ipdus, board.ipdu_records))]
    return table("ipdus", ["number", "I-PDU", "identifier", "length", "behaviour", "comment"], rows, "The node has no I-PDUs.")


def place_words(board, entry):
    record = entry.record
    sign = "signed" if record.signed else "unsigned"
    if record.ipdu != NONE:
        return f"{board.ipdu_name(record.ipdu)}: {counted(record.bits, 'bit')} from bit {record.start}, {'big' if record.big else 'little'}, {sign}"
    return (f"inside, from {board.object_name(record.sender)}" if record.sender != NONE else "in no I-PDU") + f", {sign}"


def meaning_words(scaling):
    names = ", ".join(f"{raw} is {name}" for raw, name in scaling.names.items())
    offset = f" {'-' if scaling.offset < 0 else '+'} {plain(abs(scaling.offset))}" if scaling.offset else ""
    scale = f"raw value * {plain(scaling.factor)}{offset}" if scaling.factor != 1 or scaling.offset else ""
    unit = f"in {scaling.unit}" if scaling.unit else ""
    return "; ".join(words for words in (", ".join(words for words in (scale, unit) if words), names) if words)


def behaviour_words(entry):
    record = entry.record
    kind = f"sent, {TRANSFERS[record.transfer]}" if record.kind == SEND else "received"
    queue = f", queue of {record.depth}" if record.depth else ""
    return f"{kind}{queue}; filter {entry.filter().words(entry.scaling, record.signed)}; initial value {entry.text(record.initial)}"


def message_table(board):
    rows = [[entry.number, entry.name, place_words(board, entry), meaning_words(entry.scaling), behaviour_words(entry), entry.of.comment]
            for entry in board.objects]
    return table("messages", ["number", "message", "place", "meaning", "behaviour", "comment"], rows, "The node has no messages.")


def bits_pictures(board):
    """Where the messages of each I-PDU lie in it."""
    pictures = []
    for number, ipdu in enumerate(board.ipdus):
        lines = bits.picture(ipdu.length, [(entry.name, entry.record.start, entry.record.bits, entry.record.big) for entry in board.carried(number)])
        text = escape("\n".join(lines))
        pictures.append(f"<figure class=\"bits\"><figcaption>{escaped(ipdu.name)}</figcaption><pre>{text}</pre></figure>\n")
    return f"<h3>Bits</h3>\n<div class=\"all-bits\">\n{''.join(pictures)}</div>\n" if pictures else ""


# what happened

def faults(lanes, spans, clock):
    """(first event, last event, I-PDU's number, what) of missed deadlines and errors, in the order of time."""
    words = {"no_confirm": "not sent, as its confirm says", "error": "received with an error"}
    found = [(event, event, lane.number, words[event.what]) for lane in lanes for event in lane.events if event.what in words]
    found += [(gap.missed[0], gap.missed[-1], lane.number, f"{counted(len(gap.missed), 'deadline')} missed, {gap.words(clock)}")
              for lane in lanes for gap in gaps(lane, spans)]
    return sorted(found, key=lambda fault: (fault[0].at, fault[2]))


def fault_table(board, lanes, spans, clock):
    rows = []
    for first, last, number, what in faults(lanes, spans, clock):
        lines = first.line if first is last else f"{first.line} to {last.line}"
        rows.append([clock.span(first.at, last.at), lines, board.ipdu_name(number), what, ", ".join(entry.name for entry in board.carried(number))])
    return table("faults", ["time", "line", "I-PDU", "what", "messages"], rows, "No deadline was missed, and no frame was wrong.")


def gap_lines(board, lanes, spans, clock):
    """What the summary says of missed deadlines, a line for each I-PDU that has some."""
    lines = []
    for lane in lanes:
        found = gaps(lane, spans)
        if found:
            longest = clock.words(max(gap.ticks(clock) for gap in found))
            lines.append(f"I-PDU {board.ipdu_name(lane.number)}: {counted(sum(len(gap.missed) for gap in found), 'deadline')} missed, "
                         f"no {found[0].lacks()} for {longest}{' at most' if len(found) > 1 else ''}")
    return lines or ["No deadline was missed"]


def call_text(step):
    """A call as its script has it."""
    frame = [step.frame.hex().upper()] if step.frame else []
    return " ".join([step.call, *map(str, step.numbers), *frame])


def refused_table(made, clock):
    rows = [[clock.words(step.at), step.line, call_text(step), refusal(step.status)] for step in refused(made)]
    return table("refused", ["time", "line", "call", "answer"], rows, "No call was refused.")


def frames(lanes):
    """(time, line, direction, I-PDU's number, bytes) of all frames, in the order of the calls."""
    directions = {"request": "requested", "indication": "received"}
    return sorted((event.at, event.line, directions[event.what], lane.number, event.frame) for lane in lanes for event in lane.events
                  if event.what in directions)


def frame_table(board, lanes, clock):
    carried = [board.carried(number) for number in range(len(board.ipdus))]
    rows = []
    for at, line, direction, number, frame in frames(lanes):
        values = "".join(f"<span class=\"carried\"><i>{escaped(entry.name)}</i> <b>{escaped(entry.scaling.text(entry.of.in_frame(frame)))}</b></span> "
                         for entry in carried[number] if entry.of.is_in(frame))
        rows.append([clock.words(at), line, direction, identifier(board.ipdus[number]), board.ipdus[number].name,
                     Markup(f"<code>{frame.hex(' ').upper()}</code>"), Markup(values.rstrip())])
    return table("frames", ["time", "line", "direction", "identifier", "I-PDU", "bytes", "values"], rows, "No frame was requested or received.")
