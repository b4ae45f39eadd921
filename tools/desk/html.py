"""The report of a journey for a lender: one HTML file that needs nothing else, to read on a screen and to print."""
import os
from collections import Counter

from . import html_sections as parts
from .records import NONE, SEND
from .report_words import escaped, is_empty, left_in_queues, lost, refusal, refused, spaced, titled
from .svg import Scene, pictures
from .words import counted, joined

STYLE = """
:root{color:#1c2730;background:#fff;font:15px/1.45 Arial,Helvetica,'Liberation Sans','DejaVu Sans',sans-serif}
body{max-width:1180px;margin:0 auto;padding:28px 32px 48px;overflow-wrap:break-word}
h1{font-size:27px;line-height:1.2;margin:0 0 4px}
h2{font-size:19px;margin:36px 0 10px;break-after:avoid}
h3{font-size:15px;margin:22px 0 8px;break-after:avoid}
.of{color:#56626c;margin:0 0 20px}
.facts{display:grid;grid-template-columns:max-content 1fr;gap:4px 24px;margin:0;border-top:2px solid #1c2730;padding-top:12px}
.facts dt{color:#56626c}
.facts dt{grid-column:1}
.facts dd{margin:0;grid-column:2}
.bad{font-weight:bold;color:#a33f00}
.summary{padding-left:20px}
.summary li{margin:3px 0}
table{border-collapse:collapse;width:100%;font-size:13px}
thead{display:table-header-group}
th{text-align:left;color:#56626c;font-weight:normal;border-bottom:1.5px solid #1c2730;padding:4px 10px 4px 0;vertical-align:bottom}
td{border-bottom:1px solid #dde2e6;padding:4px 10px 4px 0;vertical-align:top}
tr{break-inside:avoid}
td small{color:#56626c;white-space:nowrap}
.readings td,.sheet td,.changes td,.frames td:first-child,.faults td:first-child,.refused td:first-child{font-variant-numeric:tabular-nums}
.readings td b{font-weight:bold;display:inline-block;min-width:3.2em}
.frames td:nth-child(-n+4),.frames code{white-space:nowrap}
code,pre{font-family:'DejaVu Sans Mono','Liberation Mono',Consolas,monospace;font-size:12px}
.carried{display:inline-block;margin-right:14px}
.carried i{font-style:normal;color:#56626c}
.carried b{font-weight:normal}
.picture{margin:0 0 12px;break-inside:avoid}
.picture svg{display:block;width:100%;height:auto}
.all-bits{display:flex;flex-wrap:wrap;gap:8px 40px}
.bits{margin:8px 0;break-inside:avoid}
.bits figcaption{font-weight:bold;font-size:13px}
.bits pre{margin:4px 0;white-space:pre-wrap}
summary{cursor:pointer}
summary h2{display:inline-block;margin-right:10px}
summary span,.note{color:#56626c}
.note{break-inside:avoid;margin-top:40px;border-top:1px solid #aeb7be;padding-top:10px;font-size:13px}
@page{size:A4;margin:16mm 15mm 18mm;@bottom-right{content:counter(page) " / " counter(pages);font:9pt Arial,sans-serif;color:#56626c}}
@page wide{size:A4 landscape;margin:11mm 11mm 14mm}
@media print{
:root{font-size:10pt}
body{max-width:none;padding:0}
table{font-size:8.5pt}
code,pre{font-size:8pt}
.pictures{page:wide;break-before:page;break-after:page}
.pictures h2{margin-top:0}
.picture svg{max-height:172mm}
summary{list-style:none}
details::details-content{content-visibility:visible;display:block}
}
"""
PROVED = ("The values, marks and requests of this page are the answers of the proved interaction layer over this node's table and this journey's calls. "
          "Open requests, delays and missed deadlines are worked out from these by the layer's rules. The picture and the page are made by a program that is "
          "tested, not proved.")


def facts(board, made, states, clock, lanes, unread, script, begin):
    """(name, words, whether it is bad) for the head."""
    count = Counter(event.what for lane in lanes for event in lane.events)
    statuses, empty = Counter(step.status for step in refused(made)), sum(map(is_empty, made))
    left = left_in_queues(made, states)
    late = sum(event.what == "deadline" for lane in lanes if lane.record.direction == SEND for event in lane.events)
    missed, overflows = count["deadline"], len(lost(made)) + sum(losses for *_, losses in left)
    rows = [
        ("Network", board.network.title, False), ("Node", board.node, False), ("Tick", f"{board.network.milliseconds(1)} ms", False),
        *([("Begins", begin, False)] if begin is not None else []),
        ("Length", f"{clock.length()}, {counted(clock.ticks - 1, 'tick')}", False), ("Calls", f"{len(made):,}", False),
        ("Frames to send", f"{count['request']:,} requested, {count['confirm']:,} confirmed, {count['no_confirm']:,} not sent, {late:,} past their deadline",
         False),
        ("Frames received", f"{count['indication']:,} good, {count['error']:,} with an error", False),
        ("Deadlines missed", f"{missed:,}" if missed else "none", bool(missed)),
        ("Lost values", f"at least {overflows:,}, as receives and queues said" if overflows else "none seen", bool(overflows)),
    ]
    rows += [("Values not taken", f"{board.object_name(number)}: {words}", True) for number, words, _ in left]
    rows += [("Empty queues", f"found by {counted(empty, 'receive')}", False)] if empty else []
    refusals = [f"{number:,} with {refusal(status)}" for status, number in sorted(statuses.items())]
    rows += [("Calls refused", words, False) for words in refusals or ["none"]]
    rows += [("Script", os.path.basename(script), False)] if script is not None else []
    return rows + ([("Script", f"ends at line {unread}, which can't be read", True)] if unread is not None else [])


def head(title, rows):
    """Rows of one name follow each other, and have it once."""
    kinds = {True: " class=\"bad\"", False: ""}
    names = [name for name, _, _ in rows]
    terms = [f"<dt>{escaped(name)}</dt>" if place == names.index(name) else "" for place, name in enumerate(names)]
    entries = "".join(f"{term}<dd{kinds[is_bad]}>{escaped(words)}</dd>\n" for term, (_, words, is_bad) in zip(terms, rows))
    return f"<header>\n<h1>{escaped(title)}</h1>\n<p class=\"of\">Report of a journey</p>\n<dl class=\"facts\">\n{entries}</dl>\n</header>\n"


def sentence(reading):
    """A reading in plain words."""
    name, scaling = spaced(reading.entry.name), reading.entry.scaling
    if not reading.samples:
        return f"{name}: {parts.tally(reading)}"
    least, greatest = reading.extremes()
    if reading.is_named:
        span = joined([scaling.text(raw) for raw in reading.seen()])
    elif least.raw == greatest.raw:
        span = f"{reading.text(least)} throughout"
    else:
        span = f"{parts.without_unit(scaling, least.raw)} to {reading.text(greatest)}"
    return f"{name}: {span}, last {reading.text(reading.samples[-1])}, {parts.tally(reading)}"


def is_unsent(reading):
    """Whether it is of a message for frames, and no frame with it was requested."""
    return reading.is_sent and reading.entry.record.ipdu != NONE and not reading.samples


def summary(board, scene, made, states):
    """The journey in plain words, a line for each reading and each trouble."""
    lines = [] if scene.starts else ["The layer was never started"]
    lines += [sentence(reading) for reading in scene.readings if not is_unsent(reading)]
    lines += [line for reading in scene.readings for line in parts.outside_lines(reading, scene.clock)]
    unsent = [spaced(reading.entry.name) for reading in scene.readings if is_unsent(reading)]
    lines += [f"No reading of: {joined(unsent)}, in no requested frame"] if unsent else []
    lines += parts.gap_lines(board, scene.lanes, scene.spans, scene.clock)
    overflows = Counter(step.numbers[0] for step in lost(made))
    lines += [f"{spaced(board.object_name(number))}: values were lost, at least {count}" for number, count in overflows.items()]
    lines += [f"{spaced(board.object_name(number))}: {words}" for number, words, _ in left_in_queues(made, states)]
    return "<ul class=\"summary\">\n" + "".join(f"<li>{escaped(line)}</li>\n" for line in lines) + "</ul>\n"


def changes_section(readings, clock):
    """Left out where no reading has named values."""
    found = parts.changes(readings)
    return [parts.folded("Changes", len(found), parts.change_table(found, clock))] if any(reading.is_named for reading in readings) else []


def picture_section(scene, title):
    """On pages of its own in print."""
    figures = "".join(f"<figure class=\"picture\">\n{drawing}</figure>\n" for drawing in pictures(scene, title))
    return f"<section class=\"pictures\">\n<h2>Picture</h2>\n{figures}</section>\n"


def html(board, made, states, title, unread=None, script=None, begin=None):
    """The report. `unread` is the number of the script's line that can't be read, where the run ended at one; `script` is the script's file and `begin` says
    when the journey began, where these are known."""
    title, scene = titled(title), Scene(board, made, states)
    clock, lanes = scene.clock, scene.lanes
    sections = [
        head(title, facts(board, made, states, clock, lanes, unread, script, begin)),
        parts.section("Summary", summary(board, scene, made, states)),
        parts.section("Readings", "<p>A frame carries the latest value of each of its messages, at first the initial one. Times are those of the tick "
                      "before; a reading from a queue has the time at which it was taken, not at which it came. One "
                      "that is not expected is taken to last until the next.</p>\n" + parts.reading_table(scene.readings, clock)),
        *changes_section(scene.readings, clock),
        parts.section("Sheet", parts.sheet_table(board, made)),
        picture_section(scene, title),
        parts.section("Missed deadlines and errors", parts.fault_table(board, lanes, scene.spans, clock)),
        parts.folded("Refused calls", len(refused(made)), parts.refused_table(made, clock)),
        parts.section("Table", "<h3>I-PDUs</h3>\n" + parts.ipdu_table(board) + "<h3>Messages</h3>\n" + parts.message_table(board)
                      + parts.bits_pictures(board)),
        parts.folded("Frames", len(parts.frames(lanes)), parts.frame_table(board, lanes, clock)),
    ]
    return (f"<!DOCTYPE html>\n<html lang=\"en\">\n<head>\n<meta charset=\"utf-8\">\n<meta name=\"viewport\" content=\"width=device-width\">\n"
            f"<title>{escaped(title)}</title>\n<style>{STYLE}</style>\n</head>\n<body>\n{''.join(sections)}<p class=\"note\">{PROVED}</p>\n</body>\n</html>\n")
