"""For the test of reports: a report is read back, and its tables, head and summary are compared with what the test works out of the run itself."""
import os
import re
from collections import Counter
from html import escape
from html.parser import HTMLParser

from desk.layer import DRIVE, drive
from journeys import changes_of, has_names, in_time, in_units, is_held, raw_in, samples_of, ticks_to, time_of

VOID = {"meta", "br"}
OUTSIDE = re.compile(r"https?:|//|@import|<script|<link|<image|<img|<iframe|<object|\bhref|\bsrc=|<!ENTITY|javascript:")


def check_references(journey, what, text, root):
    """No address, script, style sheet or file of elsewhere."""
    ids = {element.get("id") for element in root.iter()} if root is not None else set(re.findall(" id=\"([^\"]*)\"", text))
    for target in re.findall(r"url\(([^)]*)\)", text):
        if target[0] != "#" or target[1:] not in ids:
            journey.fail(f"{what} refers to {target}")
    rest = text.replace("xmlns=\"http://www.w3.org/2000/svg\"", "")
    found = OUTSIDE.search(re.sub(r">[^<]*</(?:text|title|h1|td|li|dd)>", "", rest))
    if found:
        journey.fail(f"{what} has {found[0]!r}")


class Reader(HTMLParser):
    """Checks that tags are closed, and gathers the cells of tables by their class, and the text."""

    def __init__(self, journey):
        super().__init__()
        self.journey, self.open, self.tables, self.words, self.ids = journey, [], {}, [], Counter()
        self.rows = None

    def handle_starttag(self, tag, attributes):
        values = dict(attributes)
        self.ids[values.get("id")] += 1
        if tag not in VOID:
            self.open.append(tag)
        if tag == "table":
            self.rows = self.tables.setdefault(values["class"], [])
        elif tag == "tr":
            self.rows.append([])
        elif tag in ("td", "th"):
            self.rows[-1].append([])

    def handle_startendtag(self, tag, attributes):
        self.ids[dict(attributes).get("id")] += 1

    def handle_endtag(self, tag):
        if not self.open or self.open.pop() != tag:
            self.journey.fail(f"the report closes <{tag}> where it is not open, at {self.getpos()}")

    def handle_data(self, data):
        self.words.append(data)
        if {"td", "th"} & set(self.open) and data.strip():
            self.rows[-1][-1].append(data.strip())


def check_html(journey, expected, met):
    """How many values were compared; `met` counts kinds of cases."""
    reader = Reader(journey)
    reader.feed(journey.html)
    reader.close()
    if reader.open or not journey.html.startswith("<!DOCTYPE html>\n<html lang=\"en\">"):
        journey.fail(f"the report leaves {reader.open} open")
    twice = [name for name, count in reader.ids.items() if name and count > 1]
    if twice:
        journey.fail(f"the report has {twice} as an id twice")
    check_references(journey, "the report", journey.html, None)
    if ("The layer was never started" in journey.html) == any(step.call == "start" for step in journey.made):
        journey.fail("the report is wrong on whether there was a start")
    cut = re.findall("ends at line ([0-9]+), which", journey.html)
    if cut != (["3"] if journey.title == "Cut" else []):
        journey.fail(f"the report says of lines that can't be read: {cut}")
    for term, wanted in (("Script", journey.file and escape(os.path.basename(journey.file))), ("Begins", journey.begin and escape(journey.begin))):
        said = re.findall(f"<dt>{term}</dt><dd>(.*)</dd>", journey.html)
        if said != [wanted] * (wanted is not None):
            journey.fail(f"the head says of {term} {said}, and should say {wanted}")
    rows = reader.tables.get("frames", [[]])[1:]
    if len(rows) != len(expected.frames):
        journey.fail(f"the report has {len(rows)} frames, the run {len(expected.frames)}")
    shown = sorted((int(row[1][0]), row[2][0], row[4][0], row[5][0], tuple(row[6])) for row in rows)
    directions = {1: "requested", 2: "received"}
    worked_out = sorted((line, directions[expected.records[number].direction], ipdu.name, frame.hex(" ").upper(), tuple(values_of(journey, number, frame)))
                        for line, number, frame in expected.frames for ipdu in [journey.board.ipdus[number]])
    for one, other in zip(shown, worked_out):
        if one != other:
            journey.fail(f"a frame of the report is {one}, and should be {other}")
    return sum(len(values) // 2 for *_, values in shown) + check_readings(journey, expected, reader.tables, met)


def values_of(journey, number, frame):
    """Names and values of the messages that a frame holds, alternating."""
    for entry in journey.board.objects:
        if entry.record.ipdu == number and is_held(journey.messages, entry.name, frame):
            yield entry.name
            yield in_units(journey.messages[entry.name], raw_in(journey.messages[entry.name], frame))


def check_readings(journey, expected, tables, met):
    """Rows of the readings that are sent, taken, or received with no filter, and of the sheet; how many faults and refused calls there are."""
    refused = sum(step.status != 0 and (step.call, step.status) not in (("receive", 3), ("receive", 4)) for step in journey.made)
    bad = expected.counts["no_confirm"] + expected.counts["error"] + len(expected.gaps)
    for name, count in (("refused", refused), ("faults", bad)):
        if max(0, len(tables.get(name, [])) - 1) != count:
            journey.fail(f"the report's table {name} has not {count} rows")
    shown = {row[0][0]: row for row in tables["readings"][1:]}
    sheet = {row[1][0]: row for row in tables.get("sheet", [])[1:]}
    compared = 0
    for entry in journey.board.objects:
        message, samples = journey.messages[entry.name], samples_of(journey, expected, entry)
        if samples is None:
            continue
        values = [min(samples, key=lambda each: each[1]), max(samples, key=lambda each: each[1]), samples[0], samples[-1]] if samples else []
        wanted = [[in_units(message, raw, False), *side_words(message, raw), time_of(journey, line)] for line, raw in values] or [["-"]] * 4
        if samples and has_names(message, samples):
            wanted[:2] = [[", ".join(in_units(message, raw) for raw in dict.fromkeys(raw for _, raw in samples))]]
        wanted.insert(-2, expected_range(message))
        if shown[entry.name][1:-2] != wanted or not shown[entry.name][-1][0].startswith(tally(entry, len(samples))):
            journey.fail(f"the report's row of {entry.name} is {shown[entry.name]}, and should have {wanted} and {len(samples)}")
        texts = [numbered(message, values[place][1]) for place in (2, 3, 0, 1)] if samples else ["-"] * 4
        if entry.record.depth and [cell[0] for cell in sheet[entry.name][2:7]] != [f"{len(samples):,}", *texts]:
            journey.fail(f"the sheet's row of {entry.name} is {sheet[entry.name]}, and should have {len(samples)} and {texts}")
        if ("do not hold it" in shown[entry.name][-1][0]) != ("multiplexor" in message and entry.record.depth > 0 and len(samples) > 0):
            journey.fail(f"the report is wrong on whether values of {entry.name} are those of frames that do not hold it")
        compared += 1
    check_queues(journey, met)
    check_sent(journey, expected)
    check_outside(journey, expected, met)
    check_gaps(journey, expected, tables.get("faults", [])[1:], met)
    changes = check_changes(journey, expected, tables.get("changes", [])[1:])
    met["a change"] += changes
    met["taken with the next"] += "taken with the next" in journey.html
    return compared + changes


def statuses_at(journey, place, queued):
    """What drive answers to a status of each queue before a call, or before the stop where the layer was stopped then."""
    turns = [(turn, step.call) for turn, step in enumerate(journey.made[:place]) if step.call in ("start", "stop") and step.status == 0]
    end = turns[-1][0] if turns and turns[-1][1] == "stop" else place
    asked = [*journey.script.split("\n")[:end], *(f"status {number}" for number in queued)]
    return dict(zip(queued, drive(DRIVE, journey.board.table, "".join(line + "\n" for line in asked)).split("\n")[end:-1], strict=True))


def check_queues(journey, met):
    """What the head and the summary say of values that nobody took, beside the statuses at the end and before what empties a queue."""
    queued = [entry.number for entry in journey.board.objects if entry.record.depth]
    emptied = {number: [] for number in queued}
    for place, step in enumerate(journey.made):
        if step.status == 0 and step.call in ("start", "initialise"):
            for number, status in statuses_at(journey, place, queued if step.call == "start" else [each for each in queued if each == step.numbers[0]]).items():
                emptied[number].append(status)
    last = statuses_at(journey, len(journey.made), queued)
    left = []
    for number in queued:
        for statuses, words, kind in ((emptied[number], "its queue was emptied by a start or an initialise, with values that nobody took", "emptied"),
                                      ([last[number]], "values wait in its queue that nobody took", "left")):
            if {"0", "3"} & set(statuses):
                left.append((journey.board.objects[number].name, words + ", and values were lost" * ("3" in statuses)))
            met[f"values {kind}"] += statuses.count("0")
            met[f"values {kind} and lost"] += statuses.count("3")
    head = re.findall("<dd class=\"bad\">(.*): (values wait .*|its queue was .*)</dd>", journey.html)
    summary = re.findall("<li>.*: (values wait .*|its queue was .*)</li>", journey.html)
    if head != left or summary != [words for _, words in left]:
        journey.fail(f"the report says of queues {head} and {summary}, and should say {left}")
    lost = sum(step.call == "receive" and step.status == 3 for step in journey.made) + [*last.values(), *sum(emptied.values(), [])].count("3")
    said = re.findall("<dt>Lost values</dt><dd.*>(?:at least )?(none seen|[0-9,]*[0-9])", journey.html)
    if said != [f"{lost:,}" if lost else "none seen"]:
        journey.fail(f"the report says of lost values {said}, and should say {lost}")
    met["no lost values"] += not lost


def tally(entry, count):
    """The words for so many readings."""
    if entry.record.kind == 1:
        return f"in {count:,} requested frame{'s' * (count > 1)}" if count else "in no requested frame"
    verb = "taken" if entry.record.depth else "arrived"
    return f"{count:,} reading{'s' * (count > 1)} {verb}" if count else f"no reading {verb}"


def side_of(message, raw):
    """Where a value with no name lies beside what is expected."""
    value = raw * message.get("factor", 1) + message.get("offset", 0)
    if str(raw) in message.get("values", {}):
        return None
    return "below" if "minimum" in message and value < message["minimum"] else "above" if "maximum" in message and value > message["maximum"] else None


def side_words(message, raw):
    side = side_of(message, raw)
    return [f"{side} the expected"] if side else []


def expected_range(message):
    """The cell of it."""
    least, greatest = message.get("minimum"), message.get("maximum")
    if least is None:
        return [] if greatest is None else [f"{greatest} or less"]
    return [f"{least} or more" if greatest is None else f"{least} to {greatest}"]


def check_outside(journey, expected, met):
    """The summary's lines of readings that are not expected, by name, how many and how long."""
    wanted = []
    for entry in journey.board.objects:
        message, samples = journey.messages[entry.name], samples_of(journey, expected, entry) or []
        ends = [ticks_to(journey, line) for line, _ in samples[1:]] + [len(journey.ticks)]
        for side in ("below", "above"):
            ticks = [end - ticks_to(journey, line) for (line, raw), end in zip(samples, ends) if side_of(message, raw) == side]
            what = f"{'requested frame' if entry.record.kind == 1 else 'reading'}{'s' * (len(ticks) != 1)}"
            long = "" if entry.record.depth else f", for {in_time(journey, sum(ticks))}"
            wanted += [(side, f"in {len(ticks):,} {what}{long}")] * bool(ticks)
            met[f"{side} the expected"] += len(ticks)
    found = re.findall("<li>[^:]*: (below|above) the expected [0-9.]+ [^ ]* (in .*)</li>", journey.html)
    if found != wanted:
        journey.fail(f"the summary says of readings that are not expected {found}, and should say {wanted}")


def gap_row(journey, expected, gap):
    """Its time, line and words."""
    lines, begin = gap["lines"], in_time(journey, ticks_to(journey, gap["begin"]))
    first, last = (in_time(journey, ticks_to(journey, line)) for line in (lines[0], lines[-1]))
    until = "the end" if gap["end"] is None else in_time(journey, ticks_to(journey, gap["end"]))
    many = len(lines) > 1
    what = "confirm" if expected.records[gap["ipdu"]].direction == 1 else "frame"
    return [f"{first.split()[0]} to {last}" if many else first, f"{lines[0]} to {lines[-1]}" if many else str(lines[0]), journey.board.ipdus[gap["ipdu"]].name,
            f"{len(lines):,} deadline{'s' * many} missed, no {what} from {begin} to {until}"]


def check_gaps(journey, expected, rows, met):
    """The rows of missed deadlines, and what the summary says of them."""
    shown = sorted([cell[0] for cell in row[:4]] for row in rows if "missed" in row[3][0])
    wanted = sorted(gap_row(journey, expected, gap) for gap in expected.gaps)
    if shown != wanted:
        journey.fail(f"the report's missed deadlines are {shown}, and should be {wanted}")
    found = re.findall("<li>I-PDU .*: ([0-9,]+) deadlines? missed, no (?:frame|confirm) for (.*)</li>", journey.html)
    lines = []
    for ipdu in range(len(expected.records)):
        own = [gap for gap in expected.gaps if gap["ipdu"] == ipdu]
        ends = [len(journey.ticks) if gap["end"] is None else ticks_to(journey, gap["end"]) for gap in own]
        longest = max((end - ticks_to(journey, gap["begin"]) for gap, end in zip(own, ends)), default=0)
        count = sum(len(gap["lines"]) for gap in own)
        lines += [(f"{count:,}", in_time(journey, longest) + " at most" * (len(own) > 1))] * bool(own)
        met["several deadlines in one gap"] += sum(len(gap["lines"]) > 1 for gap in own)
        met["a gap to the end"] += sum(gap["end"] is None for gap in own)
    if found != lines:
        journey.fail(f"the summary says of missed deadlines {found}, and should say {lines}")


def check_sent(journey, expected):
    """The head's words of frames to send, and the summary's line of messages that no frame carried."""
    late = expected.counts["deadline of a request"]
    words = [f"{expected.counts[kind]:,} {said}" for kind, said in (("request", "requested"), ("confirm", "confirmed"), ("no_confirm", "not sent"))]
    head = f"<dt>Frames to send</dt><dd>{', '.join(words)}, {late:,} past their deadline</dd>"
    unsent = [entry for entry in journey.board.objects if entry.record.kind == 1 and samples_of(journey, expected, entry) == []]
    said = re.findall("<li>(.*)</li>\n", journey.html)
    lines = [place for place, line in enumerate(said) if line.startswith("No reading of: ")]
    names = [len(re.split(", | and ", said[place].removesuffix(", in no requested frame"))) for place in lines]
    if head not in journey.html or names != [len(unsent)] * bool(unsent):
        journey.fail(f"the report has no {head!r}, or has {names} messages with no reading, and not {len(unsent)}")
    last = max((place for place, line in enumerate(said) if re.search(": .*, last .*, (in |at least |[0-9])", line)), default=-1)
    if lines and lines[0] < last:
        journey.fail("messages with no reading stand before others in the summary")


def numbered(message, raw):
    """As the sheet has it."""
    return " ".join([str(raw)] * (str(raw) in message.get("values", {})) + [in_units(message, raw)])


def check_changes(journey, expected, rows):
    """Those of the messages whose samples the test knows."""
    samples = [(entry, samples_of(journey, expected, entry)) for entry in journey.board.objects]
    named = [(entry, found) for entry, found in samples if found is not None and has_names(journey.messages[entry.name], found)]
    wanted = sorted(change for entry, found in named for change in changes_of(journey, entry, found))
    names = [entry.name for entry, _ in named]
    shown = [[" ".join(cell) for cell in row] for row in rows if row[1][0] in names]
    if sorted(shown) != sorted(row for _, row in wanted) or [row[0] for row in shown] != [row[0] for _, row in wanted]:
        journey.fail(f"the report's changes are {shown}, and should be {[row for _, row in wanted]}")
    return len(shown)
