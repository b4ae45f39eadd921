#!/usr/bin/env python3
"""The picture and the report of a journey. docs/van.svg is byte for byte what is made from examples/van.toml, examples/van.script and a run of drive, which
prints examples/van.stdout. For the van, 5,000 ticks, the largest table, scripts that do little or nothing and awkward titles: the SVG is well-formed, refers
to nothing outside, has every request, confirm, indication, missed deadline, mark and dot that the test counts from the calls and answers itself, and its
texts lie inside and not on each other. The report's tags are closed, it refers to nothing outside, all frames are in it, and each value in units is what
the test's own walk over the bits gives; so are changes of named values, readings that are not expected, gaps with missed deadlines and what is left in queues,
also with messages that not each frame holds. Where chromium and poppler are on the machine, the report is opened and printed with no network. Needs
target/bin/drive."""
import os
import re
import shutil
import subprocess
import sys
import tempfile
import tomllib
import xml.etree.ElementTree as ElementTree
from collections import Counter
from decimal import Decimal

sys.dont_write_bytecode = True
TOP = os.path.join(os.path.dirname(os.path.abspath(__file__)), "..")
sys.path[:0] = [os.path.join(TOP, "tools"), os.path.join(TOP, "tests", "desk")]
from desk import html, layer, source, svg
from desk.readings import readings
from desk.run import unread_line
from journeys import PAGES, Expected, largest, wandering
from report_checks import check_html, check_references

DRIVE = os.path.join(TOP, "target", "bin", "drive")
SPACE = "{http://www.w3.org/2000/svg}"
KINDS = ["request", "confirm", "no_confirm", "indication", "error", "deadline", "given", "taken", "lost", "marked"]
MET = ["values left", "values left and lost", "values emptied", "values emptied and lost", "no lost values", "a change", "taken with the next",
       "below the expected", "above the expected", "several deadlines in one gap", "a gap to the end"]
LEAST_TEXT = 9
LEAST_RADIUS = 2.5 * 1988 / 1116  # of a dot where the widest picture fills a report of the usual width
MOST_WIDTH = 2000
AWKWARD = ["<&\">'", "Überführung der Gemälde, 12 °C", "A " + "very " * 200 + "long title", "W" * 500, "", "tab\tand\nline\x07bell", "貸出品の輸送",
           "]]>--><!--</svg></style>"]
SECONDS = 30  # of a browser, at most
IN_A_TIP = 8  # frames that a tip has the bytes of, at most
LONG = 5000  # ticks
# Of the van, worked out by hand from its script and what it prints.
SUMMARY = ["Front humidity: 45.0 to 61.4 %, last 50.1 %, in 7 requested frames", "Rear humidity: 45.0 to 59.9 %, last 45.1 %, in 7 requested frames",
           "Door: open and closed, last open, in 10 requested frames", "Case light: 200 to 1000 lx, last 200 lx, in 10 requested frames",
           "Shock: 0.07 to 0.08 g, last 0.08 g, 2 readings taken", "Wanted humidity: 51.2 to 55.0 %, last 51.2 %, at least 3 readings arrived",
           "Front display: 45.0 to 61.4 %, last 50.1 %, 7 readings arrived", "Freezer: -21 to -2 °C, last -2 °C, in 10 requested frames",
           "Freezer display: -41 to -21 °C, last -41 °C, 2 readings arrived", "Case freezer: -14 to 0 °C, last -14 °C, at least 2 readings arrived",
           "I-PDU Humidity: 1 deadline missed, no confirm for 0.5 s", "I-PDU Case: 6 deadlines missed, no frame for 2.6 s at most",
           "Shock: values were lost, at least 1",
           "Shock: values wait in its queue that nobody took"]

# Of the network with pages: frames for one page and for the other, one of which a filter drops, and sends of both pages.
BY_HAND = """start
indication 1 1 002A0000
initialise 6 0
tick
indication 1 1 01960200
indication 1 1 002B0000
tick
indication 1 1 00970000
tick
indication 1 1 01010100
indication 1 1 00030000
initialise 5 3
send 1 50
confirm 0 1
send 0 1
confirm 0 1
send 2 2
tick
receive 7
"""
DRAWN = {"Page": [0, 1, 1], "Warmth": [50], "Door": [2, 2], "CasePage": [0, 1, 0, 1, 0], "CaseWarmth": [0, 42, 43, 151, 3], "CaseDoor": [0, 2, 1, 3],
         "CaseLock": [], "CaseShock": [], "CaseSpare": [0, 151]}
OUTSIDE = ["Warmth: above the expected 22.5 °C in 1 requested frame, for 50 ms", "Case warmth: above the expected 60.0 °C in 1 reading, for 50 ms",
           "Case shock: below the expected 1.0 g in 1 reading"]


def fail(name, words):
    sys.exit(f"desk_pictures.py: {name}: {words}")


def contents(*path):
    with open(os.path.join(TOP, *path), encoding="utf-8") as file:
        return file.read()


class Journey:
    """A run with its picture and report."""

    def __init__(self, name, board, script, title, data):
        self.name, self.board, self.script, self.title, self.messages = name, board, script, title, data["message"]
        self.made, self.states = layer.played(board, script, name)
        self.svg = svg.svg(board, self.made, self.states, title)
        self.unread = unread_line(script, self.made)
        self.ticks = [step.line for step in self.made if step.call == "tick"]
        self.file, self.begin = (None, None) if name == "van" else (f"folder/{name} <&>.script", "2025-11-17 08:00:00 UTC <&>")
        self.html = html.html(board, self.made, self.states, title, self.unread, self.file, self.begin)

    def fail(self, words):
        fail(self.name, f"{words}; title {self.title[:40]!r}, script {self.script[:200]!r}")


# pictures

def width(character, size):
    """Of a character, about as wide as in a usual font."""
    return size * (0.3 if character in "ijlI.,:;'|! " else 0.9 if character in "mwMW%@" or ord(character) > 0x2E80 else 0.62 if character.isupper() else 0.54)


def check_svg(journey, expected):
    try:
        root = ElementTree.fromstring(journey.svg)
    except ElementTree.ParseError as error:
        journey.fail(f"the SVG is no XML: {error}")
    if root.tag != SPACE + "svg" or root.get("role") != "img" or root[0].tag != SPACE + "title" or root[1].tag != SPACE + "desc":
        journey.fail("the SVG has no role, title or description")
    check_references(journey, "the SVG", journey.svg, root)
    if float(root.get("width")) > MOST_WIDTH:
        journey.fail(f"the SVG is {root.get('width')} wide")
    check_texts(journey, root)
    for legend in root.findall(SPACE + "g"):
        root.remove(legend)
    found = Counter()
    for element in root.iter():
        for kind in element.get("class", "").split():
            found[kind] += int(element.get("data-count", 1))
    if {kind: found[kind] for kind in KINDS} != {kind: expected.counts[kind] for kind in KINDS}:
        journey.fail(f"the SVG has {found}, the run {expected.counts}")
    check_errors_and_dots(journey, root)
    if max((int(element.get("data-count", 1)) for element in root.iter()), default=1) <= IN_A_TIP:
        tips = " ".join(element.text for element in root.iter(SPACE + "title"))
        for line, ipdu, frame in expected.frames:
            if frame.hex(" ").upper() not in tips:
                journey.fail(f"no tip of the SVG has the bytes {frame.hex()} of I-PDU {ipdu}, line {line}")
    return found


def check_errors_and_dots(journey, root):
    """What stays marked as an error is thinner behind the mark, up to where the mark is cleared; dots of values from queues are large enough to be seen."""
    rects = list(root.iter(SPACE + "rect"))
    for before, rest in zip(rects, rects[1:]):
        if rest.get("class") == "still":
            left, wide, high = (float(before.get(key)) for key in ("x", "width", "height"))
            if before.get("class") != "marked" or abs(left + wide - float(rest.get("x"))) > 0.02 or float(rest.get("height")) >= high:
                journey.fail(f"what stays marked at {rest.get('x')} is not a thinner rest of a mark")
    for element in root.iter(SPACE + "path"):
        if element.get("class") == "taken" and float(re.search("a([0-9.]+) ", element.get("d"))[1]) < LEAST_RADIUS:
            journey.fail(f"a dot is small: {element.get('d')}")


def check_texts(journey, root):
    """Texts are large enough, inside the picture and not on each other."""
    right, bottom = (float(number) for number in root.get("viewBox").split()[2:])
    boxes = []
    for element in root.iter(SPACE + "text"):
        size, x, y = (float(element.get(key)) for key in ("font-size", "x", "y"))
        wide = sum(width(character, size) for character in element.text)
        left = x - {"start": 0, "middle": wide / 2, "end": wide}[element.get("text-anchor", "start")]
        if size < LEAST_TEXT or left < 0 or left + wide > right or y - size < 0 or y + 0.2 * size > bottom:
            journey.fail(f"the text {element.text!r} of size {size} at {x}, {y} is too small or leaves {right} x {bottom}")
        boxes.append((y - 0.7 * size, y + 0.1 * size, left, left + wide, element.text))
    boxes.sort()
    for place, (top, low, left, end, words) in enumerate(boxes):
        for other in boxes[place + 1:]:
            if other[0] >= low:
                break
            if left < other[3] and other[2] < end:
                journey.fail(f"the texts {words!r} and {other[4]!r} lie on each other, at {left:.0f}, {top:.0f} and {other[2]:.0f}, {other[0]:.0f}")


# journeys

def board_of(file, node):
    return next(board for board in source.load(file).boards() if board.node == node)


def all_journeys(folder):
    files = [os.path.join(folder, name) for name in ("largest.toml", "pages.toml")]
    for file, text in zip(files, (largest(), PAGES)):
        with open(file, "w", encoding="utf-8") as output:
            output.write(text)
    van_file = os.path.join(TOP, "examples", "van.toml")
    van, case, big, pages = board_of(van_file, "van"), board_of(van_file, "case"), *(board_of(file, "van") for file in files)
    if (len(big.ipdus), len(big.objects)) != (32, 128):
        fail("largest", f"the table has {len(big.ipdus)} I-PDUs and {len(big.objects)} messages")
    script = contents("examples", "van.script")
    plans = [(f"{LONG} ticks", van, wandering(van, LONG, 1), "A long journey"), ("case", case, wandering(case, 300, 2), "The case"),
             ("pages", pages, wandering(pages, 200, 4), "Pages"), ("pages by hand", pages, BY_HAND, "Pages"),
             ("emptied", pages, "start\n" + "indication 1 1 00000000\n" * 4 + "start\ntick\n", "Emptied"),
             ("drained", pages, "start\n" + "".join(f"indication 1 1 01000{lock}00\n" for lock in (0, 2, 0)) + "receive 6\n" * 3 + "tick\n", "Drained"),
             ("largest", big, wandering(big, 40, 3), "Largest"), ("largest, empty", big, "", "Empty"), ("empty", van, "", "Empty"),
             ("never started", van, "tick\nsend 0 450\nconfirm 0 1\ntick\n", "Never"), ("one tick", van, "start\ntick\n", "One tick"),
             ("a line that can't be read", van, "start\nsend 0 500\nno such call\ntick\n", "Cut"), ("no line feed", van, "start\nsend 0 500\ntick", "Cut")]
    plans += [(f"title {place}", van, script, title) for place, title in enumerate(AWKWARD)]
    data = {id(board): tomllib.loads(text, parse_float=Decimal)
            for board, text in ((van, contents("examples", "van.toml")), (big, largest()), (pages, PAGES))}
    data[id(case)] = data[id(van)]
    yield from (Journey(*plan, data[id(plan[1])]) for plan in [("van", van, script, "Climate van"), *plans])


def check_van(journey):
    printed = layer.drive(DRIVE, journey.board.table, journey.script)
    if printed != contents("examples", "van.stdout"):
        journey.fail("drive does not print examples/van.stdout")
    summary = re.findall("<li>(.*)</li>", journey.html)
    if summary != SUMMARY:
        journey.fail(f"the summary is {summary}")
    if journey.svg != contents("docs", "van.svg"):
        journey.fail("docs/van.svg is not what is made now: make it anew with 'tools/journey'")


def check_by_hand(journey):
    """What is drawn of each message in a run of a few frames, some of which do not hold it, and what is not expected."""
    for reading in readings(journey.board, journey.made, journey.states, 9.0):
        drawn = [value.raw for run in reading.lines for value in run.values]
        if drawn != DRAWN[reading.entry.name]:
            journey.fail(f"of {reading.entry.name} {drawn} is drawn, and should be {DRAWN[reading.entry.name]}")
    outside = re.findall("<li>(.* the expected .*)</li>", journey.html)
    if outside != OUTSIDE:
        journey.fail(f"the summary has {outside}, and should have {OUTSIDE}")


# a browser

def browsed(journey, folder):
    """What a browser says to the report; what was left out."""
    missing = [program for program in ("chromium", "pdfinfo", "pdftotext") if shutil.which(program) is None]
    if missing:
        return f"no browser was asked: {' and '.join(missing)} missing"
    page, pdf = os.path.join(folder, "report.html"), os.path.join(folder, "report.pdf")
    with open(page, "w", encoding="utf-8") as output:
        output.write(journey.html)
    common = ["chromium", "--headless", "--no-sandbox", "--disable-gpu", "--disable-dev-shm-usage", "--host-resolver-rules=MAP * ~NOTFOUND",
              f"--user-data-dir={folder}/profile"]
    seen = output_of(journey, [*common, "--dump-dom", f"file://{page}"])
    lacking = [words for words in ("<h1>Climate van</h1>", "</svg>", "45.0 to 61.4 %", "</html>") if words not in seen]
    output_of(journey, [*common, "--no-pdf-header-footer", f"--print-to-pdf={pdf}", f"file://{page}"])
    pages = int(re.search("Pages: +([0-9]+)", output_of(journey, ["pdfinfo", pdf]))[1])
    text = " ".join(output_of(journey, ["pdftotext", "-layout", pdf, "-"]).split())
    lacking += [words for words in ("Climate van", "45.0 to 61.4 %", "tested, not proved") if words not in text]
    if lacking or pages < 2:
        journey.fail(f"the browser shows no {lacking}, and prints {pages} pages")
    return f"a browser prints {pages} pages"


def output_of(journey, command):
    try:
        return subprocess.run(command, stdout=subprocess.PIPE, stderr=subprocess.PIPE, timeout=SECONDS, check=True).stdout.decode()
    except (subprocess.SubprocessError, OSError) as error:
        return journey.fail(f"{command[0]} fails: {error}")


def main():
    if not os.path.exists(DRIVE):
        sys.exit("desk_pictures.py: target/bin/drive is missing: run 'tools/build drive' first")
    found, met, values, count, said = Counter(), Counter(), 0, 0, ""
    with tempfile.TemporaryDirectory(ignore_cleanup_errors=True) as folder:
        for journey in all_journeys(folder):
            expected = Expected(journey)
            found += check_svg(journey, expected)
            values += check_html(journey, expected, met)
            count += 1
            if journey.name == "pages by hand":
                check_by_hand(journey)
            if journey.name == "van":
                check_van(journey)
                said = browsed(journey, folder)
    never = [kind for kind in [*KINDS, "still", "state", "value", "started", "several", "dense"] if not found[kind]]
    never += [kind for kind in MET if not met[kind]]
    if never or not values:
        fail("all journeys", f"never met: {never}, values {values}")
    marks = sum(found[kind] for kind in KINDS)
    print(f"desk_pictures.py: {count} journeys, {marks} marks of pictures and {values} values of reports are as worked out; docs/van.svg is as made; {said}")


main()
