#!/usr/bin/env python3
"""document.py CALLS: puts the table of the calls into docs/BENCHMARKS.md, between its two marks. CALLS has a line for each table and call, as
bench/all.sh makes it: instructions of the proved call and of the peer's, then nanoseconds."""
import sys
from pathlib import Path

# the calls that the document shows, in its words
ROWS = {
    "check": "the check of the table alone",
    "refused": "all checks: a call that is refused right behind them",
    "start": "start",
    "stop": "stop",
    "send_request": "send, passed, request",
    "send_postponed": "send, passed, postponed",
    "send_dropped": "send, dropped",
    "send_one_inside": "send, request, one internal receiver",
    "group_1": "group of 1 pair, bytes",
    "group_16": "group of 16 pairs, bytes",
    "records_16": "group of 16 pairs, records",
    "initialise_send": "initialise, send object",
    "receive_unqueued": "receive, unqueued",
    "receive_queued": "receive, queued",
    "status": "status",
    "marks": "marks",
    "clear_marks": "clear marks",
    "start_periodic": "start periodic",
    "stop_periodic": "stop periodic",
    "indication_8": "indication, 8 objects",
    "indication_8_queues": "indication, 8 queued objects",
    "indication_not_good": "indication, not good",
    "confirm_good": "confirm",
    "tick_quiet": "tick, nothing due",
    "tick_8_periods": "tick, eight periods fire",
    "tick_deadline": "tick, one deadline runs out",
    "tick_28_due": "tick, 28 times run out",
    "begin_16": "sheet: begin, 16 objects",
    "drain_1_empty": "sheet: drain, 1 object, nothing waits",
    "drain_1_of_1_long": "sheet: drain, 1 object, a value of ten digits",
    "drain_16_empty": "sheet: drain, 16 objects, nothing waits",
    "drain_16_of_3": "sheet: drain, 16 objects, three values each",
}
DOCUMENT = Path(__file__).resolve().parent.parent / "docs/BENCHMARKS.md"
BEGIN, END = "<!-- calls: made by bench/all.sh --write -->\n", "<!-- end of calls -->\n"

figures = {}
for line in Path(sys.argv[1]).read_text().split("\n"):
    if line:
        table, call, *numbers = line.split()
        figures[table, call] = [int(n) for n in numbers]


def cells(table, call):
    if (table, call) not in figures:
        return ["", "", "", ""]
    proved, peer, ours, theirs = figures[table, call]
    time = f"{ours / theirs:.2f}" if min(ours, theirs) >= 10 else ""
    return [f"{proved:,}", f"{peer:,}", f"{proved / peer:.2f}", time]


lines = ["| call | case 12 | peer | ratio | time | large | peer | ratio | time |", "|" + "---|" * 9]
lines += ["| " + " | ".join([words, *cells("case12", call), *cells("large", call)]) + " |" for call, words in ROWS.items()]
text = DOCUMENT.read_text()
before, after = text.index(BEGIN) + len(BEGIN), text.index(END)
DOCUMENT.write_text(text[:before] + "\n" + "\n".join(lines) + "\n\n" + text[after:])
