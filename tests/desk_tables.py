#!/usr/bin/env python3
"""Tables on the desk: rules.py names the place that the proved check names; explain names the changed byte for every single-byte fault of the
examples, and just the bytes and values that the check accepts; show gives a text that compiles to the same bytes. Needs target/staticlib/libexports.a
and gcc."""
import glob
import os
import random
import re
import sys
import tempfile
import time
from collections import Counter

sys.dont_write_bytecode = True
TOP = os.path.join(os.path.dirname(os.path.realpath(__file__)), "..")
sys.path[:0] = [os.path.join(TOP, "tools"), os.path.join(TOP, "tests", "desk")]
import archive
import random_tables
from desk import source
from desk.explain import explain
from desk.records import HEADER, HEADER_SIZE, IPDU_SIZE, MOST_IPDUS, MOST_OBJECTS, OBJECT_SIZE, RECEIVE, ObjectRecord, table_bytes
from desk.rules import (DEPTH, DEPTH_SUM, FIRST_OBJECT, HEADER_PLACE, HEADER_RULES, IPDU_RULES, OBJECT_RULES, WHOLE_HEADER, first_fault,
                        record_at, record_size)
from desk.show import show
from desk.wrong import Wrong, read_bytes, write

DAMAGED, RIGHT_TABLES, SECONDS = 12000, 420, 2
BYTES = re.compile(r"\bbytes? (\d+)(?: (?:and|to) (\d+))?")
REMEDY = re.compile(r"  byte (\d+), .* of .*: (.*)")
SPAN = re.compile(r"(\d+)(?: to (\d+))?")
PINNED = """\
# A table of 64 bytes: 1 I-PDU, 1 object. Names and tick_ms are not in a table.
tick_ms = 10
nodes = ["van"]

# byte  7 6 5 4 3 2 1 0
#    0  . . . . . . . .
#    1  a a a . . . . .
#    2  a a a a a a a a
#    3  . . . . . . . a
#    a object0: 12 bits, little, from bit 13 to 24
[ipdu.ipdu0]
sender = "van"
size_in_bytes = 4
minimum_delay_time_ms = 30
deadline_ms = 100

[message.object0]
node = "van"
ipdu = "ipdu0"
start_bit = 13
size_in_bits = 12
filter = "NewIsDifferent"
"""


def fail(words, table):
    sys.exit(f"desk_tables.py: {words}; table {bytes(table).hex()}")


def changed(table, at, value):
    return table[:at] + bytes([value]) + table[at + 1:]


def edge_values(byte):
    """A handful of other values for a byte."""
    return sorted({0, 1, 2, 33, 255, byte ^ 1, byte ^ 128, (byte + 1) % 256} - {byte})


# rules.py and the check

def some_value():
    return random.choice([0, 1, 2, 3, 14, 16, 17, 32, 33, 255, random.randrange(256)])


def one_byte(table):
    return changed(table, random.randrange(len(table)), some_value())


def deciding_byte(table):
    """One of the first bytes of an I-PDU record or of either half of an object record."""
    at = random.randrange(HEADER_SIZE, len(table), IPDU_SIZE) + random.randrange(9)
    return changed(table, at, some_value())


def header_byte(table):
    at = random.randrange(HEADER_SIZE)
    return changed(table, at, random.choice([some_value(), (table[at] + random.choice([1, 2, 15, 16, 17, 32])) % 256]))


def random_bytes(table):
    return random.choice([random.randbytes(random.randrange(200)), table[:HEADER_SIZE] + random.randbytes(len(table) - HEADER_SIZE)])


DAMAGES = {
    "a byte": one_byte,
    "two bytes": lambda table: one_byte(one_byte(table)),
    "cut": lambda table: table[:random.choice([random.randrange(len(table)), max(0, len(table) - random.choice([1, 16, 32]))])],
    "lengthened": lambda table: table + bytes(random.choice([1, 15, 16, 31, 32, 64])),
    "header": header_byte,
    "random bytes": random_bytes,
}
ALL_RULES = [("header", rule) for rule in [WHOLE_HEADER, *HEADER_RULES]] + [("I-PDU", rule) for rule in IPDU_RULES]
ALL_RULES += [("object", rule) for rule in [*OBJECT_RULES, DEPTH_SUM]]


def record_kind(place):
    return "header" if place == HEADER_PLACE else "I-PDU" if place < FIRST_OBJECT else "object"


def check_agreement(refused, tables):
    """How many damaged tables both judged alike."""
    met, verdicts = Counter(), Counter()
    for kind, damage in DAMAGES.items():
        for i in range(DAMAGED):
            table = damage(tables[i % len(tables)])
            want, fault = refused(table), first_fault(table)
            if want != (None if fault is None else fault.place):
                fail(f"{kind}: the check says {want}, rules.py {fault and (fault.place, fault.rule.field)}", table)
            verdicts[kind, want is None] += 1
            if fault is not None:
                met[record_kind(fault.place), fault.rule] += 1
    missing = [f"{kind} {rule.field}" for kind, rule in ALL_RULES if not met[kind, rule]]
    if missing or not all(verdicts[kind, False] for kind in DAMAGES) or not verdicts["a byte", True]:
        sys.exit(f"desk_tables.py: no damage failed the rules of {missing}, or a kind of damage never mattered: {verdicts}")
    return sum(verdicts.values())


# explain

def named_bytes(lines):
    return {byte for line in lines for first, last in BYTES.findall(line) for byte in range(int(first), int(last or first) + 1)}


def remedies_in(lines):
    """The values that would do, by byte, as the lines have them."""
    found = {}
    for line in lines:
        if match := REMEDY.fullmatch(line):
            words = re.sub(r" \([^)]*\)", "", match[2])
            found[int(match[1])] = {value for first, last in SPAN.findall(words) for value in range(int(first), int(last or first) + 1)}
    return found


def check_fault(refused, right, at, value):
    """Whether the place is another record than that with the changed byte; None where the table is right."""
    table = changed(right, at, value)
    place = refused(table)
    if place is None:
        return None
    lines = explain(table)
    if not lines[0].startswith(f"bad {place}: "):
        fail(f"the check says {place}, explain {lines[0]}", table)
    if right[at] not in remedies_in(lines).get(at, ()):
        fail(f"byte {at} was {right[at]}, and explain does not name that: {lines}", table)
    first = record_at(table, place)
    elsewhere = not first <= at < first + record_size(place)
    if elsewhere and at not in named_bytes(line for line in lines if line.startswith("  ") and not REMEDY.fullmatch(line)):
        fail(f"byte {at} of another record made {place} wrong, and no failed rule names it: {lines}", table)
    return elsewhere


def check_single_faults(refused, tables, whole):
    """How many faults were explained, and how many of them in another record; `whole` are the tables of which every value is tried."""
    met = Counter()
    for name, right in tables.items():
        for at in range(len(right)):
            tried = range(256) if name in whole else random.sample(edge_values(right[at]), 2)
            met.update(check_fault(refused, right, at, value) for value in tried)
    if not met[True] or not met[False]:
        sys.exit(f"desk_tables.py: too few kinds of faults were explained: {met}")
    return met[True] + met[False], met[True]


def check_remedies(refused, count):
    """explain names just those bytes and values that the check accepts, for faults of one and two bytes in small tables."""
    met = Counter()
    while met["some"] + met["none"] < count:
        right = random_tables.right_table(random, refused, random.randrange(1, 3), random.randrange(1, 3))
        table = random.choice([one_byte, deciding_byte, deciding_byte, DAMAGES["two bytes"], header_byte])(right)
        if refused(table) is None:
            continue
        want = {}
        for at in range(len(table)):
            values = {value for value in range(256) if refused(changed(table, at, value)) is None}
            want |= {at: values} if values else {}
        if remedies_in(explain(table)) != want:
            fail(f"the check would accept {want}, explain says {explain(table)}", table)
        met["some" if want else "none"] += 1
    if not met["some"] or not met["none"]:
        sys.exit(f"desk_tables.py: remedies were compared for too few kinds of tables: {met}")


def check_depths(refused):
    """The sum of depths: any depth that can be lowered enough is a remedy, and those up to the named object are in its lines."""
    full, alone = random_tables.largest(), table_bytes([], [ObjectRecord(RECEIVE, depth=16)] * 32 + [ObjectRecord(RECEIVE, depth=1)])
    for table, count in [(changed(full, record_at(full, FIRST_OBJECT) + 2 * OBJECT_SIZE + DEPTH.at, 11), 64), (alone, 33)]:
        depths = range(record_at(table, FIRST_OBJECT) + DEPTH.at, len(table), OBJECT_SIZE)
        lines, want = explain(table), {}
        for byte in depths:
            values = {value for value in range(256) if refused(changed(table, byte, value)) is None}
            want |= {byte: values} if values else {}
        if remedies_in(lines) != want or len(want) != count:
            fail(f"the sum of depths is explained as {lines}", table)
        if {byte for byte in depths if table[byte]} != set(depths) & named_bytes(lines[1:-count]):
            fail(f"not all depths are named in {lines}", table)


def check_header(van):
    """The number that was changed, in one byte or two, is the one that alone disagrees; a file cut or lengthened is said to be so."""
    for field in HEADER:
        for value in {0, 1, 33, 129, 65535, random.randrange(65536)} - {field.of(van)}:
            table = van[:field.at] + value.to_bytes(2, "little") + van[field.at + 2:]
            want = f"{field.words}, bytes {field.at} and {field.at + 1}, alone disagrees: it is {value}, and with {field.of(van)} all numbers "
            if not any(line.startswith(want) and line.endswith("agree") for line in explain(table)):
                fail(f"no line begins with {want!r}: {explain(table)}", table)
    for table, want in [
        (van[:-3], "the header agrees with itself, so the file is cut off: at its end 3 of 384 bytes are missing"),
        (van + bytes(32), "the header agrees with itself, so the file is too long: it has 32 more than 384 bytes"),
        (changed(van, 100, 33) + b"\0", "the header agrees with itself, so the file is too long: it has 1 more than 384 bytes; then the check says bad 257"),
        (van[:10], "the file is cut off inside its header"),
        (b"", "  length of the file is 0; it has to be 16 to 4624"),
        (changed(changed(van, 0, 2), 2, 9), "by the counts the header has to be: number of I-PDUs 2, number of objects 9, offset of the I-PDU records 16, "
         "offset of the object records 48 and length of the table 336; and the file 336 bytes long"),
        (changed(changed(van, 0, 2), 2, 9), "by the 384 bytes of the file it may be: number of I-PDUs 3, number of objects 10, offset of the I-PDU records 16, "
         "offset of the object records 64 and length of the table 384"),
        (changed(changed(van, 0, 2), 12, 1), "no number of the header alone explains it"),
        (changed(van, 0, 2)[:-1], "no table has 383 bytes: there are 16 for the header, 16 for each of 0 to 32 I-PDUs and 32 for each of 0 to 128 objects"),
    ]:
        if want not in explain(table):
            fail(f"there is no line {want!r} in {explain(table)}", table)


def check_lines(van, request):
    """Some explanations word for word, with names too."""
    board = source.load(os.path.join(TOP, "examples", "van.toml")).boards()[0]
    alone = "one of these bytes alone would put the table right:"
    for table, names, want in [
        (van, (), ["ok 3 10"]),
        (changed(request, 36, 33), (), ["bad 256: object 0, bytes 32 to 63", "  length in bits, byte 36, is 33; it has to be 1 to 32", alone,
                                        "  byte 36, length in bits of object 0: 1 to 19"]),
        (changed(request, 35, 30), (), [
            "bad 256: object 0, bytes 32 to 63",
            "  start bit, byte 35, is 30; it has to be 0 to 20, for length in bits, byte 36, is 12, byte order, byte 37, is 0 (little) and "
            "length in bytes of I-PDU 0, byte 17, is 4; it would reach bit 41, and the last one is 31", alone,
            "  byte 17, length in bytes of I-PDU 0: 6 to 8", "  byte 35, start bit of object 0: 0 to 20", "  byte 36, length in bits of object 0: 1 or 2",
            "  byte 37, byte order of object 0: 1 (big) or 3 (signed big)"]),
        (changed(van, 65, 2), (board.ipdu_name, board.object_name), [
            "bad 256: object 0 FrontHumidity, bytes 64 to 95",
            "  I-PDU, byte 65, is 2; it has to be 0, 1 or 255 (none), for kind, byte 64, is 1 (send) and direction of I-PDU 2 Case, byte 48, is 2 (receive)",
            alone, "  byte 65, I-PDU of object 0 FrontHumidity: 0 or 1"]),
        (changed(changed(van, 90, 7), 127, 1), (), ["bad 256: object 0, bytes 64 to 95", "  reserved byte 90 is 7; it has to be 0", "wrong as well: object 1",
                                                     "no byte alone would put the table right"]),
        (changed(van, 18, 1), (board.ipdu_name,), [
            "bad 0: I-PDU 0 Humidity, bytes 16 to 31", "  period, bytes 20 and 21, is 0; it has to be 1 to 65535, for mode, byte 18, is 1 (periodic)",
            "  time offset, bytes 22 and 23, is 0; it has to be 1 to 65535, for mode, byte 18, is 1 (periodic)",
            "  minimum delay, bytes 24 and 25, is 3; it has to be 0, for mode, byte 18, is 1 (periodic)", alone,
            "  byte 18, mode of I-PDU 0 Humidity: 0 (direct)"]),
    ]:
        if explain(table, *names) != want:
            fail(f"explain says {explain(table, *names)}", table)
    many = van
    for i in range(10):
        many = changed(many, record_at(van, FIRST_OBJECT + i) + 9, 1)
    for table, want in [
        (many, "wrong as well: " + ", ".join(f"object {i}" for i in range(1, 9)) + " and 1 more"),
        (changed(van, 17, 1), "  start bit, byte 67, is 0; no value of it is right, for length in bits, byte 68, is 10, byte order, byte 69, is 0 (little) and "
         "length in bytes of I-PDU 0, byte 17, is 1; it would reach bit 9, and the last one is 7"),
    ]:
        if want not in explain(table):
            fail(f"there is no line {want!r} in {explain(table)}", table)
    for start, want in [(7, "; from bit 7 up to the end of byte 0 there is room for 1 of its 10 bits"), (200, "; bit 200 is behind the last one, 31")]:
        if not explain(changed(van, 99, start))[1].endswith(want):
            fail(f"the failed rule does not end in {want!r}: {explain(changed(van, 99, start))}", changed(van, 99, start))


def check_time():
    """A largest table whose records are all wrong, and one with a wrong sum, are explained in time."""
    full = random_tables.largest()
    for table in (full[:HEADER_SIZE] + random.randbytes(len(full) - HEADER_SIZE), changed(full, record_at(full, FIRST_OBJECT) + 7, 11)):
        before = time.process_time()
        explain(table)
        if time.process_time() - before > SECONDS:
            fail(f"to explain it took more than {SECONDS} s", table)


# show

def compiled(text, folder, table):
    """The table that the text of another one gives."""
    path = os.path.join(folder, "shown.toml")
    write(path, text)
    try:
        return source.load(path).boards()[0].table
    except Wrong as error:
        return fail(f"what show gives is refused: {error}", table)


def shown_tables(refused):
    """Random right tables of all sizes, some of them largest ones with full queues."""
    for i in range(RIGHT_TABLES):
        sizes = (MOST_IPDUS, MOST_OBJECTS) if i % 70 == 0 else (random.randint(0, 8), random.randint(0, 24)) if i % 7 else (i % 3, 0)
        table = random_tables.right_table(random, refused, *sizes)
        yield random_tables.with_full_queues(table) if i % 140 == 0 else table


def check_shown(refused, tables, folder):
    """How many right tables came back byte for byte."""
    met, count = Counter(), 0
    for table in [*tables, *shown_tables(refused)]:
        if refused(table) is not None:
            fail("a table to be shown is wrong", table)
        if compiled(show(table, tick_ms=random.choice([1, 5, 100, "0.5", "0.1"])), folder, table) != table:
            fail("what show gives compiles to another table", table)
        met.update(random_tables.kinds_of(table))
        count += 1
    if missing := random_tables.KINDS - set(met):
        sys.exit(f"desk_tables.py: no table that was shown had {sorted(missing)}")
    return count


def refusal(call, *arguments):
    """The lines with which something is refused."""
    try:
        call(*arguments)
    except Wrong as error:
        return list(error.lines)
    return []


def check_text(request):
    """show as people read it, and what it refuses."""
    if show(request, "van", 10) != PINNED:
        fail(f"show gives\n{show(request, 'van', 10)}", request)
    wrong = changed(request, 36, 33)
    for want, got in [
        (explain(wrong), refusal(show, wrong)),
        (['node: "a b" is no name: letters, digits and _, no digit first'], refusal(show, request, "a b")),
        *[([f"tick_ms: is {tick}, has to be a number from 0.000001 to 1000000 with at most 20 digits"], refusal(show, request, "van", tick))
          for tick in (0, -1, "nan", "ten", "inf", "0." + 21 * "1")],
    ]:
        if want != got:
            fail(f"show refuses with {got}, should be {want}", request)


def main():
    random.seed(20)
    examples = {os.path.basename(path): read_bytes(path) for path in sorted(glob.glob(os.path.join(TOP, "examples", "*.table")))}
    van, request = examples["van.table"], examples["request.table"]
    with tempfile.TemporaryDirectory() as folder:
        library = archive.load(folder)

        def refused(table):
            return archive.check(library, table)

        tables = {**examples, "the largest": random_tables.largest()}
        drawn = [random_tables.right_table(random, refused, random.randint(1, 8), random.randint(1, 24)) for _ in range(20)]
        judged = check_agreement(refused, [*tables.values(), *drawn])
        explained, elsewhere = check_single_faults(refused, tables, examples)
        check_remedies(refused, 60)
        check_depths(refused)
        check_header(van)
        check_lines(van, request)
        check_time()
        shown = check_shown(refused, tables.values(), folder)
        check_text(request)
    print(f"desk_tables.py: {judged} damaged tables judged as the check does, {explained} faults of one byte explained, {elsewhere} of them by another record, "
          f"{shown} tables shown and compiled back")


main()
