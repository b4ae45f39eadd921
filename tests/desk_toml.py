#!/usr/bin/env python3
"""What tools/table says of TOML files that are wrong, each a line with file, key and reason, all faults of a file at once; and what the keys mean
where the examples do not show it: values in units and raw, by name, negative factors, receivers, deadlines, defaults, order. Then every key of
examples/van.toml left out or with a value that is odd there: it compiles to right tables, or it is refused, and never anything else. Needs no other program."""
import copy
import datetime
import os
import subprocess
import sys
import tempfile
import tomllib
from decimal import Decimal

sys.dont_write_bytecode = True
TOP = os.path.join(os.path.dirname(os.path.abspath(__file__)), "..")
sys.path.insert(0, os.path.join(TOP, "tools"))
from desk.c_header import c_header  # noqa: E402
from desk.dbc import dbc  # noqa: E402
from desk.merge import merged  # noqa: E402
from desk.records import NONE, ipdu_records, object_records  # noqa: E402
from desk.report import report  # noqa: E402
from desk.rules import first_fault  # noqa: E402
from desk.rust_module import rust_module  # noqa: E402
from desk.source import Source, load  # noqa: E402
from desk.wrong import Wrong  # noqa: E402

HEAD = 'tick_ms = 10\nnodes = ["van", "case"]\n'
IPDU = '[ipdu.F]\nsender = "van"\nreceivers = ["case"]\nsize_in_bytes = 4\ndeadline_ms = 100\n'
MESSAGE = '[message.M]\nipdu = "F"\nstart_bit = 8\nsize_in_bits = 8\n'
WHOLE = HEAD + IPDU + MESSAGE
FREE = '[message.N]\nnode = "van"\n'

# A file, and the lines that it has to get, without its name.
REFUSED = [
    ("", ["tick_ms: is missing; it has to be a number"]),
    ("tick_ms = 0\nnodes = []\n", ["tick_ms: is 0, has to be above 0"]),
    ("tick_ms = true\nnodes = []\n", ["tick_ms: is true, has to be a number"]),
    ("tick_ms = 10\n", ["nodes: is missing; it has to be a list of names"]),
    ("tick_ms = 10\nnodes = [1]\n", ["nodes: is [1], has to be a list of names"]),
    ('tick_ms = 10\nnodes = ["van 1"]\n', ['nodes: "van 1" is no name: letters, digits and _, no digit first']),
    ("tick_ms = 10\nnodes = []\n", ["nodes: has no name: a table is made for each of them"]),
    ('tick_ms = 10\nnodes = ["van"]\ntick = 1\n', ['tick: is not known here; did you mean "tick_ms"?']),
    ('tick_ms = 10\nnodes = []\nleave_out = ["X"]\n', ["leave_out: is for what a database has, and there is no database"]),
    (HEAD + "[ipdu]\nF = 3\n", ["ipdu.F: has to be a section [ipdu.F]"]),
    (HEAD + "ipdu = 3\n", ["ipdu: is 3, has to be a section [ipdu.NAME]"]),
    (HEAD + "message = 3\n" + IPDU, ["message: is 3, has to be a section [message.NAME]"]),
    (HEAD + '[ipdu."1F"]\n', ['ipdu.1F: "1F" is no name: letters, digits and _, no digit first']),
    (HEAD + "[ipdu.F]\n", ["ipdu.F.size_in_bytes: is missing; it has to be a whole number"]),
    (HEAD + "[ipdu.F]\nsize_in_bytes = 9\n", ["ipdu.F.size_in_bytes: is 9, has to be 1 to 8, the bytes of a frame"]),
    (HEAD + "[ipdu.F]\nsize_in_bytes = 4.0\n", ["ipdu.F.size_in_bytes: is 4.0, has to be a whole number"]),
    (HEAD + IPDU.replace("100", "105"), ["ipdu.F.deadline_ms: 105 ms is no whole number of ticks of 10 ms: 10 ticks are 100 ms, 11 are 110 ms"]),
    (HEAD + IPDU.replace("100", "7"), ["ipdu.F.deadline_ms: 7 ms is no whole number of ticks of 10 ms: 0 ticks are 0 ms, 1 are 10 ms"]),
    (HEAD + IPDU.replace("100", "0"), ["ipdu.F.deadline_ms: 0 ms are 0 ticks of 10 ms, has to be 1 to 65535 ticks"]),
    (HEAD + IPDU.replace("100", "655360"), ["ipdu.F.deadline_ms: 655360 ms are 65536 ticks of 10 ms, has to be 1 to 65535 ticks"]),
    (HEAD + IPDU.replace("deadline_ms = 100\n", ""), ["ipdu.F.deadline_ms: is missing; it has to be a number"]),
    (HEAD + IPDU.replace('"van"', '"vam"'), ['ipdu.F.sender: there is no node "vam"; did you mean "van"?']),
    (HEAD + IPDU.replace('["case"]', '["rack"]'), ['ipdu.F.receivers: there is no node "rack"']),
    (HEAD + IPDU.replace('["case"]', '["van"]'), ['ipdu.F.receivers: "van" is its sender; a receiver inside is a message with receives = ..']),
    (HEAD + IPDU + 'transmission_mode = "cyclic"\n', ['ipdu.F.transmission_mode: is "cyclic", has to be one of direct, periodic, mixed']),
    (HEAD + IPDU + 'transmission_mode = "periodic"\n', ["ipdu.F.time_period_ms: is missing; it has to be a number"]),
    (HEAD + IPDU + 'transmission_mode = "direct"\ntime_period_ms = 10\n',
     ["ipdu.F.transmission_mode: is direct, so there is no time_period_ms and no time_offset_ms"]),
    (HEAD + IPDU + "time_period_ms = 10\nminimum_delay_time_ms = 10\n",
     ["ipdu.F.minimum_delay_time_ms: has no meaning where transmission_mode is periodic; mixed has one"]),
    (HEAD + IPDU + "id = 0x800\n", ["ipdu.F.id: is 2048, has to be 0 to 2047, or extended = true"]),
    (HEAD + IPDU + "extended = true\nid = 0x20000000\n", ["ipdu.F.id: is 536870912, has to be 0 to 536870911"]),
    (HEAD + IPDU + "id = 1\n" + IPDU.replace("ipdu.F", "ipdu.G") + "id = 1\n", ["ipdu.G.id: 0x1 is the identifier of F too"]),
    (HEAD + IPDU + "receiver.case = { first_deadline_ms = 10 }\n", ["ipdu.F.receiver.case.first_deadline_ms: needs a deadline_ms too"]),
    (HEAD + IPDU + "receiver.rack = { deadline_ms = 10 }\n", ['ipdu.F.receiver: there is no receiver "rack"']),
    (HEAD + IPDU + "receiver.case = { dead_line_ms = 10 }\n", ['ipdu.F.receiver.case.dead_line_ms: is not known here; did you mean "deadline_ms"?']),
    (WHOLE.replace('ipdu = "F"', 'ipdu = "G"'), ['message.M.ipdu: there is no I-PDU "G"']),
    (WHOLE.replace('ipdu = "F"\n', ""), ["message.M.ipdu: is missing; a message with no I-PDU needs its node"]),
    (WHOLE.replace("bits = 8", "bits = 33"), ["message.M.size_in_bits: is 33, has to be 1 to 32, the bits of a value"]),
    (WHOLE.replace("start_bit = 8", "start_bit = 25"), ["message.M.start_bit: is 25: 8 little bits from there leave the 4 bytes of F"]),
    (WHOLE.replace("start_bit = 8", "start_bit = 4") + 'byte_order = "big"\n', ["message.M.start_bit: is 4: 8 big bits from there leave the 4 bytes of F"]),
    (WHOLE + "dbc_start_bit = 8\n", ["message.M.start_bit: stands beside dbc_start_bit: one of them"]),
    (WHOLE.replace("start_bit = 8", "dbc_start_bit = 28") + 'byte_order = "big"\n',
     ["message.M.dbc_start_bit: is 28: 8 big bits from there leave the 4 bytes of F"]),
    (WHOLE + "factor = 0\n", ["message.M.factor: is 0"]),
    (WHOLE + "factor = 1e-400\n", ["message.M.factor: is 1E-400, has to be a number with at most 30 digits on either side of its point"]),
    (WHOLE + "factor = nan\n", ["message.M.factor: is NaN, has to be a number with at most 30 digits on either side of its point"]),
    ("tick_ms = inf\nnodes = []\n", ["tick_ms: is Infinity, has to be a number with at most 30 digits on either side of its point"]),
    (WHOLE + "factor = 0.5\ninitial_value = 1.2\n", ["message.M.initial_value: 1.2 lies between two steps, 1 and 1.5"]),
    (WHOLE + "initial_value = 256\n", ["message.M.initial_value: 256 is stored as 256, and 8 bits hold 0 to 255"]),
    (WHOLE + 'unit = "%"\nfactor = 0.5\ninitial_value = -1\n', ["message.M.initial_value: -1 is stored as -2, and 8 bits hold 0.0 % to 127.5 %"]),
    (WHOLE + "signed = true\ninitial_value = 128\n", ["message.M.initial_value: 128 is stored as 128, and 8 signed bits hold -128 to 127"]),
    (WHOLE + "initial_value = 1\ninitial_value_raw = 1\n", ["message.M.initial_value: stands beside initial_value_raw: one of them"]),
    (WHOLE + "initial_value_raw = 4294967296\n", ["message.M.initial_value_raw: is 4294967296, has to be -2147483648 to 4294967295"]),
    (WHOLE + 'initial_value = "open"\n', ['message.M.initial_value: "open" is none of its values (it has no named ones)']),
    (WHOLE + 'values = { 1 = "open" }\ninitial_value = "shut"\n', ['message.M.initial_value: "shut" is none of its values open']),
    (WHOLE + 'values = { a = "open" }\n', ["message.M.values: a = open: has to be a whole number and a name in quotes"]),
    (WHOLE + "minimum = 3\nmaximum = 2\n", ["message.M.maximum: is 2, below the minimum 3"]),
    (WHOLE + 'filter = "NewIsBig"\n', ['message.M.filter.algorithm: is "NewIsBig", has to be one of Always, Never, MaskedNewEqualsX, MaskedNewDiffersX, '
                                       "NewIsEqual, NewIsDifferent, MaskedNewEqualsMaskedOld, MaskedNewDiffersMaskedOld, NewIsWithin, NewIsOutside, "
                                       "NewIsGreater, NewIsLessOrEqual, NewIsLess, NewIsGreaterOrEqual, OneEveryN"]),
    (WHOLE + 'filter = "NewIsWithin"\n', ["message.M.filter.min: is missing; it has to be a number in the message's unit"]),
    (WHOLE + 'filter = { algorithm = "Always", min = 1 }\n', ["message.M.filter.min: is not known here; known are algorithm"]),
    (WHOLE + 'filter = { algorithm = "OneEveryN", period = 3, offset = 3 }\n',
     ["message.M.filter.period: is 3 with offset 3: a period is 1 to 255, and the offset below it"]),
    (WHOLE + 'factor = -1\nfilter = "F_NewIsLess"\n',
     ["message.M.filter.algorithm: NewIsLess compares what is stored, and with a factor below 0 that falls where the reading rises"]),
    (WHOLE + 'filter = { algorithm = "NewIsWithin", min = -1, max = 3 }\n', ["message.M.filter.min: -1 is stored as -1, has to be 0 to 4294967295"]),
    (WHOLE + 'filter = { algorithm = "NewIsWithin", min = 1, max_raw = 3 }\n', ["message.M.filter.min: and max have to be both in units, or both raw"]),
    (WHOLE + 'transfer_property = "now"\n', ['message.M.transfer_property: is "now", has to be one of triggered, pending']),
    (WHOLE + "queue_size = 3\n", ["message.M.queue_size: is not known here; known are "]),
    (WHOLE + 'receivers = ["van"]\n', ['message.M.receivers: there is no receiver of F with the name "van"']),
    (WHOLE + "receiver.case = { queue_size = 17 }\n", ["message.M.receiver.case.queue_size: is 17, has to be 0 to 16"]),
    (WHOLE + 'receiver.van = { queue_size = 1 }\n', ['message.M.receiver: there is no receiver "van"']),
    (WHOLE + 'multiplexor = "X"\n', ['message.M.multiplexor: there is no message "X"']),
    (WHOLE + FREE + 'multiplexor = "M"\n', ["message.N.multiplexor: M has to lie in the same I-PDU and to have no multiplexor itself"]),
    (WHOLE + MESSAGE.replace("M]", "O]") + 'multiplexor = "M"\n', ["message.O.multiplexor_value: is missing; it has to be a whole number"]),
    (WHOLE + MESSAGE.replace("M]", "O]") + 'multiplexor = "M"\nmultiplexor_value = 256\n', ["message.O.multiplexor_value: is 256, has to be 0 to 255"]),
    (WHOLE + "multiplexor_value = 1\n", ["message.M.multiplexor: is missing; it has to be a text in quotes"]),
    (WHOLE + '[message.D]\nreceives = "X"\n', ['message.D.receives: there is no message "X"']),
    (WHOLE + '[message.D]\nreceives = "M"\nnode = "rack"\n', ['message.D.node: there is no node "rack"']),
    ('outside = ["rack"]\n' + WHOLE + '[message.D]\nreceives = "M"\nnode = "rack"\n', ['message.D.node: "rack" neither sends nor receives M']),
    (WHOLE + '[message.D]\nreceives = "M"\n[message.E]\nreceives = "D"\n', ["message.E.receives: D is a receive message itself"]),
    (HEAD + FREE + 'direction = "up"\n', ['message.N.direction: is "up", has to be one of sent, received']),
    (HEAD + FREE + "start_bit = 0\n", ["message.N.start_bit: is not known here; known are "]),
    ("tick_ms = \n", ["is no TOML: Invalid value (at line 1, column 11)"]),
    # every section's own fault, and none for a message of an I-PDU that is wrong itself
    (HEAD + "[ipdu.F]\nsize_in_bytes = 0\n" + MESSAGE + FREE + "factor = 0\n",
     ["ipdu.F.size_in_bytes: is 0, has to be 1 to 8, the bytes of a frame", "message.N.factor: is 0"]),
]


def described(text, folder):
    path = os.path.join(folder, "van.toml")
    with open(path, "w", encoding="utf-8") as file:
        file.write(text)
    return load(path)


def refused(folder):
    for text, expected in REFUSED:
        try:
            described(text, folder)
            lines = ["nothing"]
        except Wrong as error:
            lines = [line.removeprefix(os.path.join(folder, "van.toml: ")) for line in error.lines]
        if len(lines) != len(expected) or any(not (line.startswith(want) if want.endswith(" ") else line == want) for line, want in zip(lines, expected)):
            sys.exit(f"desk_toml.py: this file is answered with {lines}, should be {expected}:\n{text}")


def too_many(folder):
    """Tables have room for 32 I-PDUs, 128 messages and 512 places in queues."""
    full = "".join(f'[message.N{i}]\nnode = "van"\n' + ('direction = "received"\nqueue_size = 16\n' if i < 32 else "") for i in range(128))
    frames = "".join(f"[ipdu.F{i}]\nsize_in_bytes = 1\nreceivers = [\"van\"]\n" for i in range(32))
    table = described(HEAD + frames + full, folder).boards()[0].table
    if len(table) != 16 + 16 * 32 + 32 * 128:
        sys.exit(f"desk_toml.py: the largest table has {len(table)} bytes")
    more = [
        ('[ipdu.G]\nsize_in_bytes = 1\nreceivers = ["van"]\n', "has 33 I-PDUs, and a table has room for 32"),
        ('[message.O]\nnode = "van"\n', "has 129 messages, and a table has room for 128"),
        ("", "has 513 places in queues, and a table has room for 512"),
    ]
    for text, reason in more:
        changed = full if text else full.replace('[message.N33]\nnode = "van"\n', '[message.N33]\nnode = "van"\ndirection = "received"\nqueue_size = 1\n')
        try:
            described(HEAD + frames + changed + text, folder)
            sys.exit(f"desk_toml.py: a node that {reason} is not refused")
        except Wrong as error:
            if not str(error).endswith(f"nodes.van: {reason}"):
                sys.exit(f"desk_toml.py: a node that {reason}: {error}")


def records(text, folder, node):
    """I-PDU and object records of a node's table."""
    table = next(board.table for board in described(text, folder).boards() if board.node == node)
    return ipdu_records(table), object_records(table)


def check(what, found, expected):
    if found != expected:
        sys.exit(f"desk_toml.py: {what} is {found}, should be {expected}")


def meanings(folder):
    """What the examples do not show."""
    scaled = 'factor = -0.5\noffset = 100\ninitial_value = 99.5\nfilter = { algorithm = "NewIsWithin", min = 90, max = 99 }\n'
    ipdus, objects = records(WHOLE + scaled + 'receiver.case = { queue_size = 2, initial_value = 98 }\n', folder, "van")
    check("a value with a factor below 0", objects[0].initial, 1)
    check("a range with a factor below 0", (objects[0].first, objects[0].second), (2, 20))
    _, objects = records(WHOLE + 'factor = -2\nfilter = { algorithm = "NewIsWithin", min_raw = 3, max_raw = 9 }\n', folder, "van")
    check("a raw range with a factor below 0", (objects[0].first, objects[0].second), (3, 9))
    _, objects = records(WHOLE + scaled + 'receiver.case = { queue_size = 2, initial_value = 98 }\n', folder, "case")
    check("the receiver's own", (objects[0].depth, objects[0].initial, objects[0].filter), (2, 4, 0))
    _, objects = records(WHOLE + scaled, folder, "case")
    check("a receiver's initial value is the message's", objects[0].initial, 1)
    _, objects = records(WHOLE + 'values = { 3 = "open" }\ninitial_value = "open"\n', folder, "van")
    check("a named value", objects[0].initial, 3)
    _, objects = records(WHOLE + "signed = true\ninitial_value_raw = -1\n", folder, "van")
    check("a raw value below 0", objects[0].initial, 2**32 - 1)
    _, objects = records(WHOLE + 'filter = { algorithm = "F_MaskedNewDiffersX", mask = 0xF0, x = 0x10 }\n', folder, "van")
    check("mask and x", (objects[0].filter, objects[0].first, objects[0].second), (3, 0xF0, 0x10))
    ipdus, _ = records(HEAD.replace("nodes", "title = 'x'\nnodes") + "[defaults]\ndeadline_ms = 70\n" + IPDU.replace("deadline_ms = 100\n", ""), folder, "van")
    check("a default deadline", ipdus[0].deadline, 7)
    ipdus, _ = records(HEAD + IPDU + "time_period_ms = 50\n", folder, "van")
    check("a period alone is periodic, and its offset is the period", (ipdus[0].mode, ipdus[0].period, ipdus[0].offset), (1, 5, 5))
    ipdus, _ = records("tick_ms = 2.5\n" + WHOLE.removeprefix("tick_ms = 10\n"), folder, "van")
    check("a tick of 2.5 ms", ipdus[0].deadline, 40)
    ipdus, objects = records(WHOLE + 'receivers = []\n', folder, "case")
    check("a message that nobody receives", (len(ipdus), len(objects)), (1, 0))
    shared = MESSAGE.replace("M]", "L]") + 'multiplexor = "M"\nmultiplexor_value = 3\n'
    late = described(HEAD + IPDU + shared + MESSAGE.replace("= 8\nsize", "= 0\nsize") + '[message.S]\nreceives = "L"\nnode = "case"\n', folder).messages
    check("a multiplexed message", [(each.name, each.multiplexor and each.multiplexor.name, each.is_in(b"\3..."), each.is_in(b"\4...")) for each in late],
          [("L", "M", True, False), ("M", None, True, True), ("S", "M", True, False)])
    inside = WHOLE + '[message.D]\nreceives = "M"\n[message.S]\nreceives = "M"\nnode = "case"\nqueue_size = 3\n'
    _, objects = records(inside, folder, "van")
    check("a receiver inside", [(o.kind, o.ipdu, o.sender, o.bits) for o in objects], [(1, 0, NONE, 8), (2, NONE, 0, 32)])
    _, objects = records(inside, folder, "case")
    check("a receiver of its own name replaces the plain one", [(o.ipdu, o.start, o.depth) for o in objects], [(0, 8, 3)])


LEFT_OUT = object()
ODD = [LEFT_OUT, True, -1, 0, 1, 255, 2**40, Decimal("2.5"), Decimal("nan"), Decimal("inf"), Decimal("1e25"), "", "van", "two\nlines", [], ["van"], [1], {},
       {"van": 1}, {"case": {}}, {"algorithm": 3}, datetime.date(2026, 1, 1)]


def paths(section, above=()):
    """The keys of a file, each with the sections that it stands in."""
    for key, value in section.items():
        yield (*above, key)
        if isinstance(value, dict):
            yield from paths(value, (*above, key))


def with_value(data, path, value):
    changed = copy.deepcopy(data)
    section = changed
    for key in path[:-1]:
        section = section[key]
    section[path[-1]] = value
    if value is LEFT_OUT:
        del section[path[-1]]
    return changed


def compiled(data):
    """All that is made of a file; the lines where it is refused."""
    try:
        network = Source("van.toml", *merged("van.toml", data)).network()
        for board in network.boards():
            if first_fault(board.table) is not None:
                return ["a wrong table"]
            for make in (c_header, rust_module, report):
                make(board)
        dbc(network)
    except Wrong as error:
        return [line for line in error.lines if not line.startswith("van.toml: ") or not line.isprintable()]
    return None


def odd_values():
    """How many files are tried; an error of Python's own ends the test."""
    with open(os.path.join(TOP, "examples", "van.toml"), encoding="utf-8") as file:
        data = tomllib.loads(file.read(), parse_float=Decimal)
    answers = []
    for path in paths(data):
        for value in ODD:
            answers.append(compiled(with_value(data, path, value)))
            if answers[-1]:
                sys.exit(f"desk_toml.py: examples/van.toml with {'.'.join(path)} = {value!r}: {answers[-1]}")
    if answers.count(None) < 200 or answers.count([]) < 2000:
        sys.exit(f"desk_toml.py: of {len(answers)} changed files only {answers.count(None)} compile, {answers.count([])} are refused")
    return len(answers)


def program(folder):
    """The program says the same, a line each, with exit status 1; and 2 for wrong arguments."""
    path = os.path.join(folder, "van.toml")
    with open(path, "w", encoding="utf-8") as file:
        file.write(REFUSED[-1][0])
    table = [os.path.join(TOP, "tools", "table")]
    said = subprocess.run(table + ["compile", path], capture_output=True, text=True, check=False)
    check("what the program says", (said.returncode, said.stdout, said.stderr), (1, "", "".join(f"table: {path}: {line}\n" for line in REFUSED[-1][1])))
    check("the status of no command", subprocess.run(table, capture_output=True, check=False).returncode, 2)
    check("the status of help", subprocess.run(table + ["compile", "--help"], capture_output=True, check=False).returncode, 0)


def main():
    with tempfile.TemporaryDirectory() as folder:
        refused(folder)
        too_many(folder)
        meanings(folder)
        program(folder)
    print(f"desk_toml.py: {len(REFUSED) + 3} wrong files get their lines; {odd_values()} with an odd value compile or are refused")


main()
