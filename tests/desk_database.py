#!/usr/bin/env python3
"""What tools/desk/database.py makes of DBC, KCD and ARXML files: examples/climate.dbc, each rule of its own, each refusal and each wrong file by its line.
Then tools/desk/dbc.py: a network as a DBC and back is the same. Needs Debian's python3-canmatrix, and for KCD and ARXML python3-lxml; left out without."""
import os
import random
import subprocess
import sys
import tempfile

sys.dont_write_bytecode = True
TOP = os.path.join(os.path.dirname(os.path.realpath(__file__)), "..")
sys.path[:0] = [os.path.join(TOP, "tools"), os.path.join(TOP, "tests", "desk")]

import database_cases as cases
import database_names as names
from desk import database
from desk.dbc import dbc, encoded
from desk.records import TRIGGERED
from desk.source import load
from desk.wrong import Wrong, write
from random_networks import random_toml

NETWORKS = 150  # random ones


def fail(what, found, expected):
    sys.exit(f"desk_database.py: {what}:\n  is        {found}\n  should be {expected}")


def same(what, found, expected):
    if found != expected:
        fail(what, found, expected)


class Folder:
    """Files in a folder of its own, which messages do not name."""

    def __init__(self, path):
        self.path = path

    def file(self, name, data):
        write(os.path.join(self.path, name), data)
        return os.path.join(self.path, name)

    def refusal(self, act, *arguments):
        """The lines of the Wrong that an act ends in, or none."""
        try:
            act(*arguments)
        except Wrong as error:
            return [line.replace(self.path + os.sep, "") for line in error.lines]
        return []


def test_climate():
    found = database.read(os.path.join(TOP, "examples", "climate.dbc"))
    same("climate.dbc, nodes", found["nodes"], ["VAN", "CASE", "GATEWAY"])
    same("climate.dbc, I-PDUs", list(found["ipdu"].items()), list(cases.CLIMATE_IPDUS.items()))
    same("climate.dbc, messages", list(found["message"].items()), list(cases.CLIMATE_MESSAGES.items()))
    numbers = [value for section in found["message"].values() for value in section.values() if isinstance(value, float)]
    same("climate.dbc, floats", numbers, [])


def test_readings(folder):
    for what, lines, ipdu, message in cases.READINGS:
        found = database.read(folder.file("a.dbc", cases.dbc_text(lines)))
        same(f"{what}, I-PDU", {key: found["ipdu"]["Frame"].get(key) for key in ipdu}, ipdu)
        same(f"{what}, message", {key: found["message"]["Signal"].get(key) for key in message}, message)
    for data in cases.BYTES:
        same(f"the unit in {data}", database.read(folder.file("a.dbc", data))["message"]["Signal"]["unit"], "°C")
    for word, mode in cases.send_types():
        for cycle in (0, 100):
            for given in cases.attribute_ways("BO_", "GenMsgSendType", "BO_ 100", word):
                text = cases.dbc_text([cases.FRAME, cases.SIGNAL, *cases.CYCLE, f'BA_ "GenMsgCycleTime" BO_ 100 {cycle};', *given])
                ipdu = database.read(folder.file("a.dbc", text))["ipdu"]["Frame"]
                as_timed = mode == "as timed"
                same(f"{word} with a cycle of {cycle}", (ipdu.get("transmission_mode"), "transmission_mode" in ipdu.get("refused", {})),
                     (None if as_timed else mode, mode is None))
                same(f"{word}, its period", "time_period_ms" in ipdu, cycle > 0 if as_timed else mode != "direct")
    for word, expected in cases.SIGNAL_SEND_TYPES.items():
        for given in cases.attribute_ways("SG_", "GenSigSendType", "SG_ 100 Signal", word):
            message = database.read(folder.file("a.dbc", cases.dbc_text([cases.FRAME, cases.SIGNAL, *given])))["message"]["Signal"]
            keys = {key: message[key] for key in ("transfer_property", "filter") if key in message}
            same(f"signal {word}", (keys, "transfer_property" in message.get("refused", {})), (expected or {}, expected is None))


def test_refusals(folder):
    for what, lines, toml, expected in cases.REFUSALS:
        folder.file("a.dbc", cases.dbc_text(lines))
        same(what, folder.refusal(load, folder.file("a.toml", cases.TOML + toml)), expected)


def test_unknown_names(folder):
    folder.file("a.dbc", cases.dbc_text(names.LINES))
    for toml, expected in names.UNKNOWN_NAMES:
        same(f"a TOML with {toml}", folder.refusal(load, folder.file("a.toml", cases.TOML + toml)), expected)
    for nodes, toml, expected in names.UNKNOWN_NODES:
        same(f"{nodes} with {toml}", folder.refusal(load, folder.file("a.toml", cases.TOML.replace('"CASE"', nodes) + toml)), expected)


def test_over(folder):
    for what, lines, toml, node, ipdu, objects in cases.OVER:
        folder.file("a.dbc", cases.dbc_text(lines))
        board = next(board for board in load(folder.file("a.toml", cases.TOML.replace('"CASE"', '"CASE", "GATEWAY"') + toml)).boards() if board.node == node)
        record = board.ipdu_records[0]
        same(f"{what}, I-PDU", (record.mode, record.period, record.minimum_delay), ipdu)
        same(f"{what}, objects", [(entry.name, entry.record.kind) for entry in board.objects], objects)


def with_tools(program, *arguments):
    """A program of its own, beside tools/desk."""
    program = "import sys; from desk import database; " + program
    return subprocess.run([sys.executable, "-Bc", program, *arguments], cwd=os.path.join(TOP, "tools"), capture_output=True, check=False)


def test_wrong_files(folder):
    for name, data, expected in cases.WRONG_FILES:
        same(f"{name} with {data[:60]}", folder.refusal(database.read, folder.file(name, data)), [expected])
    for lines, expected in cases.WRONG_LINES:
        same(f"a DBC with {lines}", folder.refusal(database.read, folder.file("a.dbc", cases.dbc_text(lines))), ["a.dbc: " + expected])
    same("a missing file", folder.refusal(database.read, os.path.join(folder.path, "none.dbc")), ["none.dbc: can't be read: No such file or directory"])
    run = with_tools("sys.modules['canmatrix'] = None; database.DEBIAN = sys.executable; database.read(sys.argv[1])", folder.file("a.dbc", ""))
    same("no canmatrix", run.stderr.decode().splitlines()[-1].replace(folder.path + os.sep, ""), "desk.wrong.Wrong: a.dbc: " + database.NEEDED)
    run = with_tools("database.read(sys.argv[1])", os.path.join("..", "examples", "climate.dbc"))
    same("what canmatrix says", (run.returncode, run.stdout, run.stderr), (0, b"", b""))


def test_other_formats(folder):
    """KCD and ARXML as canmatrix itself writes them. False where lxml is missing."""
    formats = database.library("")
    if "kcd" not in formats.supportedFormats:
        return False
    bus = database.load(os.path.join(TOP, "examples", "climate.dbc"))
    for kind in ("kcd", "arxml"):
        path = os.path.join(folder.path, "climate." + kind)
        with database.caught():
            formats.dumpp({"climate": bus}, path)
        found = database.read(path)
        prefix, lost = cases.LOST[kind]
        for name, section in cases.CLIMATE_IPDUS.items():
            expected = {key: value for key, value in section.items() if key not in lost}
            same(f"{kind}, {name}", {key: found["ipdu"][prefix + name].get(key) for key in expected}, expected)
        for name, section in cases.CLIMATE_MESSAGES.items():
            expected = {key: value for key, value in section.items() if key not in lost} | {"ipdu": prefix + section["ipdu"]}
            same(f"{kind}, {name}", {key: found["message"][name].get(key) for key in expected}, expected)
    pages = database.load(folder.file("a.dbc", cases.dbc_text(cases.PAGES)))
    with database.caught():
        formats.dumpp({"pages": pages}, os.path.join(folder.path, "pages.kcd"))
    found = database.read(os.path.join(folder.path, "pages.kcd"))["message"]
    same("kcd, multiplexors", [(name, section.get("multiplexor"), section.get("multiplexor_value")) for name, section in found.items()],
         [("Mux", None, None), ("Signal", "Mux", 3), ("Rain", "Mux", 4)])
    for text, ipdu in cases.XML_READINGS:
        found = database.read(folder.file("a.kcd", text))
        same(f"I-PDU of {text}", found["ipdu"], {"Frame": ipdu})
        same(f"message of {text}", found["message"], {"Signal": cases.KCD_MESSAGE})
    for name, text, expected in cases.WRONG_XML:
        same(f"{name} with {text[:60]}", folder.refusal(database.read, folder.file(name, text)), [expected])
    return True


def test_container():
    """A frame of ARXML that holds PDUs, as canmatrix has it."""
    import canmatrix
    frame = canmatrix.Frame("Frame", size=8)
    frame.add_pdu(canmatrix.Pdu("First"))
    same("a container", database.ipdu(canmatrix.CanMatrix(), frame).get("refused"),
         {"": "holds several PDUs, and a frame holds one I-PDU here; leave_out leaves it out"})


# a network as a DBC, and back

def short(name):
    """FRAME.SIGNAL is SIGNAL in a DBC."""
    return name.rpartition(".")[2]


def carried(network):
    """What a DBC has a word for."""
    ipdus = [(ipdu.name, ipdu.length, ipdu.identifier, ipdu.extended, ipdu.sender, ipdu.mode, ipdu.period, ipdu.offset, ipdu.minimum_delay)
             for ipdu in network.ipdus]
    messages = {}
    for message in network.messages:
        if message.ipdu is not None and message.sender() is not None:
            on_change = message.filter.name == "NewIsDifferent" and message.transfer == TRIGGERED
            multiplexor = message.multiplexor and (short(message.multiplexor.name), message.multiplexor_value)
            messages[message.ipdu.name, short(message.name)] = (message.placed(), message.signed, message.scaling, message.transfer, message.initial, on_change,
                                                                list(message.receivers), multiplexor)
    return ipdus, messages


def without_unsaid(board):
    """The records of a board by name, but for deadlines, filters, queues and receivers inside."""
    ipdus = [(ipdu.name, record.direction, record.length, record.mode, record.period, record.offset, record.minimum_delay)
             for ipdu, record in zip(board.ipdus, board.ipdu_records)]
    records = {(board.ipdu_name(entry.record.ipdu), short(entry.name)): entry.record for entry in board.objects if entry.of.ipdu is not None}
    objects = {name: (record.kind, record.start, record.bits, record.order, record.transfer, record.initial) for name, record in records.items()}
    return ipdus, objects


def check_back(folder, what, network):
    """The network that its DBC gives back."""
    folder.file("back.dbc", encoded(dbc(network)))
    toml = f"database = \"back.dbc\"\ntick_ms = {network.tick}\nnodes = {network.nodes}\ndefaults.deadline_ms = {network.tick}\n"
    again = load(folder.file("back.toml", toml))
    same(f"{what}, back", carried(again), carried(network))
    for board, other in zip(network.boards(), again.boards()):
        same(f"{what}, table of {board.node}", without_unsaid(other), without_unsaid(board))
    return len(again.messages)


def test_back(folder):
    count = sum(check_back(folder, name, load(os.path.join(TOP, "examples", name))) for name in ("van.toml", "climate.toml"))
    text = dbc(load(folder.file("odd.toml", cases.ODD_TEXTS)))
    same("odd texts", [line for line in text.splitlines() if line.startswith(cases.ODD_STARTS)], cases.ODD_LINES)
    shared = database.read(folder.file("odd.dbc", encoded(text)))["message"]["Shared"]
    same("odd texts, back", (shared["unit"], shared["values"], shared["dbc_start_bit"]), ("a/b'c Ω", {"0": "say 'no'", "-1": "b/"}, 23))
    van = os.path.join(folder.path, "van.dbc")
    subprocess.run([os.path.join(TOP, "tools", "table"), "dbc", os.path.join(TOP, "examples", "van.toml"), "--out", van], check=True)
    same("the unit for canmatrix by itself", database.library("").loadp_flat(van).frame_by_name("Cargo").signal_by_name("Freezer").unit, "°C")
    random.seed(310)
    met = set()
    for number in range(NETWORKS):
        toml = random_toml()
        try:
            network = load(folder.file("random.toml", toml))
            count += check_back(folder, f"network {number}", network)
        except Wrong as error:
            sys.exit(f"desk_database.py: network {number}: {error}\n{toml}")
        met |= {(ipdu.mode, ipdu.extended, network.tick < 1) for ipdu in network.ipdus}
        met |= {(message.big, message.signed, message.transfer, message.node is None) for message in network.messages}
        met |= {(message.multiplexor is not None, message.node is None) for message in network.messages}
    same("kinds of I-PDUs and messages in random networks", len(met), 3 * 2 * 2 + 2 * 2 * 2 * 2 + 2 * 2)
    for what, toml, expected in cases.NOT_WRITTEN:
        same(what, folder.refusal(lambda: dbc(load(folder.file("a.toml", toml)))), [expected])
    return count


def main():
    try:
        database.library("desk_database.py")
    except Wrong:
        print("desk_database.py: left out: python3-canmatrix is not on this machine")
        return
    with tempfile.TemporaryDirectory() as path:
        folder = Folder(path)
        test_climate()
        test_readings(folder)
        test_refusals(folder)
        test_unknown_names(folder)
        test_over(folder)
        test_wrong_files(folder)
        test_container()
        others = test_other_formats(folder)
        count = test_back(folder)
    refusals, wrong = len(cases.REFUSALS + names.UNKNOWN_NAMES + names.UNKNOWN_NODES), len(cases.WRONG_FILES + cases.WRONG_LINES)
    print(f"desk_database.py: {len(cases.READINGS)} readings, {refusals} refusals, {wrong} wrong files; {count} messages of {NETWORKS + 2} networks "
          "are the same after a DBC" + ("" if others else "; KCD and ARXML left out: python3-lxml is not on this machine"))


main()
