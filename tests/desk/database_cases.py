"""What tests/desk_database.py looks at: DBC, KCD and ARXML texts, and what has to become of them."""
from decimal import Decimal

FRAME = "BO_ 100 Frame: 8 VAN"
SIGNAL = ' SG_ Signal : 0|8@1+ (1,0) [0|0] "" CASE'
FREE = "BO_ 3221225472 VECTOR__INDEPENDENT_SIG_MSG: 0 Vector__XXX"
CYCLE = ['BA_DEF_ BO_ "GenMsgCycleTime" INT 0 65535;', 'BA_DEF_DEF_ "GenMsgCycleTime" 0;']
TOML = 'database = "a.dbc"\ntick_ms = 10\nnodes = ["VAN", "CASE"]\ndefaults.deadline_ms = 100\n'


def dbc_text(lines):
    return "\n".join(['VERSION ""', "BU_: VAN CASE GATEWAY", *lines, ""])


# examples/climate.dbc

CLIMATE_IPDUS = {
    "VanAir": {"id": 0x120, "sender": "VAN", "size_in_bytes": 8, "transmission_mode": "mixed", "time_period_ms": 500, "time_offset_ms": 100,
               "minimum_delay_time_ms": 100, "comment": "The air around the cargo"},
    "VanCargo": {"id": 0x121, "sender": "VAN", "size_in_bytes": 4, "transmission_mode": "direct", "minimum_delay_time_ms": 50,
                 "comment": "The freezer, the door and the light on the case"},
    "CaseState": {"id": 0x18FF5023, "extended": True, "sender": "CASE", "size_in_bytes": 6, "transmission_mode": "periodic", "time_period_ms": 250,
                  "comment": "What the case's controller says"},
}
ON_CHANGE = {"transfer_property": "triggered", "filter": "NewIsDifferent"}
PENDING = {"transfer_property": "pending"}
BOTH = {"receivers": ["CASE", "GATEWAY"]}
CLIMATE_MESSAGES = {
    "FrontHumidity": {"ipdu": "VanAir", "dbc_start_bit": 0, "size_in_bits": 10, "factor": Decimal("0.1"), "unit": "%", "minimum": 0, "maximum": 100,
                      "initial_value_raw": 450, **BOTH, **ON_CHANGE, "comment": "Relative humidity behind the cab"},
    "RearHumidity": {"ipdu": "VanAir", "dbc_start_bit": 17, "size_in_bits": 10, "byte_order": "big", "factor": Decimal("0.1"), "unit": "%", "minimum": 0,
                     "maximum": 100, "initial_value_raw": 450, **BOTH, **ON_CHANGE, "comment": "Relative humidity at the rear door"},
    "AirTemperature": {"ipdu": "VanAir", "dbc_start_bit": 39, "size_in_bits": 12, "byte_order": "big", "signed": True, "factor": Decimal("0.1"), "unit": "°C",
                       "minimum": -40, "maximum": 80, "initial_value_raw": 200, **BOTH, **PENDING},
    "CarbonDioxide": {"ipdu": "VanAir", "dbc_start_bit": 48, "size_in_bits": 12, "factor": 2, "unit": "ppm", "minimum": 0, "maximum": 8190,
                      "initial_value_raw": 210, "receivers": ["GATEWAY"], **PENDING},
    "FreezerTemperature": {"ipdu": "VanCargo", "dbc_start_bit": 0, "size_in_bits": 8, "signed": True, "factor": Decimal("0.5"), "unit": "°C", "minimum": -40,
                           "maximum": 20, "initial_value_raw": -36, **BOTH},
    "Door": {"ipdu": "VanCargo", "dbc_start_bit": 8, "size_in_bits": 2, "minimum": 0, "maximum": 3, "initial_value_raw": 3, **BOTH,
             "values": {"0": "closed", "1": "open", "2": "ajar", "3": "unknown"}, **ON_CHANGE},
    "CaseLight": {"ipdu": "VanCargo", "dbc_start_bit": 23, "size_in_bits": 12, "byte_order": "big", "unit": "lx", "minimum": 0, "maximum": 4095,
                  "initial_value_raw": 200, "receivers": ["CASE"], **PENDING, "comment": "Light on the case; it waits for the next frame"},
    "Shock": {"ipdu": "CaseState", "dbc_start_bit": 0, "size_in_bits": 16, "factor": Decimal("0.01"), "unit": "g", "minimum": 0, "maximum": 100,
              "receivers": ["VAN"], "comment": "Shocks that the case felt, one after the other"},
    "WantedHumidity": {"ipdu": "CaseState", "dbc_start_bit": 17, "size_in_bits": 10, "byte_order": "big", "factor": Decimal("0.1"), "unit": "%", "minimum": 20,
                       "maximum": 80, "initial_value_raw": 500, "receivers": ["VAN"], "comment": "The humidity that the case asks for"},
    "CaseTemperature": {"ipdu": "CaseState", "dbc_start_bit": 32, "size_in_bits": 10, "signed": True, "factor": Decimal("0.25"), "offset": 20, "unit": "°C",
                        "minimum": -40, "maximum": 80, "initial_value_raw": -8, "receivers": ["VAN", "GATEWAY"]},
}

# send types

MODES = {
    "periodic": ["cyclic", "CyclicX", "periodic", "FixedPeriodic"],
    "direct": ["spontaneous", "event", "onEvent", "triggered", "direct", "OnChange", "OnWrite", "SpontanWithDelay"],
    "mixed": ["cyclicAndSpontaneous", "cyclicAndSpontaneousX", "cyclicAndSpontanWithDelay", "mixed", "cyclicEvent", "EventPeriodic"],
    "as timed": ["noMsgSendType", "None"],
    None: ["cyclicIfActive", "ifActive", "reserved"],
}
SIGNAL_SEND_TYPES = {
    "Cyclic": PENDING, "OnWrite": {"transfer_property": "triggered"}, "onChange": ON_CHANGE, "NoSigSendType": {}, "none": {},
    "OnWriteWithRepetition": None, "OnChangeWithRepetition": None, "IfActive": None, "IfActiveWithRepetition": None,
}


def send_types():
    return [(word, mode) for mode, words in MODES.items() for word in words]


def attribute_ways(kind, name, of, word):
    """A DBC's ways to give an enumeration's word: by index, as text, and as default."""
    define = f'BA_DEF_ {kind}  "{name}" ENUM  "other","{word}";'
    return [[define, f'BA_DEF_DEF_ "{name}" "other";', f'BA_ "{name}" {of} 1;'], [define, f'BA_ "{name}" {of} "{word}";'],
            [define, f'BA_DEF_DEF_  "{name}" "{word}";']]


def with_send_type(word):
    return attribute_ways("BO_", "GenMsgSendType", "BO_ 100", word)[0]


# readings: lines, and the keys of I-PDU and message that they give, None for none

TIMES = [line for name, time in (("Cycle", 10), ("StartDelay", 20), ("Delay", 30))
         for line in (f'BA_DEF_ BO_ "GenMsg{name}Time" INT 0 100;', f'BA_ "GenMsg{name}Time" BO_ 100 {time};')]
NO_MULTIPLEXOR = {"multiplexor": None, "multiplexor_value": None}
PAGES = [FRAME, ' SG_ Mux M : 0|4@1+ (1,0) [0|0] "" CASE', ' SG_ Signal m3 : 8|8@1+ (1,0) [0|0] "" CASE', ' SG_ Rain m4 : 8|8@1+ (1,0) [0|0] "" CASE']
START = 'BA_DEF_ SG_ "GenSigStartValue" FLOAT 0 0;'
READINGS = [
    ("the least", [FRAME, SIGNAL],
     {"id": 100, "extended": None, "sender": "VAN", "size_in_bytes": 8, "transmission_mode": None, "time_period_ms": None, "comment": None,
      "refused": None},
     {"ipdu": "Frame", "dbc_start_bit": 0, "size_in_bits": 8, "byte_order": None, "signed": None, "factor": None, "offset": None, "unit": None, "minimum": None,
      "maximum": None, "initial_value_raw": None, "receivers": ["CASE"], "values": None, "transfer_property": None, "filter": None, "comment": None}),
    ("nobody sends", ["BO_ 100 Frame: 8 Vector__XXX", SIGNAL], {"sender": None}, {"receivers": ["CASE"]}),
    ("nobody receives", [FRAME, SIGNAL.replace("CASE", "Vector__XXX")], {"sender": "VAN"}, {"receivers": []}),
    ("its sender is among the receivers", [FRAME, SIGNAL.replace("CASE", "VAN,CASE")], {}, {"receivers": ["CASE"]}),
    ("blanks between receivers", [FRAME, SIGNAL.replace("CASE", "CASE Vector__XXX GATEWAY")], {}, {"receivers": ["CASE", "GATEWAY"]}),
    ("times of a direct frame", [FRAME, SIGNAL, *TIMES, *with_send_type("event")],
     {"transmission_mode": "direct", "time_period_ms": None, "time_offset_ms": None, "minimum_delay_time_ms": 30}, {}),
    ("times of a periodic frame", [FRAME, SIGNAL, *TIMES, *with_send_type("cyclic")],
     {"transmission_mode": "periodic", "time_period_ms": 10, "time_offset_ms": 20, "minimum_delay_time_ms": None}, {}),
    ("times of a mixed frame", [FRAME, SIGNAL, *TIMES, *with_send_type("mixed")],
     {"transmission_mode": "mixed", "time_period_ms": 10, "time_offset_ms": 20, "minimum_delay_time_ms": 30}, {}),
    ("times of a frame with an unknown mode", [FRAME, SIGNAL, *TIMES, *with_send_type("ifActive")],
     {"transmission_mode": None, "time_period_ms": 10, "time_offset_ms": 20, "minimum_delay_time_ms": 30}, {}),
    ("nodes that BU_ does not have", ["BO_ 100 Frame: 8 ROOF", SIGNAL.replace("CASE", "DOOR")], {"sender": "ROOF"}, {"receivers": ["DOOR"]}),
    ("a whole number that says so", [FRAME, SIGNAL, "SIG_VALTYPE_ 100 Signal : 0;"], {}, {"refused": None}),
    ("one that says so with blanks", [FRAME, SIGNAL, "SIG_VALTYPE_  100  Signal:0 ; "], {}, {"refused": None}),
    ("values of a signal in no frame", [FRAME, SIGNAL, FREE, SIGNAL.replace("Signal", "Free"), 'VAL_ 3221225472 Free 0 "off" ;'], {}, {"values": None}),
    ("values of a variable", [FRAME, SIGNAL, 'VAL_ Outside 0 "off" ;'], {}, {"values": None}),
    ("a J1939 frame", [f"BO_ {0x98FEF1FE} Frame: 8 VAN", SIGNAL], {"id": 0x18FEF1FE, "extended": True}, {}),
    ("a cycle time by default", [FRAME, SIGNAL, CYCLE[0], 'BA_DEF_DEF_ "GenMsgCycleTime" 20;'], {"transmission_mode": None, "time_period_ms": 20}, {}),
    ("a fraction of a millisecond", [FRAME, SIGNAL, 'BA_DEF_ BO_ "GenMsgCycleTime" FLOAT 0 10;', 'BA_ "GenMsgCycleTime" BO_ 100 2.5;'],
     {"time_period_ms": Decimal("2.5")}, {}),
    ("a start value is as stored", [FRAME, SIGNAL.replace("(1,0)", "(0.5,-40)"), START, 'BA_ "GenSigStartValue" SG_ 100 Signal 130;'], {},
     {"initial_value_raw": 130, "factor": Decimal("0.5"), "offset": -40}),
    ("a negative start value", [FRAME, SIGNAL.replace("8@1+ (1,0)", "8@0- (0.5,-40)"), START, 'BA_ "GenSigStartValue" SG_ 100 Signal -3;'], {},
     {"initial_value_raw": -3, "signed": True, "byte_order": "big"}),
    ("a start value by default", [FRAME, SIGNAL.replace("(1,0)", "(2,7)"), START, 'BA_DEF_DEF_ "GenSigStartValue" 5;'], {}, {"initial_value_raw": 5}),
    ("a comment of two lines", [FRAME, SIGNAL, 'CM_ SG_ 100 Signal "one', 'BO_ 7 two";'], {}, {"comment": "one\nBO_ 7 two"}),
    ("signals in no frame", [FRAME, SIGNAL, FREE, SIGNAL], {}, {}),
    ("lines of others", [FRAME, SIGNAL, 'EV_ Out: none;', 'BA_DEF_ BO_ "Other" INT 0;', 'BA_ "Other" BO_ 999 1;', "SIG_GROUP_ wrong"], {}, {}),
    ("lists over several lines", ["LAST", "BS_: 500", "125000", 'VAL_TABLE_ Doors 0 "closed"', '1 "open" ;', FRAME, SIGNAL], {}, {}),
    ("a long name", [FRAME.replace("Frame", "F"), SIGNAL.replace("Signal", "S"), 'BA_DEF_ BO_ "SystemMessageLongSymbol" STRING ;',
                     'BA_DEF_ SG_ "SystemSignalLongSymbol" STRING ;', 'BA_ "SystemMessageLongSymbol" BO_ 100 "Frame";',
                     'BA_ "SystemSignalLongSymbol" SG_ 100 S "Signal";'], {"id": 100}, {"ipdu": "Frame"}),
    ("a send type with no definition", [FRAME, SIGNAL, 'BA_ "GenMsgSendType" BO_ 100 "mixed";'], {"transmission_mode": "mixed"}, {}),
    ("an enumeration of numbers", [FRAME, SIGNAL, 'BA_DEF_ SG_ "GenSigSendType" ENUM "1","cyclic";', 'BA_ "GenSigSendType" SG_ 100 Signal 1;'], {}, PENDING),
    ("a multiplexor alone", [FRAME, SIGNAL.replace(" :", " M :")], {"refused": None}, {"comment": None, **NO_MULTIPLEXOR}),
    ("a multiplexed signal", [*PAGES, "SG_MUL_VAL_ 100 Signal Mux 3-3;", 'CM_ SG_ 100 Signal "Wind";'],
     {"refused": None}, {"comment": "Wind", "multiplexor": "Mux", "multiplexor_value": 3}),
    ("a multiplexor whose name is another's too", [*PAGES, FRAME.replace("100 Frame", "101 Other"), SIGNAL.replace("Signal", "Mux")],
     {"refused": None}, {"comment": None, "multiplexor": "Frame.Mux", "multiplexor_value": 3}),
    ("a multiplexor", [line.replace("Signal", "Wind").replace("Mux", "Signal") for line in PAGES], {"refused": None}, {"comment": None, **NO_MULTIPLEXOR}),
    ("a multiplexed signal of more than is read", [*PAGES, "SG_MUL_VAL_ 100 Signal Mux 3-4;"], {}, NO_MULTIPLEXOR),
]

# bytes of a file whose unit is in degrees

DEGREES = dbc_text([FRAME, SIGNAL.replace('""', '"°C"')])
LATIN = DEGREES.encode("iso-8859-1")
BYTES = [LATIN, LATIN + b'CM_ "\x81";\n', LATIN.replace(b"\n", b"\r\n"), DEGREES.encode(), b"\xef\xbb\xbf" + DEGREES[DEGREES.index("BO_"):].encode()]

# refusals: lines, TOML, and what is said

def of_others(lines):
    """Sent by a node that gets no table, to nobody."""
    return [line.replace("VAN", "GATEWAY").replace("CASE", "Vector__XXX") for line in lines]


MORE = '[message.More]\nipdu = "Frame"\nstart_bit = 16\nsize_in_bits = 8\n'
WITH_TYPE = [FRAME, SIGNAL, *with_send_type("cyclicIfActive")]
NO_SENDER = ["BO_ 100 Frame: 8 Vector__XXX", SIGNAL, *TIMES]
SIGNAL_TYPE = [FRAME, SIGNAL, *attribute_ways("SG_", "GenSigSendType", "SG_ 100 Signal", "IfActive")[0]]
FLOAT = [FRAME, SIGNAL.replace("0|8", "0|32"), "SIG_VALTYPE_ 100 Signal : 1;"]
TWO_SENDERS = [FRAME, SIGNAL, "BO_TX_BU_ 100 : VAN,GATEWAY;"]
MULTIPLEX = "has extended multiplexing, and plain (one multiplexor, with signals m0, m1 ..) is all that is read; leave_out leaves it out"
NO_FLOAT = "a.dbc: message.Signal: is a floating-point signal, and the layer carries whole numbers; leave_out leaves it out"
REFUSALS = [
    ("a send type", WITH_TYPE, "", ["a.dbc: ipdu.Frame.transmission_mode: GenMsgSendType is cyclicIfActive, and there is direct, periodic and mixed; "
                                    "transmission_mode = .. in the TOML says which"]),
    ("a send type that the TOML replaces", WITH_TYPE, '[ipdu.Frame]\ntransmission_mode = "direct"\n', []),
    ("a send type of a frame that is left out", WITH_TYPE, 'leave_out = ["Frame"]\n', []),
    ("a send type of others' frame", of_others(WITH_TYPE), "", []),
    ("a signal's send type", SIGNAL_TYPE, "", ["a.dbc: message.Signal.transfer_property: GenSigSendType is IfActive, and there is triggered and pending; "
                                               "transfer_property = .. in the TOML says which"]),
    ("a signal's send type that the TOML replaces", SIGNAL_TYPE, '[message.Signal]\ntransfer_property = "pending"\n', []),
    ("a float", FLOAT, "", [NO_FLOAT]),
    ("a float that is left out", FLOAT, 'leave_out = ["Frame.Signal"]\n', []),
    ("a float that others send each other", of_others(FLOAT), "", []),
    ("two senders", TWO_SENDERS, "", ["a.dbc: ipdu.Frame.sender: VAN and GATEWAY send it, and an I-PDU has one sender; sender = .. in the TOML says which"]),
    ("two senders and a TOML", TWO_SENDERS, '[ipdu.Frame]\nsender = "VAN"\n', []),
    ("33 bits", [FRAME, SIGNAL.replace("0|8", "0|33")], "", ["a.dbc: message.Signal.size_in_bits: is 33, has to be 1 to 32, the bits of a value"]),
    ("CAN FD", [FRAME.replace("8 V", "12 V"), SIGNAL], "", ["a.dbc: ipdu.Frame.size_in_bytes: is 12, has to be 1 to 8, the bytes of a frame"]),
    ("no byte", [FRAME.replace("8 V", "0 V")], "", ["a.dbc: ipdu.Frame.size_in_bytes: is 0, has to be 1 to 8, the bytes of a frame"]),
    ("outside its frame", [FRAME.replace("8 V", "1 V"), SIGNAL.replace("0|8", "1|8")], "",
     ["a.dbc: message.Signal.dbc_start_bit: is 1: 8 little bits from there leave the 1 bytes of Frame"]),
    ("m0M", [FRAME, ' SG_ A M : 0|4@1+ (1,0) [0|0] "" CASE', ' SG_ B m0M : 4|4@1+ (1,0) [0|0] "" CASE', ' SG_ C m0 : 8|8@1+ (1,0) [0|0] "" CASE'], "",
     [f"a.dbc: ipdu.Frame: {MULTIPLEX}"]),
    ("a range of a multiplexor", [FRAME, ' SG_ A M : 0|4@1+ (1,0) [0|0] "" CASE', ' SG_ B m0 : 8|8@1+ (1,0) [0|0] "" CASE', "SG_MUL_VAL_ 100 B A 0-3;"], "",
     [f"a.dbc: ipdu.Frame: {MULTIPLEX}"]),
    ("m0 with no multiplexor", [FRAME, ' SG_ B m0 : 8|8@1+ (1,0) [0|0] "" CASE'], "", [f"a.dbc: ipdu.Frame: {MULTIPLEX}"]),
    ("two multiplexors", [FRAME, ' SG_ A M : 0|4@1+ (1,0) [0|0] "" CASE', ' SG_ B M : 8|8@1+ (1,0) [0|0] "" CASE'], "", [f"a.dbc: ipdu.Frame: {MULTIPLEX}"]),
    ("a multiplexor that is left out", PAGES, 'leave_out = ["Frame.Mux"]\n',
     ["a.dbc: message.Signal.multiplexor: Mux is left out, and a frame holds this one only while Mux is 3",
      "a.dbc: message.Rain.multiplexor: Mux is left out, and a frame holds this one only while Mux is 4"]),
    ("a multiplexor that is left out with its signals", PAGES, 'leave_out = ["Mux", "Signal", "Rain"]\n', []),
    ("a multiplexor that is wrong itself", [*PAGES, START, 'BA_ "GenSigStartValue" SG_ 100 Mux 1.5;'], "",
     ["a.dbc: message.Mux.initial_value_raw: is 1.5, has to be a whole number"]),
    ("a multiplexor that never has the value", [line.replace("m4", "m16") for line in PAGES], "",
     ["a.dbc: message.Rain.multiplexor_value: is 16, has to be 0 to 15"]),
    ("a multiplexor in the TOML", PAGES, MORE + 'multiplexor = "Frame.Mux"\nmultiplexor_value = 5\n', []),
    ("a wrong multiplexor in the TOML", PAGES, MORE + 'multiplexor = "Frame.Mix"\nmultiplexor_value = 5\n',
     ['a.toml: message.More.multiplexor: there is no message "Frame.Mix"']),
    ("times with no sender", NO_SENDER, "", []),
    ("times with a sender from the TOML", NO_SENDER, '[ipdu.Frame]\nsender = "VAN"\ntime_offset_ms = 25\n',
     ["a.toml: ipdu.Frame.time_offset_ms: 25 ms is no whole number of ticks of 10 ms: 2 ticks are 20 ms, 3 are 30 ms"]),
    ("a cyclic frame with no cycle", [FRAME, SIGNAL, *with_send_type("cyclic")], "",
     ["a.dbc: ipdu.Frame.time_period_ms: 0 ms are 0 ticks of 10 ms, has to be 1 to 65535 ticks"]),
    ("a cycle out of proportion", [FRAME, SIGNAL, *CYCLE, 'BA_ "GenMsgCycleTime" BO_ 100 1e99;'], "",
     ['a.dbc: ipdu.Frame.time_period_ms: is "1e99", has to be a number']),
    ("a start value with a fraction", [FRAME, SIGNAL, START, 'BA_ "GenSigStartValue" SG_ 100 Signal 1.5;'], "",
     ["a.dbc: message.Signal.initial_value_raw: is 1.5, has to be a whole number"]),
    ("names in the TOML", [FRAME, SIGNAL], '[message."Frame.Signal"]\nunit = "m"\n[message."Frame.Other"]\nreceives = "Frame.Signal"\n', []),
    ("a section twice", [FRAME, SIGNAL], '[message."Frame.Signal"]\n[message.Signal]\n', ["a.toml: message.Signal: is Signal, which has a section already"]),
]

# lines of a DBC, a TOML over it, a node, and what its first I-PDU (mode, period, minimum delay) and its objects (name, kind) are

LONG_NAME = ['BA_DEF_ SG_ "SystemSignalLongSymbol" STRING;', 'BA_ "SystemSignalLongSymbol" SG_ 100 Signal "2nd signal - of the frame";']
NOBODYS = [FRAME, SIGNAL.replace("CASE", "Vector__XXX")]
OVER = [
    ("a period of the TOML's", [FRAME, SIGNAL], "[ipdu.Frame]\ntime_period_ms = 50\n", "VAN", (1, 5, 0), [("Signal", 1)]),
    ("a mode of the TOML's", [FRAME, SIGNAL, *TIMES], '[ipdu.Frame]\ntransmission_mode = "mixed"\n', "VAN", (2, 1, 0), [("Signal", 1)]),
    ("a long name", [FRAME, SIGNAL, *LONG_NAME], "", "VAN", (0, 0, 0), [("_2nd_signal_of_the_frame", 1)]),
    ("a message of nobody's", NOBODYS, "", "VAN", (0, 0, 0), [("Signal", 1)]),
    ("a message of nobody's that the TOML gives receivers", NOBODYS, '[ipdu.Frame]\nreceivers = ["CASE"]\n', "CASE", (0, 0, 0), [("Signal", 2)]),
    ("a message of one receiver beside the TOML's", [FRAME, SIGNAL], '[ipdu.Frame]\nreceivers = ["CASE", "GATEWAY"]\n', "GATEWAY", (0, 0, 0), []),
]

# wrong files: name, bytes, and what is said

WRONG_FILES = [
    ("a.sym", b"{ENUMS}", "a.sym: is no database that can be read: its name has to end in .dbc, .kcd or .arxml"),
    ("a.dbc", b"", "a.dbc: holds no frame"),
    ("a.dbc", b"\r\n\r\n", "a.dbc: holds no frame"),
    ("a.dbc", b"Dear reader,\nthis is no DBC.\n", "a.dbc: line 1: begins with no word of a DBC: Dear reader,"),
    ("a.dbc", b"\x7fELF\x02\x01\x01\x00\x00", "a.dbc: is no DBC: byte 7 is 0, and a DBC is text"),
    ("a.dbc", b"\xfe\x81\x0b\xfa", "a.dbc: line 1: begins with no word of a DBC: \xfe  \xfa"),
]
# lines of a DBC, from its line 3 on, and what is said after its name

BAD_SIGNAL = SIGNAL.replace("0|8", "zero|8")
OTHER = "BO_ 101 Other: 8 VAN"
ANY = 'BA_DEF_ BO_ "Any" ENUM "3","word";'
WRONG_LINES = [
    ([FREE, SIGNAL], "holds no frame"),
    ([FRAME, SIGNAL, BAD_SIGNAL], f"line 5: can't be read: {BAD_SIGNAL.strip()}"),
    ([FRAME, SIGNAL.replace(" : ", " m : ")], f"line 4: can't be read: {SIGNAL.strip().replace(' : ', ' m : ')}"),
    ([FRAME, SIGNAL, "BO_ here Other: 8 VAN"], "line 5: can't be read: BO_ here Other: 8 VAN"),
    ([FRAME, SIGNAL, "BO_ 2048 Other: 8 VAN"], "line 5: can't be read: BO_ 2048 Other: 8 VAN"),
    ([FRAME, SIGNAL, "BO_ 101 Other 8 VAN"], "line 5: can't be read: BO_ 101 Other 8 VAN"),
    ([FRAME, SIGNAL, "BO_ 101 " + 200 * "O"], "line 5: can't be read: BO_ 101 " + 92 * "O" + ".."),
    ([FRAME, SIGNAL, 'BA_ "GenMsgCycleTime" BO_ 99 1;'], 'line 5: can\'t be read: BA_ "GenMsgCycleTime" BO_ 99 1;'),
    ([SIGNAL, FRAME], f"line 3: can't be read: {SIGNAL.strip()}"),
    ([SIGNAL.replace("SG_ ", "SG_\t"), FRAME], f"line 3: is a signal before the first frame: {SIGNAL.strip()}"),
    ([FRAME, SIGNAL, "SG_\tOther"], "line 5: canmatrix passes over a signal there: SG_ Other"),
    ([FRAME, SIGNAL, "SG_\tSignal"], f"line 3: canmatrix passes over a signal there: {FRAME}"),
    ([FRAME, SIGNAL, OTHER.replace("BO_ ", "BO_\t")], f"line 5: canmatrix passes over this frame: {OTHER}"),
    ([FRAME + SIGNAL], f"line 3: canmatrix passes over a signal there: {FRAME}{SIGNAL}"),
    (['CM_ BU_ VAN "two', 'lines"', ";", FRAME, SIGNAL], f"line 6: canmatrix passes over this frame: {FRAME}"),
    ([FRAME, SIGNAL, START, 'BA_ "GenSigStartValue" SG_ 100 Signal', "5;"],
     'line 6: goes on in the next line, and canmatrix reads line by line: BA_ "GenSigStartValue" SG_ 100 Signal'),
    ([FRAME, SIGNAL, 'CM_ BO_ 100 "open;', OTHER], 'line 5: a quote is never closed: CM_ BO_ 100 "open;'),
    ([FRAME, SIGNAL, "B_ 101 Other: 8 VAN", SIGNAL.replace("Signal", "Second")], "line 5: begins with no word of a DBC: B_ 101 Other: 8 VAN"),
    ([FRAME, SIGNAL, *CYCLE, 'B_ "GenMsgCycleTime" BO_ 100 5;'], 'line 7: begins with no word of a DBC: B_ "GenMsgCycleTime" BO_ 100 5;'),
    ([FRAME, SIGNAL, ANY, 'BA_ "Any" BO_ 100 3;'], 'line 6: 3 is none of the 2 values of Any: BA_ "Any" BO_ 100 3;'),
    ([FRAME, SIGNAL, ANY, 'BA_ "Any" BO_ 100 "4";'], 'line 6: "4" is none of the 2 values of Any: BA_ "Any" BO_ 100 "4";'),
    ([FRAME, SIGNAL, START, 'BA_ "GenSigStartValue" SG_ 100 Signal "5";'], 'line 6: "5" is no number: BA_ "GenSigStartValue" SG_ 100 Signal "5";'),
    ([FRAME, SIGNAL, 'BA_ "GenSigCycleTime" SG_ 100 Signal 1.5;'], "canmatrix can't read it: ValueError invalid literal for int() with base 10: '1.5'"),
    ([FRAME, SIGNAL, FRAME.replace("100", "101")], "has the frame Frame more than once"),
    ([FRAME, SIGNAL, "BO_ 0100 Other: 8 VAN", SIGNAL.replace("Signal", "Second"), START, 'BA_ "GenSigStartValue" SG_ 100 Second 1;'],
     "line 5: Other has the identifier of Frame in line 3: BO_ 0100 Other: 8 VAN"),
    ([FRAME, SIGNAL, 'VAL_ 100 Signla 0 "off" ;'], 'line 5: its frame has no such signal: VAL_ 100 Signla 0 "off" ;'),
    ([FRAME, SIGNAL, OTHER, 'VAL_ 101 Signal 0 "off" ;'], 'line 6: its frame has no such signal: VAL_ 101 Signal 0 "off" ;'),
    ([FRAME, SIGNAL, 'VAL_ 102 Signal 0 "off" ;'], 'line 5: there is no such frame: VAL_ 102 Signal 0 "off" ;'),
    ([FRAME, SIGNAL, 'VAL_ 2147483748 Signal 0 "off" ;'], 'line 5: there is no such frame: VAL_ 2147483748 Signal 0 "off" ;'),
    ([FRAME, SIGNAL, 'VAL_ Frame Signal 0 "off" ;'], 'line 5: there is no such frame: VAL_ Frame Signal 0 "off" ;'),
    ([FRAME, SIGNAL, f"VAL_ {5000 * '1'} Signal"], f"line 5: goes on in the next line, and canmatrix reads line by line: VAL_ {95 * '1'}.."),
    ([FRAME, SIGNAL, f"VAL_ {5000 * '1'} Signal;"], f"line 5: there is no such frame: VAL_ {95 * '1'}.."),
    ([FRAME, SIGNAL, 'CM_ SG_ 100 Other "two', 'lines";'], 'line 5: its frame has no such signal: CM_ SG_ 100 Other "two'),
    ([FRAME, SIGNAL, 'CM_ SG_ 101 Signal "air";'], 'line 5: can\'t be read: CM_ SG_ 101 Signal "air";'),
    ([FRAME, SIGNAL, "SIG_VALTYPE_ 100 Other : 0;"], "line 5: its frame has no such signal: SIG_VALTYPE_ 100 Other : 0;"),
    ([FRAME, SIGNAL, SIGNAL], "has the signal Frame.Signal more than once"),
]

# KCD and ARXML: the prefix that canmatrix gives the frames when it writes them, and the keys that it does not write

NO_ATTRIBUTES = ["transmission_mode", "time_offset_ms", "minimum_delay_time_ms", "initial_value_raw", "transfer_property", "filter"]
LOST = {"kcd": ("", [*NO_ATTRIBUTES, "comment"]),
        "arxml": ("FRAME_", [*NO_ATTRIBUTES, "time_period_ms", "sender", "signed", "unit", "minimum", "maximum", "receivers"])}
KCD = """<?xml version="1.0" encoding="UTF-8"?>
<NetworkDefinition xmlns="http://kayak.2codeornot2code.org/1.0"><Document/>
<Node id="1" name="VAN"/><Node id="2" name="CASE"/>
<Bus name="Cargo"><Message id="0x120" name="Frame" length="4" triggered="true" interval="100"><Producer><NodeRef id="1"/></Producer>
<Signal name="Signal" offset="16" length="12" endianess="big"><Consumer><NodeRef id="2"/></Consumer>
<Value type="signed" slope="0.1" intercept="-40" unit="°C"/></Signal></Message></Bus>%s</NetworkDefinition>
"""
KCD_IPDU = {"id": 0x120, "sender": "VAN", "size_in_bytes": 4, "time_period_ms": 100}
KCD_MESSAGE = {"ipdu": "Frame", "dbc_start_bit": 23, "size_in_bits": 12, "byte_order": "big", "signed": True, "factor": Decimal("0.1"), "offset": -40,
               "unit": "°C", "minimum": Decimal("-244.8"), "maximum": Decimal("164.7"), "receivers": ["CASE"]}
XML_READINGS = [
    (KCD % "", KCD_IPDU),
    (KCD.replace('triggered="true" ', "") % "", KCD_IPDU),
    (KCD.replace(' interval="100"', "") % "", {"id": 0x120, "sender": "VAN", "size_in_bytes": 4}),
]
WRONG_XML = [
    ("a.kcd", "", "a.kcd: canmatrix can't read it: no element found: line 1, column 0"),
    ("a.kcd", "<NetworkDefinition/>", "a.kcd: holds no frame"),
    ("a.kcd", KCD % KCD[KCD.index("<Bus"):KCD.index("%s")].replace("Cargo", "Cab"), "a.kcd: holds the buses Cargo, Cab: a file with one of them is needed"),
    ("a.kcd", KCD.replace('name="Frame"', "") % "", "a.kcd: has a frame with no name"),
    ("a.kcd", KCD.replace('name="Signal"', "") % "", "a.kcd: has a signal with no name"),
    ("a.kcd", KCD.replace("</Bus>", '<Message id="0x120" name="Other" length="1"/></Bus>') % "", "a.kcd: has the identifier 0x120 more than once"),
    ("a.kcd", KCD.replace('<NodeRef id="2"/>', '<NodeRef id="3"/>') % "", "a.kcd: canmatrix can't read it: KeyError '3'"),
    ("a.arxml", "no XML", "a.arxml: canmatrix can't read it: Start tag expected, '<' not found, line 1, column 1"),
]

# DBC out

ODD_TEXTS = """title = 'A "van" \\ of ours'
tick_ms = 0.5
nodes = ["V", "Case.Two"]
outside = ["Road"]
[ipdu.Frame]
id = 7
comment = "two\\nlines \\"quoted\\" \\\\"
sender = "V"
receivers = ["Case.Two"]
size_in_bytes = 4
transmission_mode = "periodic"
time_period_ms = 2.5
deadline_ms = 1
[message."Frame.Shared"]
ipdu = "Frame"
start_bit = 28
size_in_bits = 12
byte_order = "big"
signed = true
factor = -0.5
initial_value = 1.5
unit = 'a\\b"c Ω'
values = { 0 = 'say "no"', -1 = "b\\\\" }
[message.Own]
node = "V"
ipdu = "Frame"
start_bit = 0
size_in_bits = 1
[message.View]
node = "Case.Two"
ipdu = "Frame"
start_bit = 0
size_in_bits = 8
[message.Inside]
receives = "Frame.Shared"
[ipdu.Lone]
id = 8
size_in_bytes = 2
"""
ODD_LINES = [
    "BU_: V Two Road",
    "BO_ 7 Frame: 4 V",
    ' SG_ Shared : 23|12@0- (-0.5,0) [-1023.5|1024.0] "a/b\'c Ω"  Two',
    ' SG_ Own : 0|1@1+ (1,0) [0|1] ""  Vector__XXX',
    "BO_ 8 Lone: 2 Vector__XXX",
    'CM_ BO_ 7 "two lines \'quoted\' /";',
    'BA_DEF_ BO_  "GenMsgCycleTime" FLOAT 0 32767.5;',
    'BA_ "GenMsgCycleTime" BO_ 7 2.5;',
    'BA_ "GenMsgStartDelayTime" BO_ 7 2.5;',
    'BA_ "GenMsgSendType" BO_ 7 1;',
    'BA_ "GenSigStartValue" SG_ 7 Shared -3;',
    'VAL_ 7 Shared 0 "say \'no\'" -1 "b/" ;',
]
ODD_STARTS = ("BU_", "BO_", " SG_", "CM_ BO_", "CM_ SG_", 'BA_DEF_ BO_  "GenMsgCycleTime"', "BA_ ", "VAL_")  # all their lines are the above
SMALL = 'tick_ms = 1\nnodes = ["V", "W"]\n[ipdu.A]\nsender = "V"\nsize_in_bytes = 4\ndeadline_ms = 1\n'
ON_A = 'ipdu = "A"\nstart_bit = 0\nsize_in_bits = 4\n'


def paged(value, more_of_first="", rest=""):
    """A file with two messages, of which the first says whether a frame holds the second."""
    multiplexed = f'multiplexor = "Mux"\nmultiplexor_value = {value}\n'
    return f'{SMALL}id = 1\nreceivers = ["W"]\n[message.Mux]\n{ON_A}{more_of_first}[message.Page]\n{ON_A}{multiplexed}{rest}'


NOT_WRITTEN = [
    ("no identifier", SMALL, "a.toml: ipdu.A.id: is missing, and a DBC needs it"),
    ("two multiplexors", paged(1, "", f'[message.Other]\n{ON_A}[message.Last]\n{ON_A}multiplexor = "Other"\nmultiplexor_value = 2\n'),
     "a.toml: message.Last.multiplexor: is Other, and another in A is Mux: a DBC has one in a frame"),
    ("a multiplexor of a receiver's", paged(1, 'node = "W"\n'),
     "a.toml: message.Page.multiplexor: Mux is not its sender's, and a DBC has no word for it"),
    ("a multiplexor below 0", paged(-1, "signed = true\n"), "a.toml: message.Page.multiplexor_value: is -1, and a DBC has none below 0"),
    ("a name twice", f'{SMALL}id = 1\n[message.X]\n{ON_A}[message."B.X"]\n{ON_A}', "a.toml: message.B.X: is X in a DBC, and so is X"),
]
