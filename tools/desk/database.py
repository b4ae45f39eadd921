"""A CAN database (DBC, KCD or ARXML) as sections of a TOML file. canmatrix reads it; where this Python has none, Debian's does."""
import contextlib
import io
import logging
import os
import re
import subprocess
import sys
from collections import Counter
from decimal import Decimal, InvalidOperation
from itertools import chain
from xml.etree import ElementTree

from .dbc_lines import Lines
from .sections import is_number
from .words import joined
from .wrong import read_bytes, wrong

DEBIAN = "/usr/bin/python3"  # the one Python that Debian's packages are for
NEEDED = "needs Debian's python3-canmatrix: apt-get install python3-canmatrix python3-lxml"
ENDINGS = (".dbc", ".kcd", ".arxml")  # of the names of databases
NO_FRAME = "holds no frame"
NOBODY = "Vector__XXX"  # a DBC's word for no node
FREE_SIGNALS = "VECTOR__INDEPENDENT_SIG_MSG"  # a DBC's word for the frame of signals in no frame

# GenMsgSendType and GenSigSendType in lower case; others have no counterpart.
MODE_WORDS = {
    "periodic": ["cyclic", "cyclicx", "periodic", "fixedperiodic"],
    "direct": ["spontaneous", "spontaneousx", "spontan", "spontanx", "spontaneouswithdelay", "spontanwithdelay", "event", "onevent", "triggered",
               "direct", "onchange", "onwrite"],
    "mixed": ["cyclicandspontaneous", "cyclicandspontaneousx", "cyclicandspontan", "cyclicandspontanx", "cyclicandspontaneouswithdelay",
              "cyclicandspontanwithdelay", "cyclicandevent", "cyclicevent", "eventperiodic", "periodicandevent", "mixed"],
}
TRANSFER_WORDS = {
    "cyclic": {"transfer_property": "pending"},
    "onwrite": {"transfer_property": "triggered"},
    "onchange": {"transfer_property": "triggered", "filter": "NewIsDifferent"},
}
NO_WORDS = ["", "none", "nosendtype", "nomsgsendtype", "nosigsendtype"]


@contextlib.contextmanager
def caught():
    """What is printed and logged meanwhile, instead of showing it."""
    said, before = io.StringIO(), logging.root.manager.disable
    logging.disable(logging.CRITICAL)
    try:
        with contextlib.redirect_stdout(said), contextlib.redirect_stderr(said):
            yield said
    finally:
        logging.disable(before)


def library(file):
    """canmatrix's formats. Where this Python has none and Debian's has, the program begins again there."""
    try:
        with caught():
            import canmatrix.formats
        return canmatrix.formats
    except ImportError:
        if sys.executable != DEBIAN and os.path.exists(DEBIAN):
            probe = [DEBIAN, "-c", "import canmatrix.formats"]
            if subprocess.run(probe, cwd="/", stdout=subprocess.DEVNULL, stderr=subprocess.DEVNULL, check=False).returncode == 0:
                sys.stdout.flush()
                sys.stderr.flush()
                os.execv(DEBIAN, [DEBIAN, *sys.orig_argv[1:]])
        raise wrong(file, "", NEEDED) from None


def read(path):
    """Nodes, I-PDUs and messages by name, with the keys of a TOML file. `refused` has, by key, why a section can't be taken as it is."""
    matrix = load(path)
    frames = [frame for frame in matrix.frames if frame.name != FREE_SIGNALS]
    if not frames:
        raise wrong(path, "", NO_FRAME)
    for described in [*frames, *(signal for frame in frames for signal in frame.signals)]:
        described.name = described.name and plain_name(described.name)
    check_once(path, "frame", [frame.name for frame in frames])
    check_once(path, "identifier", [f"0x{frame.arbitration_id.id:X}{' (extended)' if frame.arbitration_id.extended else ''}" for frame in frames])
    check_once(path, "signal", [signal.name and f"{frame.name}.{signal.name}" for frame in frames for signal in frame.signals])
    names = Counter(signal.name for frame in frames for signal in frame.signals)
    database = {"nodes": node_names(ecu.name for ecu in matrix.ecus), "ipdu": {}, "message": {}}
    for frame in frames:
        database["ipdu"][frame.name] = ipdu(matrix, frame)
        own = {signal.name: signal.name if names[signal.name] == 1 else f"{frame.name}.{signal.name}" for signal in frame.signals}
        for signal in frame.signals:
            database["message"][own[signal.name]] = {**message(matrix, frame, signal), **multiplexing(frame, signal, own)}
    return database


def load(path):
    """What canmatrix makes of a file: its one bus."""
    ending, data = os.path.splitext(path)[1].lower(), read_bytes(path)
    if ending not in ENDINGS:
        raise wrong(path, "", f"is no database that can be read: its name has to end in {joined(ENDINGS, ' or ')}")
    kind = ending.removeprefix(".")
    formats = library(path)
    if kind not in formats.supportedFormats:
        raise wrong(path, "", NEEDED)
    lines = Lines(path, data) if kind == "dbc" else None
    with caught() as said:
        try:
            if lines:
                buses = formats.loads(lines.data, kind, dbcImportEncoding=lines.encoding)
            else:
                buses = formats.loads(with_intervals(data) if kind == "kcd" else data, kind)
        except Exception as error:  # whatever a wrong file makes of the library
            reason = error.msg if isinstance(error, SyntaxError) else f"{type(error).__name__} {error}"
            raise wrong(path, "", f"canmatrix can't read it: {' '.join(reason.split())}") from None
    if lines:
        lines.check(said.getvalue(), buses[""].frames)
    buses = {name: bus for name, bus in buses.items() if bus.frames}
    if len(buses) != 1:
        raise wrong(path, "", f"holds the buses {', '.join(buses)}: a file with one of them is needed" if buses else NO_FRAME)
    return next(iter(buses.values()))


def with_intervals(data):
    """A KCD in which triggered and interval stand together, as they are optional: canmatrix passes over the one alone and falls over the other."""
    root = ElementTree.fromstring(data)
    for element in root.iter():
        if element.tag.endswith("}Message") and {"triggered", "interval"} & set(element.attrib):
            element.attrib = {"triggered": "false", "interval": "0", **element.attrib}
    return ElementTree.tostring(root)


def plain_name(name):
    """Letters, digits and _, no digit first: a DBC's long names and other files may have more."""
    plain = re.sub(r"[^A-Za-z0-9_]+", "_", name)
    return f"_{plain}" if plain[:1].isdigit() else plain


def check_once(path, what, names):
    if None in names:
        raise wrong(path, "", f"has a {what} with no name")
    for name, count in Counter(names).items():
        if count > 1:
            raise wrong(path, "", f"has the {what} {name} more than once")


def node_names(texts):
    """The nodes in texts, each of which may name several or be None."""
    return [name for name in dict.fromkeys(chain.from_iterable((text or "").replace(",", " ").split() for text in texts)) if name != NOBODY]


def number(value):
    """An int or a decimal; what can be neither is handed on as the text that it is, and refused where it is read."""
    try:
        decimal = Decimal(value)
    except InvalidOperation:
        return str(value)
    if not is_number(decimal):
        return str(value)
    return int(decimal) if decimal == decimal.to_integral_value() else decimal


def without_empty(section):
    """A section without the keys that have nothing to say."""
    return {key: value for key, value in section.items() if value is not None}


def send_type(matrix, owner, attribute):
    """The word of a frame or a signal, or none; quotes are about it where the attribute is not defined."""
    return (owner.attribute(attribute, db=matrix) or "").strip('"')


# frames

def ipdu(matrix, frame):
    senders = node_names(frame.transmitters)
    refused = {}
    if len(senders) > 1:
        refused["sender"] = f"{' and '.join(senders)} send it, and an I-PDU has one sender; sender = .. in the TOML says which"
    if is_extended_multiplex(frame):
        refused[""] = "has extended multiplexing, and plain (one multiplexor, with signals m0, m1 ..) is all that is read; leave_out leaves it out"
    if frame.is_pdu_container:
        refused[""] = "holds several PDUs, and a frame holds one I-PDU here; leave_out leaves it out"
    word = send_type(matrix, frame, "GenMsgSendType")
    mode, times = sending(matrix, frame, word.lower())
    if mode is None:
        refused["transmission_mode"] = f"GenMsgSendType is {word}, and there is direct, periodic and mixed; transmission_mode = .. in the TOML says which"
    return without_empty({
        "id": frame.arbitration_id.id,
        "extended": frame.arbitration_id.extended or None,
        "sender": senders[0] if len(senders) == 1 else None,
        "size_in_bytes": frame.size,
        "transmission_mode": None if word.lower() in NO_WORDS else mode,
        **times,
        "comment": (frame.comment or "").strip() or None,
        "refused": refused or None,
    })


def sending(matrix, frame, word):
    """The mode of a frame by its send type or else by its period, None where the type is not known; and the times that the mode has."""
    period = number(frame.attribute("GenMsgCycleTime", db=matrix, default=frame.cycle_time) or 0)
    offset, delay = (number(frame.attribute(name, db=matrix) or 0) or None for name in ("GenMsgStartDelayTime", "GenMsgDelayTime"))
    if word in NO_WORDS:
        mode = "direct" if period == 0 else "periodic"
    else:
        mode = next((mode for mode, words in MODE_WORDS.items() if word in words), None)
    times = {"time_period_ms": period, "time_offset_ms": offset, "minimum_delay_time_ms": delay}
    unused = {"direct": ["time_period_ms", "time_offset_ms"], "periodic": ["minimum_delay_time_ms"]}.get(mode, [])
    return mode, {key: None if key in unused else value for key, value in times.items()}


def is_extended_multiplex(frame):
    """Whether there is more to it than one multiplexor, which is in each frame, and signals for one of its values each."""
    switches = [signal.mux_val for signal in frame.signals if signal.is_multiplexer]
    held = [signal for signal in frame.signals if signal.mux_val is not None]
    ranges = any(signal.mux_val_grp not in ([], [[signal.mux_val, signal.mux_val]]) for signal in held)
    return ranges or bool(switches or held) and switches != [None]


# signals

def message(matrix, frame, signal):
    refused = {}
    if signal.is_float:
        refused[""] = "is a floating-point signal, and the layer carries whole numbers; leave_out leaves it out"
    transfer = {}
    word = send_type(matrix, signal, "GenSigSendType")
    if word.lower() in TRANSFER_WORDS:
        transfer = TRANSFER_WORDS[word.lower()]
    elif word.lower() not in NO_WORDS:
        refused["transfer_property"] = f"GenSigSendType is {word}, and there is triggered and pending; transfer_property = .. in the TOML says which"
    given = (signal.min, signal.max) != (0, 0)
    return without_empty({
        "ipdu": frame.name,
        "dbc_start_bit": signal.get_startbit(bit_numbering=1),
        "size_in_bits": signal.size,
        "byte_order": None if signal.is_little_endian else "big",
        "signed": signal.is_signed or None,
        "factor": number(signal.factor) if signal.factor != 1 else None,
        "offset": number(signal.offset) or None,
        "unit": signal.unit or None,
        "minimum": number(signal.min) if given else None,
        "maximum": number(signal.max) if given else None,
        "initial_value_raw": initial(matrix, signal) or None,
        "receivers": [node for node in node_names(signal.receivers) if node not in node_names(frame.transmitters)],
        "values": {str(value): name for value, name in signal.values.items()} or None,
        **transfer,
        "comment": (signal.comment or "").strip() or None,
        "refused": refused or None,
    })


def multiplexing(frame, signal, own):
    """The multiplexor of a signal, by the database's own name of its message, and the value of it; nothing where there is none, or more than is read."""
    if signal.mux_val is None or is_extended_multiplex(frame):
        return {}
    return {"multiplexor": next(own[switch.name] for switch in frame.signals if switch.is_multiplexer), "multiplexor_value": signal.mux_val}


def initial(matrix, signal):
    """What is stored at the start. A DBC says so itself; elsewhere canmatrix has the value in its unit, and 0 where there is none."""
    stored = signal.attribute("GenSigStartValue", db=matrix)
    if stored is not None:
        return number(stored)
    return number((signal.initial_value - signal.offset) / signal.factor) if signal.initial_value and signal.factor else 0
