"""Logs of a CAN bus in the text of can-utils: `candump -l` and `candump -L` write it, `canplayer`, `log2asc` and python-can read it."""
import re
from decimal import Decimal
from typing import NamedTuple

from .progress import watched
from .words import joined
from .wrong import read_text, wrong

DATA, REMOTE, ERROR, FD, XL = KINDS = "data", "remote", "error", "fd", "xl"
MOST_STANDARD, MOST_EXTENDED, ERROR_FLAG = 0x7FF, 0x1FFFFFFF, 0x20000000
MOST_BYTES = {DATA: 8, ERROR: 8, REMOTE: 0, FD: 64, XL: 2048}
SECONDS, DECIMALS = 10, 6  # digits of a time, before and behind its point
LONGEST_REASON = 200  # a file that is no log may have long lines
HEX = "[0-9A-Fa-f]"
LINE = re.compile(r"\(([0-9]{1,20}\.[0-9]{1,9})\)\s+(\S+)\s+(\S+)(?:\s+([RT]))?")
SCREEN = re.compile(r"(?:\(\S+\)\s+)?\S+\s+(?:(?:TX|RX)\s+.{3}\s+)?" + HEX + r"+\s+\[[0-9]+\].*")
BYTES = rf"(?P<data>(?:{HEX}{{2}}(?:\.?{HEX}{{2}})*)?)"
# What stands behind the # of the identifier. `more` is what a frame has beside its bytes.
BODIES = [
    (REMOTE, re.compile(r"[Rr](?P<data>)(?P<more>[0-7]?|8(?:_[9A-Fa-f])?)")),
    (FD, re.compile(rf"#(?P<more>{HEX}){BYTES}")),
    (XL, re.compile(rf"(?P<more>{HEX}{{2}}:{HEX}{{2}}:{HEX}{{8}})#{BYTES}")),
    (DATA, re.compile(rf"{BYTES}(?P<more>(?:_[9A-Fa-f])?)")),
]


class Frame(NamedTuple):
    """`time` is in seconds. `extended` says that the identifier is written with 8 digits. `direction` is R, T or nothing. `more` is, as it is written, of a
    remote frame the length that it asks for, of an FD one its flags, of an XL one its header, and of 8 bytes a raw length code above 8."""

    time: Decimal
    interface: str
    identifier: int
    extended: bool = False
    data: bytes = b""
    kind: str = DATA
    direction: str = ""
    more: str = ""


def read(path):
    """The frames of a log."""
    frames, last, lines = [], None, read_text(path).split("\n")
    for number, text in enumerate(watched(lines, "lines read", len(lines)), 1):
        text = text.strip()
        if not text:
            continue
        try:
            frame = frame_of(text)
            if last is not None and frame.time < last:
                raise ValueError(f"its time is {frame.time}, and the frame before has {last}")
        except ValueError as reason:
            raise wrong(path, f"line {number}", str(reason)[:LONGEST_REASON]) from None
        last = frame.time
        frames.append(frame)
    return frames


def of_interface(path, frames, interface):
    """The frames of one interface: of the one that is named, else of the only one that the log has."""
    names = list(dict.fromkeys(frame.interface for frame in frames))
    if interface is None and len(names) > 1:
        raise wrong(path, "", f"has frames of {joined(names)}: --interface says of which the script is to be")
    if interface is not None and interface not in names:
        raise wrong(path, "", f"has no frame of {interface}, only of {joined(names)}" if names else "has no frame")
    return [frame for frame in frames if interface in (None, frame.interface)]


def frame_of(text):
    """One line of a log; a ValueError with the reason where it is none."""
    found = LINE.fullmatch(text)
    if found is None:
        if SCREEN.fullmatch(text):
            raise ValueError("is what candump shows on a screen; candump -l or -L writes a log")
        raise ValueError(f"is no line of a log, (SECONDS) INTERFACE FRAME: \"{text}\"")
    digits, mark, body = found[3].partition("#")
    if not mark:
        raise ValueError(f"there is no # in the frame: \"{found[3]}\"")
    kind, parts = body_of(body)
    kind, identifier, extended = identified(digits, kind)
    data = bytes.fromhex(parts["data"].replace(".", ""))
    if len(data) > MOST_BYTES[kind]:
        raise ValueError(f"has {len(data)} bytes, and such a frame has at most {MOST_BYTES[kind]}")
    if kind == DATA and parts["more"] and len(data) != MOST_BYTES[DATA]:
        raise ValueError(f"has {parts['more']} behind {len(data)} bytes; a raw length code stands behind {MOST_BYTES[DATA]}")
    return Frame(Decimal(found[1]), found[2], identifier, extended, data, kind, found[4] or "", parts["more"].upper())


def body_of(text):
    """Kind and parts of what stands behind the identifier."""
    for kind, pattern in BODIES:
        found = pattern.fullmatch(text)
        if found:
            return kind, found.groupdict()
    raise ValueError(f"its bytes can't be read: \"{text}\"")


def identified(digits, kind):
    """The kind, which may turn out to be an error, the identifier, and whether it is extended."""
    if not re.fullmatch(HEX + "+", digits) or len(digits) not in ((3, 5) if kind == XL else (3, 8)):
        raise ValueError(f"the identifier \"{digits}\" has not {'3 or 5' if kind == XL else '3 or 8'} hex digits")
    identifier, extended = int(digits, 16), len(digits) == 8
    if kind == DATA and extended and identifier & ERROR_FLAG:
        kind, identifier = ERROR, identifier - ERROR_FLAG
    most = MOST_EXTENDED if extended else MOST_STANDARD
    if kind != XL and identifier > most:
        raise ValueError(f"the identifier {digits} is above {most:X}")
    return kind, identifier, extended


def write(frames):
    """The text of a log."""
    return "".join(map(line, frames))


def line(frame):
    seconds, _, rest = f"{frame.time:f}".partition(".")
    identifier = frame.identifier + (ERROR_FLAG if frame.kind == ERROR else 0)
    digits = 5 if frame.kind == XL else 8 if frame.extended else 3
    direction = " " + frame.direction if frame.direction else ""
    time = f"{seconds.rjust(SECONDS, '0')}.{rest.ljust(DECIMALS, '0')}"
    return f"({time}) {frame.interface} {identifier:0{digits}X}#{body(frame)}{direction}\n"


def body(frame):
    """What stands behind the identifier."""
    data = frame.data.hex().upper()
    return {REMOTE: "R" + frame.more, FD: f"#{frame.more}{data}", XL: f"{frame.more}#{data}"}.get(frame.kind, data + frame.more)
