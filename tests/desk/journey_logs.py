"""Logs in candump's text: written and read again, through can-utils' log2asc and asc2log, through python-can, and wrong ones with the line that names them."""
import json
import os
import random
import shutil
import subprocess
from decimal import Decimal

from desk import candump
from desk.candump import DATA, ERROR, FD, REMOTE, XL, Frame
from desk.wrong import Wrong, write
from journey_check import fail, same

DEBIAN = "/usr/bin/python3"  # the one Python that Debian's packages are for
INTERFACES = ["can0", "can1"]
FD_LENGTHS = [*range(9), 12, 16, 20, 24, 32, 48, 64]
MORE = {REMOTE: ["", "0", "7", "8", "8_9", "8_F"], FD: ["0", "1", "2", "3"], XL: ["81:00:12345678"]}
# Reads the log of its first argument, writes it as its second, and prints what it has read.
PYTHON_CAN = """
import json, sys
from can import CanutilsLogReader, CanutilsLogWriter
frames = list(CanutilsLogReader(sys.argv[1]))
writer = CanutilsLogWriter(sys.argv[2])
for frame in frames:
    writer.on_message_received(frame)
writer.stop()
print(json.dumps([[f"{frame.timestamp:.6f}", frame.channel, frame.arbitration_id, frame.is_extended_id, bytes(frame.data).hex(), frame.is_remote_frame,
                   frame.is_fd, frame.is_error_frame, frame.is_rx] for frame in frames]))
"""
WRONG = [
    ("(1.0) can0 123#00\n\nhello\n", "line 3: is no line of a log, (SECONDS) INTERFACE FRAME: \"hello\""),
    ("(1.0) can0 123#00 Q\n", "line 1: is no line of a log, (SECONDS) INTERFACE FRAME: \"(1.0) can0 123#00 Q\""),
    ("(1.0) can0\n", "line 1: is no line of a log, (SECONDS) INTERFACE FRAME: \"(1.0) can0\""),
    ("(-1.0) can0 123#00\n", "line 1: is no line of a log, (SECONDS) INTERFACE FRAME: \"(-1.0) can0 123#00\""),
    ("(123456789012345678901.0) can0 123#00\n", "line 1: is no line of a log, (SECONDS) INTERFACE FRAME: \"(123456789012345678901.0) can0 123#00\""),
    ("x" * 10000, ("line 1: is no line of a log, (SECONDS) INTERFACE FRAME: \"" + "x" * 200)[:len("line 1: ") + 200]),
    ("(1) can0 123#00\n", "line 1: is no line of a log, (SECONDS) INTERFACE FRAME: \"(1) can0 123#00\""),
    ("can0  123   [2]  01 02\n", "line 1: is what candump shows on a screen; candump -l or -L writes a log"),
    ("\n (001.000000)  can0  RX - -  123   [2]  01 02\n", "line 2: is what candump shows on a screen; candump -l or -L writes a log"),
    ("(1.0) can0 123\n", "line 1: there is no # in the frame: \"123\""),
    ("(1.0) can0 12#00\n", "line 1: the identifier \"12\" has not 3 or 8 hex digits"),
    ("(1.0) can0 #00\n", "line 1: the identifier \"\" has not 3 or 8 hex digits"),
    ("(1.0) can0 12G#00\n", "line 1: the identifier \"12G\" has not 3 or 8 hex digits"),
    ("(1.0) can0 1234#81:00:12345678#00\n", "line 1: the identifier \"1234\" has not 3 or 5 hex digits"),
    ("(1.0) can0 800#00\n", "line 1: the identifier 800 is above 7FF"),
    ("(1.0) can0 40000000#00\n", "line 1: the identifier 40000000 is above 1FFFFFFF"),
    ("(1.0) can0 20000080#R\n", "line 1: the identifier 20000080 is above 1FFFFFFF"),
    ("(1.0) can0 123#0\n", "line 1: its bytes can't be read: \"0\""),
    ("(1.0) can0 123#0G\n", "line 1: its bytes can't be read: \"0G\""),
    ("(1.0) can0 123#00..11\n", "line 1: its bytes can't be read: \"00..11\""),
    ("(1.0) can0 123#R9\n", "line 1: its bytes can't be read: \"R9\""),
    ("(1.0) can0 123#R7_9\n", "line 1: its bytes can't be read: \"R7_9\""),
    ("(1.0) can0 123##\n", "line 1: its bytes can't be read: \"#\""),
    ("(1.0) can0 123#001122334455667788\n", "line 1: has 9 bytes, and such a frame has at most 8"),
    ("(1.0) can0 123##0" + "00" * 65 + "\n", "line 1: has 65 bytes, and such a frame has at most 64"),
    ("(1.0) can0 123#00_9\n", "line 1: has _9 behind 1 bytes; a raw length code stands behind 8"),
    ("(1.0) can0 123#\n(2.0) can0 123#\n(1.999999) can0 123#\n", "line 3: its time is 1.999999, and the frame before has 2.0"),
]
# As can-utils or people write them, and the same frame as we write it.
WRITTEN = [
    ("(1436509052.249713) can0 123#0102", "(1436509052.249713) can0 123#0102"),
    ("(0.0) vcan0 001#8d00100100820100", "(0000000000.000000) vcan0 001#8D00100100820100"),
    ("(1.5) can0 12345678#11.2233.44\r", "(0000000001.500000) can0 12345678#11223344"),
    ("(1.000000001)  can0  7ff#r  T", "(0000000001.000000001) can0 7FF#R T"),
    ("(1.0) can0 20000080#0000000000000000 R", "(0000000001.000000) can0 20000080#0000000000000000 R"),
    ("(1.0) can0 123#1122334455667788_e", "(0000000001.000000) can0 123#1122334455667788_E"),
    ("(1.0) can0 123##3", "(0000000001.000000) can0 123##3"),
    ("(1.0) can0 123#81:00:12345678#11.22", "(0000000001.000000) can0 00123#81:00:12345678#1122"),
]


def random_frames(count, kinds, directions=("",)):
    """At rising times, some of which are equal."""
    frames, time = [], Decimal("1700000000.000001")
    for _ in range(count):
        kind = random.choice(kinds)
        extended = kind == ERROR or kind != XL and random.random() < 0.5
        identifier = random.randrange(0x20000000 if extended else 0x800)
        length = {DATA: random.randrange(9), ERROR: 8, REMOTE: 0, FD: random.choice(FD_LENGTHS), XL: random.randint(1, 100)}[kind]
        more = random.choice(MORE.get(kind, [""]))
        time += Decimal(random.choice([0, 1, random.randrange(2_000_000)])).scaleb(-6)
        frames.append(Frame(time, random.choice(INTERFACES), identifier, extended, random.randbytes(length), kind, random.choice(directions), more))
    return frames


def written(folder, frames):
    path = os.path.join(folder, "written.log")
    write(path, candump.write(frames))
    return path


def check_own(folder):
    """Written and read again."""
    frames = random_frames(2000, candump.KINDS, ("", "R", "T"))
    same("a log that was written is read otherwise", candump.read(written(folder, frames)), frames)
    for text, line in WRITTEN:
        path = os.path.join(folder, "given.log")
        write(path, f"\n{text}\n\n")
        same(f"{text!r} is written again", candump.write(candump.read(path)).splitlines(), [line])
    if candump.read(written(folder, [])) != []:
        fail("an empty log has frames")
    return len(frames) + len(WRITTEN)


def check_wrong(folder):
    """Each wrong log is refused by the line that is wrong."""
    path = os.path.join(folder, "wrong.log")
    for text, reason in WRONG:
        write(path, text)
        try:
            fail(f"the wrong log {text!r} is read as {candump.read(path)}")
        except Wrong as error:
            same(f"the line for the wrong log {text!r}", [str(error)], [f"{path}: {reason}"])
    return len(WRONG)


def check_can_utils(folder, search):
    """A thousand frames through log2asc and asc2log, which are looked for in the folders `search`; None where one is missing. asc has times from the first
    frame on, and channels by number."""
    programs = [shutil.which(name, path=search) for name in ("log2asc", "asc2log")]
    if None in programs:
        return None
    frames = random_frames(1000, [DATA])
    paths = [written(folder, frames), os.path.join(folder, "can.asc"), os.path.join(folder, "back.log")]
    subprocess.run([programs[0], "-I", paths[0], "-O", paths[1], *INTERFACES], check=True)
    subprocess.run([programs[1], "-I", paths[1], "-O", paths[2]], check=True, stderr=subprocess.DEVNULL)
    back = candump.read(paths[2])

    def from_first(log):
        return [frame._replace(time=frame.time - log[0].time, direction="") for frame in log]

    same("a log through log2asc and asc2log", from_first(back), from_first(frames))
    return len(frames)


def check_python_can(folder, python):
    """A thousand frames through python-can of this Python; None where it has none. It tells no lengths of remote frames and no classes of errors."""
    if not os.path.exists(python) or subprocess.run([python, "-c", "import can"], cwd=folder, stderr=subprocess.DEVNULL, check=False).returncode:
        return None
    frames = random_frames(1000, [DATA, DATA, REMOTE, FD], ("R", "T"))
    frames = [frame._replace(more="") if frame.kind == REMOTE else frame for frame in frames]
    error = Frame(frames[-1].time, "can0", 0x80, True, bytes(8), ERROR)
    path, back = written(folder, [*frames, error]), os.path.join(folder, "back.log")
    printed = subprocess.run([python, "-c", PYTHON_CAN, path, back], cwd=folder, stdout=subprocess.PIPE, check=True).stdout
    *read, last = json.loads(printed)
    want = [[f"{frame.time:.6f}", frame.interface, frame.identifier, frame.extended, frame.data.hex(), frame.kind == REMOTE, frame.kind == FD, False,
             frame.direction == "R"] for frame in frames]
    same("python-can reads our log", read, want)
    *again, again_last = candump.read(back)
    same("a log of python-can's", again, frames)
    if not last[7] or (again_last.kind, again_last.identifier) != (ERROR, error.identifier):
        fail(f"python-can reads an error frame as {last}, and we its own as {again_last}")
    return len(frames) + 1
