"""The proved layer for tests in Python: the archive as a shared library, and its calls over one table. Needs target/staticlib/libexports.a and gcc."""
import ctypes
import os
import subprocess
import sys

ARCHIVE = os.path.join(os.path.dirname(os.path.realpath(__file__)), "..", "..", "target", "staticlib", "libexports.a")
MEMORY, AREA = 8192, 256
CALLS = ["check", "start", "stop", "send", "initialise", "receive", "status", "marks", "clear_marks", "start_periodic", "stop_periodic",
         "indication", "confirm", "tick", "sheet_begin", "sheet_drain"]
WITH_AREA = ["send", "tick"]


class Answer(ctypes.Structure):
    _fields_ = [("number", ctypes.c_uint32), ("value", ctypes.c_uint32)]


def load(folder):
    """The archive as a shared library, which is built in the folder."""
    if not os.path.exists(ARCHIVE):
        sys.exit("target/staticlib/libexports.a is missing: run 'tools/build exports' first")
    shared = os.path.join(folder, "exports.so")
    subprocess.run(["gcc", "-shared", "-o", shared, "-Wl,--whole-archive", ARCHIVE, "-Wl,--no-whole-archive"], check=True)
    library = ctypes.CDLL(shared)
    for name in CALLS:
        getattr(library, "birnenschloss_" + name).restype = Answer
    return library


def check(library, table):
    """What the proved check says: None for a right table, else the place of the first wrong record."""
    answer = library.birnenschloss_check(bytes(table), ctypes.c_size_t(len(table)))
    return None if answer.number == 0 else answer.value


class Layer:
    """The calls over one table; memory and area hold something else before a start."""

    def __init__(self, library, table):
        self.library, self.table = library, bytes(table)
        self.memory = ctypes.create_string_buffer(b"\xa5" * MEMORY, MEMORY)
        self.area = ctypes.create_string_buffer(b"\xc3" * AREA, AREA)

    def answer(self, name, *numbers):
        """Number and value of a call with 32-bit numbers."""
        lent = [self.table, ctypes.c_size_t(len(self.table)), self.memory, ctypes.c_size_t(MEMORY)]
        if name in WITH_AREA:
            lent += [self.area, ctypes.c_size_t(AREA)]
        answer = getattr(self.library, "birnenschloss_" + name)(*lent, *(ctypes.c_uint32(number % 2**32) for number in numbers))
        return answer.number, answer.value

    def call(self, name, *numbers):
        """The value of a call that is done."""
        number, value = self.answer(name, *numbers)
        if number != 0:
            sys.exit(f"{name} {numbers} answers {number}, table {self.table.hex()}")
        return value

    def indicate(self, ipdu, frame, good=1):
        """The number that a good indication answers."""
        lent = [self.table, ctypes.c_size_t(len(self.table)), self.memory, ctypes.c_size_t(MEMORY)]
        return self.library.birnenschloss_indication(*lent, ctypes.c_uint32(ipdu), ctypes.c_uint32(good), bytes(frame), ctypes.c_size_t(len(frame))).number

    def frame(self, ipdu, length):
        """The bytes of a request in the area."""
        return self.area.raw[8 * ipdu:8 * ipdu + length]
