#!/usr/bin/env python3
"""The program table_check answers any input with one line: both halves of case 12, right and wrong tables of the largest size,
and inputs that are no table at all."""
import os
import random
import struct
import subprocess
import sys

TOP = os.path.join(os.path.dirname(os.path.abspath(__file__)), "..")
PROGRAM = os.path.join(TOP, "target", "bin", "table_check")
SEND, RECEIVE, NONE = 1, 2, 255
LARGEST = 16 + 16 * 32 + 32 * 128
HEADER = "bad 65535\n"


def answer(data):
    return subprocess.run([PROGRAM], input=data, stdout=subprocess.PIPE, timeout=10, check=True).stdout.decode()


def changed(table, at, byte):
    return table[:at] + bytes([byte]) + table[at + 1:]


def ipdu(direction, length, deadline):
    """An I-PDU record; one that is sent is sent direct, with no minimum delay."""
    return struct.pack("<4B6H", direction, length, 0, 0, 0, 0, 0, deadline, 0, 0)


def message_object(kind, ipdu_number, start, size, depth):
    """The record of an object of an I-PDU: little, triggered, every value passes, initial value 0."""
    return struct.pack("<12B5I", kind, ipdu_number, NONE, start, size, 0, 0, depth, 0, 0, 0, 0, 0, 0, 0, 0, 0)


def table(ipdus, objects):
    objects_at = 16 + 16 * len(ipdus)
    total = objects_at + 32 * len(objects)
    header = struct.pack("<5H6x", len(ipdus), len(objects), 16, objects_at, total)
    return header + b"".join(ipdus) + b"".join(objects)


def largest():
    """I-PDUs of 8 bytes, received and sent in turn; in each, four objects of 16 bits, which fill it. Objects are received and
    sent in turn as well, so the last one, 127, is sent in I-PDU 31. The 64 received ones have a queue of 8: depths sum to 512."""
    ipdus = [ipdu(SEND, 8, 10) if k % 2 else ipdu(RECEIVE, 8, 0) for k in range(32)]
    objects = []
    for i in range(128):
        kind, depth = (SEND, 0) if i % 2 else (RECEIVE, 8)
        objects.append(message_object(kind, 2 * (i // 8) + i % 2, 16 * (i % 8 // 2), 16, depth))
    return table(ipdus, objects)


def largest_cases():
    full = largest()
    if len(full) != LARGEST:
        sys.exit(f"table_check.py: the largest table has {len(full)} bytes, not {LARGEST}")
    last_ipdu, last_object = 16 + 16 * 31, LARGEST - 32
    return [
        ("a largest table", full, "ok 32 128\n"),
        ("a largest table, a byte long", full + b"\0", HEADER),
        ("a largest table and another", full + full, HEADER),
        ("a largest table, a byte short", full[:-1], HEADER),
        ("a largest table, 33 bits in object 127", changed(full, last_object + 4, 33), "bad 383\n"),
        ("a largest table, the last byte not 0", changed(full, LARGEST - 1, 1), "bad 383\n"),
        ("a largest table, object 127 on a bit of 125", changed(full, last_object + 3, 47), "ok 32 128\n"),
        ("a largest table, depths of 513", changed(full, last_object - 32 + 7, 9), "bad 382\n"),
        ("a largest table, I-PDU 31 of 9 bytes", changed(full, last_ipdu + 1, 9), "bad 31\n"),
        ("a largest table, the last byte of I-PDU 31 not 0", changed(full, last_ipdu + 15, 1), "bad 31\n"),
    ]


def main():
    if not os.path.exists(PROGRAM):
        sys.exit("table_check.py: target/bin/table_check is missing: run 'tools/build table_check' first")
    case12 = open(os.path.join(TOP, "crates", "table_check", "stdin"), "rb").read()
    empty = bytes([0, 0, 0, 0, 16, 0, 16, 0, 16, 0]) + bytes(6)
    random.seed(1)
    cases = [
        ("case 12", case12, "ok 1 1\n"),
        ("case 12 with a bit length of 33", changed(case12, 36, 33), "bad 256\n"),
        ("no records", empty, "ok 0 0\n"),
        ("nothing", b"", HEADER),
        ("a byte short", case12[:-1], HEADER),
        ("a byte long", case12 + b"\0", HEADER),
        ("a largest table's length and one byte", bytes(LARGEST + 1), HEADER),
        ("a megabyte of zeros", bytes(1 << 20), HEADER),
        ("case 12 and a megabyte", case12 + bytes(1 << 20), HEADER),
    ]
    cases += largest_cases()
    cases += [(f"cut at {n}", case12[:n], HEADER) for n in range(64)]
    cases += [(f"random bytes {i}", random.randbytes(random.randrange(5000)), HEADER) for i in range(50)]
    wrong = [(name, got, want) for name, data, want in cases for got in [answer(data)] if got != want]
    for name, got, want in wrong[:5]:
        print(f"{name}: printed {got!r}, should be {want!r}")
    if wrong:
        sys.exit(f"table_check.py: {len(wrong)} of {len(cases)} inputs answered otherwise")
    print(f"table_check.py: {len(cases)} inputs answered as they should be")


main()
