#!/usr/bin/env python3
"""Packing after OSEK COM 3.0.3, section 2.4, and W-207's signed messages, written bit by bit from the documents and not from the crates.

packing.py            compares what it works out with crates/pack_frames/stdout, line by line
packing.py --print    prints what it works out
"""
import os
import sys

STORED = os.path.join(os.path.dirname(os.path.abspath(__file__)), "..", "crates", "pack_frames", "stdout")


def places(order, start, size):
    """The I-PDU bit that each message bit goes to, as (byte, bit)."""
    byte, bit = start // 8, start % 8
    walk = []
    for _ in range(size):
        walk.append((byte, bit))
        bit += 1
        if bit == 8:
            bit = 0
            byte += 1 if order == "little" else -1
    return walk


def allowed(order, start, size, length):
    inside = all(0 <= byte < length for byte, _ in places(order, start, size))
    return 1 <= length <= 8 and 1 <= size <= 32 and inside


def pack(frame, order, start, size, value):
    out = list(frame)
    for i, (byte, bit) in enumerate(places(order, start, size)):
        out[byte] = out[byte] & ~(1 << bit) | (value >> i & 1) << bit
    return out


def unpack(frame, order, start, size):
    return sum((frame[byte] >> bit & 1) << i for i, (byte, bit) in enumerate(places(order, start, size)))


def signed(message, size):
    """A message of so many bits as a value of 32, two's complement: its top bit stands for minus its weight."""
    return (message - (message >> size - 1 << size)) % 2**32


def cases():
    for case, order, start, value in [(1, "little", 13, 2748), (2, "big", 18, 2748), (3, "little", 13, 6844)]:
        frame = pack([0] * 4, order, start, 12, value)
        text = " ".join(f"{b:02x}" for b in frame)
        yield f"case {case}: {text} unpacks to {unpack(frame, order, start, 12)}"
    for case, order, start, size, length in [
        (4, "big", 18, 22, 4),
        (4, "big", 18, 23, 4),
        (5, "little", 13, 27, 5),
        (5, "little", 13, 28, 5),
    ]:
        fits = "fit" if allowed(order, start, size, length) else "do not fit"
        yield f"case {case}: {size} bits {fits}"
    for size, value, integer in [(12, 0x800, -2048), (12, 0xFFF, -1), (12, 0x7FF, 2047), (1, 1, -1), (32, 0x80000000, -2147483648)]:
        assert signed(value, size) == integer % 2**32
        backs = [signed(unpack(pack([0] * 4, *place, size, value), *place, size), size) for place in (("little", 0), ("big", 24))]
        yield f"signed {size} bits {value:x}: " + " ".join(f"{back:08x}" for back in backs)


def sweep(length, order):
    packed, digest = 0, 1

    def mix(x):
        nonlocal digest
        digest = (digest * 31 + x) % 4294967291

    for start in range(81):
        for size in range(34):
            frame, back, below = [0xA5] * 9, 4294967290, 4294967290
            value = (start * 2654435761 + size * 40503 + 1) % 2**32
            if allowed(order, start, size, length):
                packed += 1
                frame[:length] = pack(frame[:length], order, start, size, value)
                back = unpack(frame[:length], order, start, size)
                assert back == value % 2**size
                below = signed(back, size)
                fits = -(2 ** (size - 1)) <= (value ^ 2**31) - 2**31 < 2 ** (size - 1)
                assert (below == value) == fits, "read back exactly where it fits"
            for byte in frame:
                mix(byte)
            mix(back)
            mix(below)
    return f"length {length} {order}: {packed} places, digest {digest}"


def pairs():
    """Two readings that begin in one byte of 8, packed one after the other."""
    digest, sharing = 1, 0
    for n in range(16384):
        value, start, turn = (n * 2654435761 + 1) % 2**32, n // 4 % 64, n // 2048 % 8
        first = (("little", "big")[n % 2], start, 1 + turn * 4)
        last = (("little", "big")[n // 2 % 2], start // 8 * 8 + n // 256 % 8, 1 + (turn * 11 + start) % 32)
        frame, kept = [0] * 8, []
        for place, given in [(first, value), (last, 2**32 - 1 - value)]:
            kept.append(allowed(*place, 8))
            if kept[-1]:
                frame = pack(frame, *place, given)
        read = [unpack(frame, *place) if fits else 4294967290 for place, fits in zip((first, last), kept)]
        # The reading stored last gives its low bits, the older one its own bit wherever the last does not cover it.
        covered = [place in places(*last) and kept[1] for place in places(*first)]
        assert not kept[1] or read[1] == (2**32 - 1 - value) % 2 ** last[2]
        assert not kept[0] or all(c or read[0] >> i & 1 == value >> i & 1 for i, c in enumerate(covered))
        sharing += kept[0] and any(covered)
        if kept[1]:
            read[1] = signed(read[1], last[2])
        words = [int.from_bytes(frame[:4], "little"), int.from_bytes(frame[4:], "little")]
        for x in kept + words + read:
            digest = (digest * 31 + x) % 4294967291
    assert sharing > 8192, "most of the pairs share bits"
    return f"two readings: digest {digest}"


def main():
    lines = list(cases()) + [sweep(length, order) for length in range(10) for order in ("little", "big")] + [pairs()]
    if "--print" in sys.argv:
        print("\n".join(lines))
        return
    stored = open(STORED).read().split("\n")
    wrong = [(i, a, b) for i, (a, b) in enumerate(zip(lines + [""], stored), 1) if a != b]
    if wrong or len(stored) != len(lines) + 1:
        for i, a, b in wrong[:5]:
            print(f"line {i}: worked out {a!r}, stored {b!r}")
        sys.exit(f"packing.py: crates/pack_frames/stdout differs ({len(lines)} lines worked out, {len(stored) - 1} stored)")
    print(f"packing.py: {len(lines)} lines of crates/pack_frames/stdout agree")


main()
