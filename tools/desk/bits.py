"""Where message bits lie in an I-PDU, what a frame's bits mean, and the picture of an I-PDU. I-PDU bit k is bit k mod 8 of byte k div 8."""
from .records import WHOLE


def turned(bit):
    """A bit's number where the bits of each byte are counted from the other end."""
    return bit // 8 * 8 + 7 - bit % 8


def start_from_dbc(start, bits, big):
    """A DBC names a big message by its most significant bit; the layer names either by its bit 0."""
    return turned(turned(start) + bits - 1) if big else start


def start_to_dbc(start, bits, big):
    return turned(turned(start) - bits + 1) if big else start


def places(start, bits, big):
    """The I-PDU bit of each message bit, from bit 0 on. Under the big order a byte's end goes on in the byte before."""
    return [turned(turned(start) - i) for i in range(bits)] if big else list(range(start, start + bits))


def fits(start, bits, big, length):
    return all(0 <= place < 8 * length for place in places(start, bits, big))


def meant(word, signed):
    """What 32 bits mean."""
    return word - WHOLE if signed and word >= WHOLE // 2 else word


def least(bits, signed):
    return -(2 ** (bits - 1)) if signed else 0


def greatest(bits, signed):
    return 2 ** (bits - 1) - 1 if signed else 2**bits - 1


def unpacked(frame, start, bits, big, signed):
    """The value that a frame holds, a signed one with its sign."""
    raw = sum((frame[place // 8] >> place % 8 & 1) << i for i, place in enumerate(places(start, bits, big)))
    return raw - 2**bits if signed and raw >= 2 ** (bits - 1) else raw


def letter(index):
    """a to z, then A to Z, then a again: what a picture calls an object."""
    return "abcdefghijklmnopqrstuvwxyzABCDEFGHIJKLMNOPQRSTUVWXYZ"[index % 52]


def picture(length, objects):
    """Lines with the bits of an I-PDU, a row a byte, bit 7 first, and below them what the letters are. `objects` are (name, start, bits, big);
    `*` is a bit of several, `.` one of none."""
    owners = {}
    for index, (_, start, bits, big) in enumerate(objects):
        for place in places(start, bits, big):
            owners.setdefault(place, []).append(index)

    def mark(bit):
        held = owners.get(bit, [])
        return "." if not held else "*" if len(held) > 1 else letter(held[0])

    rows = ["byte  7 6 5 4 3 2 1 0"]
    rows += [f"{byte:4}  " + " ".join(mark(8 * byte + bit) for bit in range(7, -1, -1)) for byte in range(length)]
    for index, (name, start, bits, big) in enumerate(objects):
        shared = sum(len(owners[place]) > 1 for place in places(start, bits, big))
        high = places(start, bits, big)[-1]
        words = f"   {letter(index)} {name}: {bits} bit{'s' if bits > 1 else ''}, {'big' if big else 'little'}, from bit {start}"
        words += f" to {high}" if bits > 1 else ""
        rows.append(words + (f", {shared} shared" if shared else ""))
    return rows
