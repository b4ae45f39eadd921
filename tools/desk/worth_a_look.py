"""What in a board is allowed and yet worth a person's look: a line each, with name and reason."""
from . import bits
from .network import FILTERS
from .records import MIXED, PERIODIC, RECEIVE, SEND, WHOLE
from .steps import raw_ends
from .words import counted, joined, one_line

NEVER = next(number for number, (name, _) in enumerate(FILTERS) if name == "Never")


def worth_a_look(board):
    """The lines: of the I-PDUs, then of the objects."""
    lines = [f"{ipdu.name}: {reason}" for number, ipdu in enumerate(board.ipdus) for reason in ipdu_reasons(board, number)]
    return lines + [f"{entry.name}: {reason}" for entry in board.objects for reason in object_reasons(board, entry)]


def ipdu_reasons(board, number):
    carried, late = board.carried(number), deadline_reason(board.network, board.ipdus[number], board.ipdu_records[number])
    return ["none of the node's messages lies in it"] * (not carried) + [late] * bool(late) + shared(carried)


def deadline_reason(network, ipdu, record):
    """Why a deadline does not fit the period; empty where it does."""
    if ipdu.mode not in (PERIODIC, MIXED):
        return ""
    period, deadline = network.milliseconds(ipdu.period), network.milliseconds(record.deadline)
    if record.direction == SEND:
        return f"its deadline of {deadline} ms is longer than its period of {period} ms" if record.deadline > ipdu.period else ""
    if not record.deadline:
        return f"it comes every {period} ms, and there is no deadline for it"
    return f"its deadline of {deadline} ms is not longer than the sender's period of {period} ms" if record.deadline <= ipdu.period else ""


def shared(carried):
    """Bits of several messages that one frame may hold; two objects of one message share theirs by intent."""
    owners = {}
    for entry in carried:
        for place in bits.places(entry.record.start, entry.record.bits, entry.record.big):
            owners.setdefault(place, {})[id(entry.of.receives or entry.of)] = entry
    groups = {}
    for place, found in sorted(owners.items()):
        entries = list(found.values())
        names = tuple(entry.name for entry in entries if any(other is not entry and may_one_frame_hold(entry.of, other.of) for other in entries))
        if names:
            groups.setdefault(names, []).append(place)
    return [f"{joined(names)} share bit{'s' * (len(places) > 1)} {', '.join(map(str, places))}" for names, places in groups.items()]


def may_one_frame_hold(message, other):
    """Whether both may be in it: not with two values of one multiplexor."""
    return message.multiplexor is None or message.multiplexor is not other.multiplexor or message.multiplexor_value == other.multiplexor_value


def object_reasons(board, entry):
    record, scaling, (least, greatest) = entry.record, entry.scaling, raw_ends(entry.record)
    size = counted(record.bits, "signed bit" if record.signed else "bit")
    if record.kind == SEND and not is_received(board.network, entry.of):
        yield "no node receives it"
    if record.kind == RECEIVE and record.filter == NEVER:
        yield "its filter is Never, so nothing arrives"
    if record.depth and entry.of.multiplexor is not None:
        yield "its queue gets the values of all frames, also of those that do not hold it"
    if not least <= bits.meant(record.initial, record.signed) <= greatest:
        yield f"its initial value {one_line(entry.text(record.initial))} does not fit {size}"
    if not can_pass(entry.filter(), record):
        yield f"no value of {size} passes its filter {one_line(entry.filter().words(scaling, record.signed))}"
    for raw, name in scaling.names.items():
        if not least <= raw <= greatest:
            yield f"its named value {raw}, {one_line(name)}, does not fit {size}"


def is_received(network, message):
    """Whether a node receives a sent message: by itself, as another object of it, or as a receive message on some of its bits."""
    def covers(other):
        return other.kind == RECEIVE and message.ipdu is not None and other.ipdu is message.ipdu and set(bits.places(*other.placed())) & own

    own = set(bits.places(*message.placed()))
    return bool(message.receivers) or any(other.receives is message or covers(other) for other in network.messages)


def can_pass(chosen, record):
    """Whether the constants of a filter let any value of so many bits pass. Those with no constants do, Never is no matter of constants."""
    constants = chosen.constants()
    if "mask" in constants:
        return can_pass_mask(chosen.name, constants["mask"], constants.get("x"), record.bits, record.signed)
    if "min" in constants:
        low, high = (bits.meant(constants[name], record.signed) for name in ("min", "max"))
        least, greatest = raw_ends(record)
        return max(low, least) <= min(high, greatest) if chosen.name == "NewIsWithin" else least < low or greatest > high
    return True


def can_pass_mask(name, mask, x, size, signed):
    """The values are all those of `free` bits, with the bits above these all 0 or, on a signed object, all 1."""
    free = 2 ** (size - 1 if signed else size) - 1
    above = [0, WHOLE - 1 - free] if signed else [0]
    if name == "MaskedNewEqualsX":
        return any(x & ~(mask & free) == mask & top for top in above)
    seen_alike = not mask & free and len({mask & top for top in above}) == 1
    if name == "MaskedNewDiffersX":
        return not seen_alike or x != 0
    return name == "MaskedNewEqualsMaskedOld" or not seen_alike
