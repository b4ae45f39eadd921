"""What a board's header and module call things: a constant for each I-PDU, message object and named value. Two that would be the same are refused."""
import re
import unicodedata
from collections import Counter
from dataclasses import dataclass
from fractions import Fraction

from . import bits
from .steps import raw_ends
from .words import ipdu_words, object_words, one_line
from .wrong import Wrong, line, wrong

IPDU = "IPDU_"  # before the name of an I-PDU, so that a message may have the same name
OWN = ["H", "CAST", "TICK", "TICK_US", "TABLE", "IPDUS", "OBJECTS"]  # what the files have for themselves
OWN_KEY = "what every header has"
# Macros of <stdint.h> and birnenschloss.h, which a node's name could lead to.
MACROS = re.compile(r"(U?INT(_LEAST|_FAST)?(8|16|32|64)|U?INT(MAX|PTR)|PTRDIFF|SIZE|SIG_ATOMIC|WCHAR|WINT)_(MIN|MAX|WIDTH|C)"
                    r"|E_OK|E_COM_(ID|LENGTH|LIMIT|NOMSG)|BIRNENSCHLOSS_.*")
MOST_MICROSECONDS = 2**32 - 1


@dataclass
class Constant:
    """A name without the node's prefix, what it is in words, its kind and its value. The kinds are ipdu and object, numbers of these, then length, bits,
    identifier, flag, real, text, and for raw values unsigned and signed. `key` is where it comes from."""

    name: str
    words: str
    kind: str
    value: object
    key: str


@dataclass
class Constants:
    """The prefix of a node; for each I-PDU and each object, by number, a list of constants, of which the first is the number."""

    prefix: str
    ipdus: list
    objects: list


def constant(name):
    """FrontHumidity gives FRONT_HUMIDITY, CO2Level CO2_LEVEL, RHFront RH_FRONT, Frame.Signal FRAME_SIGNAL; empty where there is no letter or digit."""
    plain = unicodedata.normalize("NFKD", name).encode("ascii", "ignore").decode()
    parted = re.sub(r"(?<=[a-z0-9])(?=[A-Z])|(?<=[A-Z])(?=[A-Z][a-z])|[^A-Za-z0-9]+", "_", plain)
    return parted.strip("_").upper()


def identifier(file, key, name):
    """The constant of a name, which has to begin with a letter."""
    made = constant(name)
    if not made:
        raise wrong(file, key, f"\"{name}\" has no letter and no digit, so no constant can be named after it")
    return f"N{made}" if made[0].isdigit() else made


def ipdu_constants(board, number):
    ipdu = board.ipdus[number]
    key = f"ipdu.{ipdu.name}"
    name = IPDU + identifier(board.network.file, key, ipdu.name)
    made = [Constant(name, ipdu_words(board, number), "ipdu", number, key), Constant(name + "_LENGTH", f"Bytes of {ipdu.name}.", "length", ipdu.length, key)]
    if ipdu.identifier is not None:
        made += [Constant(name + "_ID", f"CAN identifier of {ipdu.name}.", "identifier", ipdu.identifier, key),
                 Constant(name + "_EXTENDED", "Whether that is an extended one.", "flag", ipdu.extended, key)]
    return made


def object_constants(board, entry):
    record, scaling, (least, greatest) = entry.record, entry.scaling, raw_ends(entry.record)
    key, raw = f"message.{entry.name}", "signed" if record.signed else "unsigned"
    name = identifier(board.network.file, key, entry.name)
    rows = [("_FACTOR", "Step", "real", scaling.factor), ("_OFFSET", "Value at raw 0", "real", scaling.offset), ("_UNIT", "Unit", "text", scaling.unit),
            ("_BITS", "Bits", "bits", record.bits), ("_LEAST", "Least raw value", raw, least), ("_GREATEST", "Greatest raw value", raw, greatest),
            ("_INITIAL", "Initial raw value", raw, bits.meant(record.initial, record.signed))]
    named = {value: (word, one_line(scaling.names[value])) for value, word in value_names(entry).items()}
    return [Constant(name, object_words(board, entry), "object", entry.number, key),
            *(Constant(name + suffix, f"{words} of {entry.name}.", kind, value, key) for suffix, words, kind, value in rows),
            *(Constant(f"{name}_{word}", f"Raw value of {entry.name}: {text}", raw, value, f"{key}.values, {value} = \"{text}\"")
              for value, (word, text) in named.items())]


def value_names(entry):
    """The constant's end for each named value that the object's bits can hold. Where several would be the same, each ends in its raw value."""
    least, greatest = raw_ends(entry.record)
    held = {raw: constant(name) for raw, name in entry.scaling.names.items() if least <= raw <= greatest}
    alike = [word for word, number in Counter(held.values()).items() if number > 1 or not word]

    def numbered(raw, word):
        return f"{word or 'VALUE'}_{'MINUS_' if raw < 0 else ''}{abs(raw)}"

    return {raw: numbered(raw, word) if word in alike else word for raw, word in held.items()}


def constants(board):
    """The constants of a board."""
    file = board.network.file
    prefixes = {node: identifier(file, "nodes", node) for node in board.network.nodes}
    same = [node for node in prefixes if prefixes[node] == prefixes[board.node]]
    if len(same) > 1:
        raise wrong(file, "nodes", f"{same[0]} and {same[1]} both become {prefixes[board.node]}_ in their headers")
    made = Constants(prefixes[board.node], [ipdu_constants(board, number) for number in range(len(board.ipdus))],
                     [object_constants(board, entry) for entry in board.objects])
    check(board, made)
    return made


def check(board, made):
    """Refuses names that are taken: one line for each two keys."""
    owners, problems = {}, {}
    for name, key in [*((name, OWN_KEY) for name in OWN), *((one.name, one.key) for group in made.ipdus + made.objects for one in group)]:
        whole = f"{made.prefix}_{name}"
        if MACROS.fullmatch(whole):
            place, reason = "nodes", f"\"{board.node}\" makes {whole} of {key}, a macro of <stdint.h> or a name of birnenschloss.h"
        else:
            place, reason = key, f"becomes {whole}, and so does {owners.get(name)}"
        if name in owners or place == "nodes":
            problems.setdefault((place, owners.get(name)), line(board.network.file, place, reason))
        owners.setdefault(name, key)
    if problems:
        raise Wrong(*problems.values())


def tick_microseconds(network):
    """The length of a tick, which has to be whole in microseconds and fit 32 bits."""
    if not 1 <= network.tick * 1000 <= MOST_MICROSECONDS or Fraction(network.tick) * 1000 % 1:
        raise wrong(network.file, "tick_ms", f"is {network.tick}; a header gives the tick in whole microseconds, 1 to {MOST_MICROSECONDS}")
    return int(network.tick * 1000)
