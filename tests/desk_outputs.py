#!/usr/bin/env python3
"""What a node gets beside its table: the header for C and C++, the module for Rust and the report. Of examples/van.toml and of networks with odd names
each constant is compared with what the TOML says, each function with exact fractions; values go in units from node to node through the proved archive;
names that make one constant are refused; van's report is tests/desk/van.txt. Needs gcc, g++, cargo and rustc, and says where one of them is missing."""
import os
import random
import re
import shutil
import struct
import subprocess
import sys
import tempfile
from fractions import Fraction
from math import lcm

sys.dont_write_bytecode = True
HERE = os.path.dirname(os.path.realpath(__file__))
TOP = os.path.dirname(HERE)
sys.path[:0] = [os.path.join(TOP, "tools"), os.path.join(HERE, "desk")]
import programs  # noqa: E402
from archive import ARCHIVE  # noqa: E402
from desk.c_header import c_header  # noqa: E402
from desk.network import FILTERS, Filter  # noqa: E402
from desk.records import RECEIVE, SIGNED, ObjectRecord  # noqa: E402
from desk.report import report  # noqa: E402
from desk.rust_module import rust_module  # noqa: E402
from desk.source import load  # noqa: E402
from desk.words import lies  # noqa: E402
from desk.worth_a_look import can_pass, worth_a_look  # noqa: E402
from desk.wrong import Wrong  # noqa: E402
from expected import NAMES, Expected  # noqa: E402
from outputs_texts import BARE, KINDS, ODD, REFUSED, WARNED, WARNINGS, refused_text  # noqa: E402

WARNINGS_ON = ["-Wall", "-Wextra", "-Wpedantic", "-Wconversion", "-Wsign-conversion", "-Werror"]
LANGUAGES = {"gcc": ["gcc", "-std=c99", *WARNINGS_ON, "-x", "c"], "g++": ["g++", "-std=c++17", *WARNINGS_ON, "-Wold-style-cast", "-x", "c++"]}
VAN_FILE = os.path.join(TOP, "examples", "van.toml")
WIDEST = 120
MOST_ALL = 10  # messages of up to so many bits are tried with all their words
ROUNDED = ["radAngle", "FarOff", "Tiny"]  # their factors and offsets are too long for sums of whole doubles
# Name, sending and receiving node, I-PDU, message, value in units.
TRIPS = [
    ("trip 0", "VAN", "CASE", "HUMIDITY", "FRONT_HUMIDITY", 61.3), ("trip 1", "VAN", "CASE", "HUMIDITY", "REAR_HUMIDITY", 0.7),
    ("trip 2", "VAN", "CASE", "CARGO", "FREEZER", -40.0), ("trip 3", "VAN", "CASE", "CARGO", "CASE_LIGHT", 3000.0),
    ("trip 4", "CASE", "VAN", "CASE", "SHOCK", 655.35), ("trip 5", "CASE", "VAN", "CASE", "WANTED_HUMIDITY", 30.1),
    ("trip 6", "RH_FRONT", "N9BOX", "FRAME_ONE", "CO2_LEVEL", -167.75), ("trip 7", "RH_FRONT", "N9BOX", "FRAME_ONE", "FRAME_SIGNAL", 34.7483647),
    ("trip 8", "N9BOX", "RH_FRONT", "STRUCT", "FALLS", 19.5), ("trip 9", "N9BOX", "RH_FRONT", "STRUCT", "WHOLE_STEPS", 12884901892.0),
]
# Comments of van's header, one of each kind.
COMMENTS = [
    "Node van of Climate van. Made by tools/table compile from van.toml; not to be changed by hand.",
    "3 I-PDUs, 10 objects, 384 bytes", "I-PDU 2, Case", "object 9, CaseFreezer",
    "I-PDU Case: received, 4 bytes, identifier 0x200. What the case's own controller says",
    "RearHumidity: sent in Humidity, 10 bits, big, from bit 24; NewIsDifferent; in %.",
    "FreezerDisplay: received inside from Freezer, 32 signed bits; Always; in °C.",
]
tried = {"constants": 0, "values": 0, "words": 0, "middles": 0, "trips": 0, "compilations": 0, "refused": 0, "filters": 0}


def fail(words):
    sys.exit(f"desk_outputs.py: {words}")


def run(arguments, given=None, **more):
    done = subprocess.run(arguments, input=given, stdout=subprocess.PIPE, stderr=subprocess.STDOUT, text=True, check=False, **more)
    if done.returncode != 0:
        fail(f"{' '.join(arguments)}: ended with {done.returncode}:\n{done.stdout[:4000]}")
    return done.stdout


def write(folder, name, text):
    with open(os.path.join(folder, name), "w", encoding="utf-8") as file:
        file.write(text)
    return os.path.join(folder, name)


def all_boards(folder):
    """The TOML text and the board of each node, by the node's constant."""
    found = {}
    for path in [VAN_FILE, write(folder, "odd.toml", ODD), write(folder, "bare.toml", BARE)]:
        with open(path, encoding="utf-8") as file:
            text = file.read()
        found |= {NAMES[board.node]: (text, board) for board in load(path).boards()}
    return found


# the programs


def bits_of(value):
    return struct.unpack("<Q", struct.pack("<d", value))[0]


def double_of(word):
    return struct.unpack("<d", struct.pack("<Q", word))[0]


def wanted_lines(nodes, boards):
    """What a program prints before it is asked anything."""
    for prefix, node in nodes.items():
        for name, (kind, value) in node.constants().items():
            shown = f"{bits_of(value):016x}" if kind == "real" else value.encode().hex() if kind == "text" else value
            tried["constants"] += 1
            yield f"{prefix} {name} {shown}"
        yield f"{prefix} TABLE {boards[prefix][1].table.hex()}"
    for name, *_, value in TRIPS:
        tried["trips"] += 1
        yield f"{name} {bits_of(value):016x}"


def words_of(thing):
    """All words of a small message; of a large one those at the edges and some between."""
    least, greatest = thing.least(), thing.greatest()
    if thing.bits <= MOST_ALL:
        return list(range(least, greatest + 1))
    near = [least + i for i in range(40)] + [greatest - i for i in range(40)] + [i for i in range(-40, 41) if least <= i]
    return near + [random.randint(least, greatest) for _ in range(200)]


def exact(thing, raw):
    return raw * thing.factor + thing.offset


def asked_values(thing):
    """Values at, between and beyond the steps of a message."""
    for raw in words_of(thing):
        for part in (Fraction(0), Fraction(2, 5), Fraction(1, 2), Fraction(-3, 7)):
            yield float(exact(thing, raw + part))
    edges = [exact(thing, thing.least()), exact(thing, thing.greatest())]
    yield from (float(edge + sign * thing.factor * far) for edge in edges for sign in (1, -1) for far in (Fraction(1, 3), 1, 2, 10**9, 10**30))
    yield from (float("inf"), float("-inf"), float("nan"), 0.0, -0.0, 1e308, -1e308, 5e-324)


def nearest_words(thing, value):
    """The right raw values: one, or two where a double can't tell which step is nearer."""
    if value != value:
        return {thing.least()}
    if value in (float("inf"), float("-inf")):
        return {thing.greatest() if (value > 0) == (thing.factor > 0) else thing.least()}
    raw = (Fraction(value) - thing.offset) / thing.factor
    divisor = lcm(thing.factor.denominator, thing.offset.denominator)
    sums = [Fraction(value) * divisor, (Fraction(value) - thing.offset) * divisor, raw]
    doubt = 0 if all(is_double(number) for number in sums) else (abs(Fraction(value)) + abs(thing.offset)) / abs(thing.factor) / 2**51
    tried["middles"] += not doubt and abs(raw) % 1 == Fraction(1, 2)
    away = Fraction(1, 2) if raw >= 0 else Fraction(-1, 2)
    return {max(thing.least(), min(thing.greatest(), int(raw + away + sign * doubt))) for sign in (1, -1, 0)}


def is_double(number):
    return abs(number) < 2**1023 and Fraction(float(number)) == number


def check_answers(program, nodes, language):
    """Asks a program for values and words; compares what it answers, and what it printed before."""
    things = [(prefix, thing) for prefix, node in nodes.items() for thing in node.things]
    questions = [(index, "v", raw % 2**32) for index, (_, thing) in enumerate(things) for raw in words_of(thing)]
    questions += [(index, "w", bits_of(value)) for index, (_, thing) in enumerate(things) for value in asked_values(thing)]
    said = run([program], "".join(f"{kind} {index:x} {number:x}\n" for index, kind, number in questions)).splitlines()
    for (index, kind, number), answer in zip(questions, said[-len(questions):], strict=True):
        prefix, thing = things[index]
        right = is_right_value(thing, number, answer) if kind == "v" else is_right_word(thing, number, answer)
        if not right:
            fail(f"{language}: {prefix} {thing.name}: {'value' if kind == 'v' else 'word'} of {number:x} is {answer}")
    return said[:-len(questions)]


def is_right_value(thing, word, answer):
    raw = word - 2**32 if thing.signed and word >= 2**31 else word
    tried["values"] += 1
    if thing.name not in ROUNDED:
        return int(answer, 16) == bits_of(float(exact(thing, raw)))
    return abs(Fraction(double_of(int(answer, 16))) - exact(thing, raw)) <= (abs(raw * thing.factor) + abs(thing.offset)) / 2**51


def is_right_word(thing, number, answer):
    tried["words"] += 1
    return int(answer, 16) in {raw % 2**32 for raw in nearest_words(thing, double_of(number))}


def check_printed(printed, wanted, language):
    for got, want in zip(printed, wanted):
        if got != want:
            fail(f"{language}: prints {got}, should be {want}")
    if len(printed) != len(wanted):
        fail(f"{language}: prints {len(printed)} lines, should be {len(wanted)}")


def check_declared(text, pattern, wanted, what):
    """A header has these names and no other."""
    found = re.findall(pattern, text, flags=re.M)
    if sorted(found) != sorted(wanted):
        fail(f"{what} has {sorted(set(found) ^ set(wanted))} too much or too little")


def check_names(boards, nodes):
    for prefix, node in nodes.items():
        header, module, constants = c_header(boards[prefix][1]), rust_module(boards[prefix][1]), list(node.constants())
        functions = [f"{thing.constant.lower()}_{way}" for thing in node.things for way in ("value", "word")]
        check_declared(header, rf"^#define {prefix}_(\w+)", [*constants, "H", "CAST", "CAST"], f"{prefix}'s header")
        check_declared(header, rf"^static inline \w+ {prefix.lower()}_(\w+)\(", [*functions, "signed", "nearest"], f"{prefix}'s header")
        check_declared(module, r"^pub const (\w+):", [*constants[1:], "TICK", "TABLE"], f"{prefix}'s module")
        check_declared(module, r"^pub fn (\w+)\(", functions, f"{prefix}'s module")


def check_comments(folder, van):
    """Those of van; and what a module says of its own declaration, where the node's name is none of a module in Rust."""
    for words in COMMENTS:
        if f"/* {words} */" not in c_header(van) or f"// {words}\n" not in rust_module(van).replace("///", "//"):
            fail(f"a header or module of van has no comment: {words}")
    for node, words in (("van", "`pub mod van;`"), ("match", "`#[path = \"match.rs\"] pub mod match_node;`"),
                        ("RHFront", "`#[path = \"RHFront.rs\"] pub mod rh_front;`")):
        board, = load(write(folder, "heads.toml", refused_text(nodes=f'["{node}"]', sender=node))).boards()
        if words not in rust_module(board):
            fail(f"the module of node {node} does not say {words}")


def check_c(folder, boards, nodes, compiler):
    """Each header alone, in a file that uses nothing of it; then a program of two files."""
    for prefix, (_, board) in boards.items():
        header = write(folder, prefix.lower() + ".h", c_header(board))
        run([*LANGUAGES[compiler], "-fsyntax-only", "-include", header, os.devnull])
        tried["compilations"] += 1
    files = [write(folder, "first.c", programs.c_program(nodes, TRIPS)), write(folder, "second.c", programs.c_second(nodes))]
    program = os.path.join(folder, "program")
    run([*LANGUAGES[compiler], "-isystem", os.path.join(TOP, "include"), *files, "-x", "none", ARCHIVE, "-o", program])
    tried["compilations"] += 1
    printed = check_answers(program, nodes, compiler)
    check_printed(printed, [*wanted_lines(nodes, boards), "second 614"], compiler)


def check_rust(folder, boards, nodes):
    """The modules in a library without std, and in a program over the bindings."""
    target = os.path.join(folder, "target")
    environment = {**os.environ, "CARGO_TARGET_DIR": target, "BIRNENSCHLOSS_LIB": os.path.dirname(os.path.realpath(ARCHIVE))}
    run(["cargo", "build", "--offline", "--locked"], cwd=os.path.join(TOP, "bindings", "rust"), env=environment)
    for prefix, (_, board) in boards.items():
        write(folder, prefix.lower() + ".rs", rust_module(board))
    rustc = ["rustc", "--edition", "2021", "-L", os.path.join(target, "debug", "deps"),
             "--extern", f"birnenschloss={os.path.join(target, 'debug', 'libbirnenschloss.rlib')}"]
    library, program = write(folder, "nodes.rs", programs.rust_library(nodes)), os.path.join(folder, "rust_program")
    run([*rustc, "--crate-type", "lib", "--emit", "metadata", "-o", os.path.join(folder, "nodes.rmeta"), library])
    run([*rustc, "-L", f"native={os.path.dirname(os.path.realpath(ARCHIVE))}", "-o", program, write(folder, "first.rs", programs.rust_program(nodes, TRIPS))])
    tried["compilations"] += 3
    check_printed(check_answers(program, nodes, "rust"), list(wanted_lines(nodes, boards)), "rust")
    if shutil.which("rustfmt"):
        run(["rustfmt", "--edition", "2021", "--check", os.path.join(folder, "van.rs"), os.path.join(folder, "case.rs")])


# what is refused, and what people read


def check_refused(folder):
    for number, (changes, lines) in enumerate(REFUSED):
        path = write(folder, f"refused{number}.toml", refused_text(**changes))
        for make in (c_header, rust_module):
            try:
                for board in load(path).boards():
                    make(board)
                fail(f"{changes} is not refused by {make.__name__}")
            except Wrong as error:
                if list(error.lines) != [f"{path}: {line}" for line in lines]:
                    fail(f"{changes} is refused with {error.lines}")
            tried["refused"] += 1


def check_reports(folder, boards):
    with open(os.path.join(HERE, "desk", "van.txt"), encoding="utf-8") as file:
        wanted = file.read()
    if report(boards["VAN"][1]) != wanted:
        fail(f"the report of van is not tests/desk/van.txt but\n{report(boards['VAN'][1])}")
    warned = load(write(folder, "warned.toml", WARNED)).boards()
    for board in [board for _, board in boards.values()] + warned:
        for line in report(board).splitlines():
            if len(line) > WIDEST or line != line.rstrip():
                fail(f"a line of {board.node}'s report is too long, or ends in a blank: {line!r}")
        named = [entry.name for entry in board.objects] + [ipdu.name for ipdu in board.ipdus]
        missing = [name for name in named if name not in re.sub(r"\s", "", report(board))]
        if missing:
            fail(f"{board.node}'s report does not name {missing}")
    found = {board.node: worth_a_look(board) for board in warned}
    if found != WARNINGS:
        fail(f"worth a look are {found}")
    multiplexed = {board.node: sorted({words for entry in board.objects if " while " in (words := lies(board, entry))}) for board in warned}
    if multiplexed != KINDS:
        fail(f"the kinds of multiplexed messages are {multiplexed}")


def passes(chosen, new, old):
    """Whether a filter with constants lets a raw value pass, values as integers; as docs/TABLE.md and OSEK COM say."""
    first, second = chosen.first, chosen.second
    return {"MaskedNewEqualsX": new & first == second, "MaskedNewDiffersX": new & first != second,
            "MaskedNewEqualsMaskedOld": new & first == old & first, "MaskedNewDiffersMaskedOld": new & first != old & first}[chosen.name]


def check_filters():
    """Whether any value of so many bits can pass, against all of them."""
    found = set()
    for _ in range(6000):
        size, signed, number = random.randint(1, 4), random.random() < 0.5, random.choice([2, 3, 6, 7, 8, 9])
        values = range(-(1 << size - 1), 1 << size - 1) if signed else range(1 << size)
        constants = [random.choice([0, random.randrange(40), 2**32 - 1 - random.randrange(40)]) for _ in FILTERS[number][1]]
        chosen = Filter(number, *constants)
        if number in (8, 9):
            low, high = (word - 2**32 if signed and word >= 2**31 else word for word in constants)
            wanted = any((low <= value <= high) == (number == 8) for value in values)
        else:
            wanted = any(passes(chosen, value % 2**32, old % 2**32) for value in values for old in values)
        if can_pass(chosen, ObjectRecord(RECEIVE, bits=size, order=SIGNED if signed else 0)) != wanted:
            fail(f"{chosen} on {size} {'signed ' if signed else ''}bits: {wanted}")
        found.add((number, wanted))
        tried["filters"] += 1
    if len(found) != 2 * 6 - 1:  # MaskedNewEqualsMaskedOld always passes for some
        fail(f"only these filters were met: {sorted(found)}")


def main():
    random.seed(1)
    left_out = [tool for tool in ("gcc", "g++", "rustc", "cargo") if not shutil.which(tool)]
    if not os.path.exists(ARCHIVE):
        fail("target/staticlib/libexports.a is missing: run 'tools/build exports' first")
    with tempfile.TemporaryDirectory() as folder:
        boards = all_boards(folder)
        nodes = {prefix: Expected(text, board.node) for prefix, (text, board) in boards.items()}
        check_names(boards, nodes)
        check_comments(folder, boards["VAN"][1])
        check_refused(folder)
        check_reports(folder, boards)
        check_filters()
        for compiler in LANGUAGES:
            if compiler not in left_out:
                check_c(folder, boards, nodes, compiler)
        if not {"rustc", "cargo"} & set(left_out):
            check_rust(folder, boards, nodes)
    unmet = [what for what, number in tried.items() if not number]
    if unmet and not left_out:
        fail(f"never tried: {unmet}")
    said = ", ".join(f"{number} {what}" for what, number in tried.items())
    print(f"desk_outputs.py: {said} are as they should be" + (f"; left out for want of {', '.join(left_out)}" if left_out else ""))


main()
