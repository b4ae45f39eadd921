#!/usr/bin/env python3
"""docs/memory.json: docs/MEMORY.md and crates/state have the same places; and the gdb command shows working memory as the library
answers for it. Needs target/staticlib/libexports.a, gcc and gdb."""
import os
import re
import shutil
import subprocess
import sys
import tempfile

TOP = os.path.join(os.path.dirname(os.path.abspath(__file__)), "..")
sys.dont_write_bytecode = True
sys.path.insert(0, os.path.join(TOP, "tools"))
import memory as memory_tool  # noqa: E402
import memory_view  # noqa: E402

ARCHIVE = os.path.join(TOP, "target", "staticlib", "libexports.a")
HEADS = {
    "I-PDU": ["send, length 4, direct", "send, length 2, direct", "send, length 8, periodic", "receive, length 4", "receive, length 1",
              "send, length 1, mixed"],
    "object": ["send, I-PDU 0", "send, I-PDU 1", "send, I-PDU 2", "receive, I-PDU 3, unqueued, signed", "receive, I-PDU 3, depth 3",
               "receive, I-PDU 3, depth 2, signed", "receive, from object 2, depth 16", "receive, I-PDU 4, depth 1"],
}
# What gdb is asked that it can't answer, and the line that it has to print.
REFUSED = [
    ("birnenschloss", "usage: birnenschloss MEMORY [TABLE], an expression with spaces in quotes"),
    ("birnenschloss nothing table", 'No symbol "nothing" in current context'),
    ("birnenschloss memory nothing", 'No symbol "nothing" in current context'),
    ('birnenschloss "(char *) 16" table', "Cannot access memory at address 0x10"),
    ('birnenschloss memory "(char *) 16"', "Cannot access memory at address 0x10"),
    ("birnenschloss 1 table", "1 is neither an array nor a pointer, its type is int"),
    ("birnenschloss short_memory table", "short_memory has 100 bytes, working memory 8192"),
    ("birnenschloss memory short_table", "the table has 10 bytes, its header alone has 16"),
    ('birnenschloss memory "*(char (*)[367]) table"', "*(char (*)[367]) table has 367 bytes, the table's header says 368"),
    ("birnenschloss memory memory", "the table's header is wrong: it says 0, 0, 0, not 16, 32, 32"),
]
# A byte of the table changed, and what is said of it.
WRONG_TABLES = [
    (0, 33, "the table's header is wrong: 33 I-PDUs and 8 objects"),
    (2, 129, "the table's header is wrong: 6 I-PDUs and 129 objects"),
    (4, 17, "the table's header is wrong: it says 17, 112, 368, not 16, 112, 368"),
    (6, 113, "the table's header is wrong: it says 16, 113, 368, not 16, 112, 368"),
    (8, 113, "the table's header is wrong: it says 16, 112, 369, not 16, 112, 368"),
    (15, 1, "the table's header is wrong: bytes 10-15 are not 0"),
    (16, 3, "the table is wrong: the direction of I-PDU 0 is 3"),
    (33, 9, "the table is wrong: the length of I-PDU 1 is 9"),
    (50, 3, "the table is wrong: the mode of I-PDU 2 is 3"),
    (112, 0, "the table is wrong: the kind of object 0 is 0"),
    (247, 17, "the table is wrong: the depth of object 4 is 17"),
]


def fail(line):
    sys.exit(f"memory.py: {line}")


class Printed(dict):
    def __missing__(self, key):
        fail(f"{key} is not printed")


def text(*path):
    return memory_tool.read(os.path.join(TOP, *path), "r")


def same(what, found, want):
    if found != want:
        fail(f"{what}: {found}, should be {want}")


def numbers(layout, group):
    """Offset and size of each number of a group, by its field in crates/state."""
    return {n["field"]: (n["offset"], n["size"]) for n in layout.groups[group]["numbers"]}


def found(pattern, source, file):
    match = re.search(pattern, source, re.MULTILINE | re.DOTALL)
    if not match:
        fail(f"{file} has no '{pattern}'")
    return match.group(1)


def check_words(layout):
    """docs/MEMORY.md, with the sentence that lists the bytes without a name."""
    memory_tool.agree(layout, os.path.join(TOP, "docs", "MEMORY.md"))
    words = " ".join(text("docs", "MEMORY.md").split())
    for sentence in ["bytes 1-15; of an I-PDU's row bytes 3 and 12-15; of an object's row byte 13;", f"the first {layout.size:,} are used"]:
        if sentence not in words:
            fail(f"docs/MEMORY.md does not say '{sentence}'")
    same("bytes without a name", [layout.unnamed(g) for g in ("memory", "ipdu", "object")],
         [list(range(1, 16)), [3, 12, 13, 14, 15], [13]])
    marks = ", ".join(f"{name} {bit}" for name, bit in layout.marks.items())
    said = next(n["words"] for n in layout.groups["object"]["numbers"] if n["name"] == "marks")
    same("marks in docs/memory.json", said, f"marks: {marks}, added")
    header = re.findall(r"#define BIRNENSCHLOSS_MARK_(\w+) (\d+)", text("include", "birnenschloss.h"))
    same("marks in include/birnenschloss.h", {name.lower().replace("_", " "): int(bit) for name, bit in header}, layout.marks)


def check_layout(layout):
    """The definitions that the proofs cite."""
    file, groups = "crates/state/specs/Layout.antt", layout.groups
    source = text(*file.split("/"))
    for name, want in [("memory_size", layout.size), ("ipdu_rows", groups["ipdu"]["base"]), ("slots", groups["bytes"]["base"]),
                       ("object_rows", groups["object"]["base"]), ("queues", groups["queue_places"]["base"]),
                       ("row_size", groups["ipdu"]["stride"]), ("row_size", groups["object"]["stride"])]:
        same(f"{file}, {name}", int(found(rf"^{name} = (\d+)$", source, file)), want)
    same(f"{file}, running_at", found(r"^running_at m = number_at (\d+ \d+) m$", source, file), "{1} {0}".format(*numbers(layout, "memory")["running"]))
    same(f"{file}, slot_at", int(found(r"^slot_at k = slots \+ (\d+) \* k$", source, file)), groups["bytes"]["stride"])
    for group, index in (("ipdu", "k"), ("object", "i")):
        found(rf"^{group}_row {index} = ({group}_rows \+ row_size \* {index})$", source, file)
        rows = re.findall(rf"(\w+) = number_at (\d+) \({group}_row {index} \+ (\d+)\) m;", source)
        same(f"{file}, {group}_state", {name: (int(at), int(size)) for name, size, at in rows}, numbers(layout, group))
        fields = re.findall(r"field_at (\d+) (\d+) s\.(\w+)", found(rf"^{group}_fields s =(.*?)\[\]$", source, file))
        same(f"{file}, {group}_fields", {name: (int(at), int(size)) for at, size, name in fields}, numbers(layout, group))
    file = "crates/queue/specs/Queues.antt"
    place = found(r"^place_at depth s n = queues \+ (\d+) \*", text(*file.split("/")), file)
    same(f"{file}, place_at", int(place), groups["queue_places"]["stride"])


def check_code(layout):
    """The constants and rows of the code, and that each group ends where the next begins."""
    file, groups = "crates/state/src/lib.rt", layout.groups
    source = text(*file.split("/"))
    for name, want in [("MEMORY_SIZE", layout.size), ("RUNNING", groups["memory"]["base"]), ("IPDU_ROWS", groups["ipdu"]["base"]),
                       ("SLOTS", groups["bytes"]["base"]), ("OBJECT_ROWS", groups["object"]["base"]), ("QUEUES", groups["queue_places"]["base"])]:
        same(f"{file}, {name}", int(found(rf"^pub const {name}: usize = (\d+);$", source, file)), want)
    file = "crates/state/src/rows.rt"
    source = text(*file.split("/"))
    for group in ("ipdu", "object"):
        for function, pattern in ((f"{group}_state", r"(?P<name>\w+): memory::read(?P<bits>\d+)\(m, a(?: \+ (?P<at>\d+))?\)"),
                                  (f"set_{group}_state", r"memory::write(?P<bits>\d+)\(m, a(?: \+ (?P<at>\d+))?, s\.(?P<name>\w+)")):
            body = found(rf"^pub fn {function}\((.*?)^\}}", source, file)
            same(f"{file}, {function}", int(found(rf"{group.upper()}_ROWS \+ (\d+) \*", body, file)), groups[group]["stride"])
            rows = {m["name"]: (int(m["at"] or 0), int(m["bits"]) // 8) for m in re.finditer(pattern, body)}
            same(f"{file}, {function}", rows, numbers(layout, group))
    order = layout.data["groups"]
    for one, following in zip(order, order[1:]):
        same(f"end of the group {one['name']}", one["base"] + one["stride"] * one["count"], following["base"])


def run_gdb(folder):
    """What the C program and gdb print, and what gdb refuses; the dump of memory and table is in the folder."""
    program = os.path.join(folder, "looked_at")
    build = ["gcc", "-std=c99", "-Wall", "-Wextra", "-Wpedantic", "-Werror", "-g", "-O0", "-I" + os.path.join(TOP, "include"),
             os.path.join(TOP, "tests", "c", "looked_at.c"), ARCHIVE, "-o", program]
    built = subprocess.run(build, capture_output=True, text=True, check=False)
    if built.returncode:
        fail(f"tests/c/looked_at.c can't be built: {built.stderr}")
    commands = ["set confirm off", "set disable-randomization off", "source " + os.path.join(TOP, "tools", "gdb", "birnenschloss.py"),
                "break looked_at", "run", "echo by pointer\\n", "birnenschloss memory table", "echo raw\\n", "birnenschloss memory",
                "dump binary memory memory memory memory+8192", "dump binary memory table table table+368",
                "echo up\\n", "up", "echo by array\\n", "birnenschloss memory table", "echo refused\\n"] + [command for command, _ in REFUSED]
    commands += ["set var memory[18] = 1", "set var memory[784 + 16 * 5 + 12] = 3", "set var memory[0] = 2", "set var memory[19] = 9",
                 "echo damaged\\n", "birnenschloss memory table", "kill"]
    words = ["gdb", "-nx", "-batch", "-iex", "set debuginfod enabled off"] + [w for c in commands for w in ("-ex", c)] + [program]
    try:
        ran = subprocess.run(words, capture_output=True, text=True, stdin=subprocess.DEVNULL, cwd=folder, timeout=60, check=False)
    except subprocess.TimeoutExpired:
        fail("gdb did not end within 60 s")
    if "layer runs" not in ran.stdout or "Traceback" in ran.stderr or "Python Exception" in ran.stderr:
        fail(f"gdb: {ran.stderr.strip() or ran.stdout.strip()}")
    parts, name = {"": []}, ""
    for line in ran.stdout.splitlines():
        if line in ("by pointer", "raw", "up", "by array", "refused", "damaged"):
            name = line
            parts[name] = []
        parts[name].append(line)
    refused = [line[len("birnenschloss: "):] for line in ran.stderr.splitlines() if line.startswith("birnenschloss: ")]
    return parts, refused


def check_places(folder):
    """The gdb script without the files that it needs: one line names the one that is missing."""
    for name, files in (("alone", []), ("bare", ["memory_view.py"])):
        os.makedirs(os.path.join(folder, name, "tools", "gdb"))
        for file in files + ["gdb/birnenschloss.py"]:
            shutil.copy(os.path.join(TOP, "tools", file), os.path.join(folder, name, "tools", file))
    words = ["-ex", "source alone/tools/gdb/birnenschloss.py", "-ex", "source bare/tools/gdb/birnenschloss.py", "-ex", "birnenschloss 1"]
    ran = subprocess.run(["gdb", "-nx", "-batch", *words], capture_output=True, text=True, stdin=subprocess.DEVNULL, cwd=folder, check=False)
    folder = os.path.realpath(folder)
    missing = [f"{folder}/alone/tools/memory_view.py", f"{folder}/bare/docs/memory.json"]
    same("files that are missing", ran.stderr.splitlines(), [f"birnenschloss: {file} can't be read: No such file or directory" for file in missing])


def shown(lines):
    """The printed numbers of each I-PDU and object, by kind and number."""
    rows = Printed()
    for line in lines:
        match = re.match(r"(I-PDU|object) (\d+), (.*?): (.*)$", line)
        if match:
            kind, index, head, rest = match.groups()
            rest, _, queue = rest.partition("queue from the oldest: ")
            row = Printed(part.split(" ", 1) for part in rest.rstrip(", ").split(", "))
            row["head"], row["queue"] = head, queue.replace("empty", "").split() if queue else None
            rows[kind, int(index)] = row
    return rows


def check_objects(layout, asked, rows):
    seen = set()
    for i in range(len(HEADS["object"])):
        row, marks = rows["object", i], int(asked["marks", i][0])
        names = [name for name, bit in layout.marks.items() if marks & bit]
        seen |= set(names)
        same(f"marks of object {i}", row["marks"], " + ".join(names) or "none")
        status, values = int(asked["status", i][0]), asked.get(("receive", i))
        same(f"object {i} has a queue", row["queue"] is not None, status != 1)
        if row["queue"] is None:
            if values:
                same(f"value of object {i}", [row["value"]], values)
            continue
        same(f"queue of object {i}", row["queue"], values)
        same(f"count of object {i}", int(row["count"]), len(values))
        same(f"status of object {i}", status, 3 if row["value_lost"] == "1" else 0 if row["queue"] else 4)
    same("marks that occur", seen, set(layout.marks))
    same("values below zero", [rows["object", 3]["old_value"], rows["object", 5]["queue"]], ["-24", ["-225", "-224"]])
    same("objects that lost a value", [i for i in range(8) if rows["object", i]["value_lost"] == "1"], [5])


def check_ipdus(asked, rows):
    for k in (0, 1, 2, 5):
        same(f"request_open of I-PDU {k}", rows["I-PDU", k]["request_open"], asked["request_open", k][0])
        same(f"bytes of I-PDU {k}", rows["I-PDU", k]["bytes"], " ".join(asked["bytes", k]))
    for name, k in (("deadline", 0), ("delay", 1), ("countdown", 2), ("countdown", 5), ("receive_timer", 3), ("receive_timer", 4)):
        same(f"{name} of I-PDU {k}", rows["I-PDU", k][name], asked[name, k][0])
    # a request that waits is made: of I-PDU 0 at the third tick after the confirm, its minimum delay
    same("ticks to the second request of I-PDU 0", asked["after_confirm", 0], ["3"])
    same("requests open, wanted", [rows["I-PDU", k]["request_open"] + rows["I-PDU", k]["request_wanted"] for k in range(3)], ["11", "01", "00"])
    same("period_runs of I-PDU 2", rows["I-PDU", 2]["period_runs"], "1")


def check_ranges(layout, asked, dump, table):
    """Out of range for the view where the library answers 6, for each byte and value that the program tried."""
    values, tried, refused = [int(v) for v in asked["values"]], 0, 0
    for (name, at), answers in [(key, a) for key, a in asked.items() if key[0] == "ranges"]:
        for value, answer in zip(values, answers[0]):
            changed = dump[:at] + bytes([value]) + dump[at + 1:]
            out = memory_view.View(layout, changed, table).out_of_range()
            if bool(out) != (answer == "1"):
                fail(f"byte {at} set to {value}: out of range {out}, the library says {answer}")
            tried, refused = tried + 1, refused + int(answer)
    same("bytes and values tried", tried, len(values) * (16 + 16 * 6 + 16 * 8))
    if not 0 < refused < tried:
        fail(f"the library refused {refused} of {tried} changed memories")
    return tried


def check_gdb(layout, folder):
    parts, refused = run_gdb(folder)
    asked = Printed()
    for line in parts[""]:
        words = line.split()
        if words[:2] == ["ask", "values"]:
            asked["values"] = words[2:]
        elif words[:1] == ["ask"]:
            asked[words[1], int(words[2])] = words[3:]
        elif line.startswith("looked_at.c:"):
            fail(line)
    rows = shown(parts["by pointer"])
    for kind, heads in HEADS.items():
        same(f"lines of each {kind}", [row["head"] for (k, _), row in rows.items() if k == kind], heads)
    check_objects(layout, asked, rows)
    check_ipdus(asked, rows)
    same("memory by array", parts["by array"][1:], parts["by pointer"][1:])
    same("what gdb can't answer", refused, [line for _, line in REFUSED])
    same("raw lines", [line.split(":")[0] for line in parts["raw"][1:]],
         ["layer runs"] + [f"I-PDU {k}" for k in range(6)] + [f"object {i}" for i in range(8)] + ["queue places 0-7"])
    damaged = "\n".join(parts["damaged"])
    for line in ["layer ?: layer_runs 2 OUT OF RANGE (0..1)", "period_runs 1 OUT OF RANGE (0)", "byte 3 has no name and is 9",
                 "count 3 OUT OF RANGE (0..2)", "queue from the oldest: not shown, a number is out of range", "numbers out of range: 3 (refusal 6)"]:
        if line not in damaged:
            fail(f"damaged memory: gdb does not print '{line}'")
    same("memory.py show", shown_by_tool(folder, "memory", "table"), (0, "\n".join(parts["by pointer"][1:] + [""]), ""))
    same("memory.py show, no table", shown_by_tool(folder, "memory"), (0, "\n".join(parts["raw"][1:] + [""]), ""))
    dump, table = (memory_tool.read(os.path.join(folder, name)) for name in ("memory", "table"))
    check_errors(folder, table)
    check_places(folder)
    return len(rows), check_ranges(layout, asked, dump, memory_view.Table(table))


def shown_by_tool(folder, *words):
    command = [sys.executable, os.path.abspath(os.path.join(TOP, "tools", "memory.py")), "show", *words]
    ran = subprocess.run(command, capture_output=True, text=True, cwd=folder, check=False)
    return ran.returncode, ran.stdout, ran.stderr


def said_of(table):
    try:
        memory_view.Table(table)
    except memory_view.Wrong as wrong:
        return str(wrong)
    return "nothing"


def check_errors(folder, table):
    for at, byte, line in WRONG_TABLES:
        same(f"a table with byte {at} set to {byte}", said_of(table[:at] + bytes([byte]) + table[at + 1:]), line)
    queues = bytes([0, 0, 33, 0, 16, 0, 16, 0, 48, 4]) + bytes(6) + 33 * (bytes([2, 255, 255, 0, 32, 0, 0, 16]) + bytes(24))
    same("a table of 33 queues", said_of(queues), "the table is wrong: all depths together are 528")
    json = text("docs", "memory.json")
    for old, new, line in [("{", "", "is not the list"), ('"stride": 4, ', "", "is not the list"), ('"groups"', '"group"', "is not the list"),
                           ('"count": 512', '"count": 5120', "group queue_places has no room"), ('"queue_places"', '"q"', "has no group queue_places")]:
        path = os.path.join(folder, "memory.json")
        with open(path, "w", encoding="utf-8") as file:
            file.write(json.replace(old, new, 1))
        try:
            memory_view.Layout(path)
            fail(f"memory.json with {new!r} for {old!r} is read")
        except memory_view.Wrong as wrong:
            same(f"memory.json with {new!r} for {old!r}", line in str(wrong), True)
    with open(os.path.join(folder, "long"), "wb") as file:
        file.write(table + b"\0")
    for words, line in [(["nothing"], "nothing can't be read: No such file or directory"),
                        (["table"], "the memory has 368 bytes, 8192 are used"),
                        (["memory", "long"], "the table has 369 bytes, its header says 368"),
                        ([], "usage: memory.py [--check | show MEMORY_FILE [TABLE_FILE]]")]:
        same(f"memory.py show {' '.join(words)}", shown_by_tool(folder, *words), (1, "", f"memory.py: {line}\n"))


def main():
    for tool in ("gcc", "gdb"):
        if not shutil.which(tool):
            fail(f"{tool} is missing")
    if not os.path.exists(ARCHIVE):
        fail("target/staticlib/libexports.a is missing: run 'tools/build exports' first")
    layout = memory_view.default_layout()
    check_words(layout)
    check_layout(layout)
    check_code(layout)
    with tempfile.TemporaryDirectory() as folder:
        rows, tried = check_gdb(layout, folder)
    print(f"memory.py: memory.json is as MEMORY.md and crates/state; gdb shows {rows} rows as the library answers, and {tried} changed bytes in or out of range")


if __name__ == "__main__":
    try:
        main()
    except memory_view.Wrong as wrong:
        fail(str(wrong))
