#!/usr/bin/env python3
"""The programs tools/table and tools/journey as a person runs them: the commands of README.md and docs/DESK.md, one after the other, in a folder of
their own; help; wrong arguments and files, each with its line and status; a closed pipe; progress on a terminal and nowhere else. Needs target/bin/drive and
target/bin/table_check; what needs a database is left out with a word where python3-canmatrix is not on the machine."""
import os
import pty
import re
import shlex
import subprocess
import sys
import tempfile

TOP = os.path.realpath(os.path.join(os.path.dirname(os.path.abspath(__file__)), ".."))
WRITTEN = ["VAN.table", "VAN.h", "VAN.rs", "VAN.txt", "CASE.table", "CASE.h", "CASE.rs", "CASE.txt"]
BEGINNINGS = {".svg": "<svg", ".html": "<!DOCTYPE html>", ".script": "start\n", ".vcd": "$timescale", ".log": "(0000000001."}
DATABASE = "climate"  # the example with one
NEEDS_DATABASE = "needs Debian's python3-canmatrix"
SLOW = "#!/bin/sh\nwhile read -r line; do sleep 0.3; echo 0; done < \"$2\"\n"  # in the place of drive


def fail(words):
    sys.exit(f"desk_programs.py: {words}")


def run(folder, *words, **more):
    return subprocess.run(words, cwd=folder, stdin=subprocess.DEVNULL, capture_output=True, text=True, timeout=60, check=False, **more)


def contents(path):
    with open(path, encoding="utf-8") as file:
        return file.read()


def folder_like(top):
    """A folder in which the documents' commands can be run: it has tools, examples and the programs, and a target of its own."""
    for name in ("tools", "examples"):
        os.symlink(os.path.join(TOP, name), os.path.join(top, name))
    os.mkdir(os.path.join(top, "target"))
    os.symlink(os.path.join(TOP, "target", "bin"), os.path.join(top, "target", "bin"))


def has_databases(folder):
    said = run(folder, "tools/table", "show", "examples/climate.toml")
    if said.returncode and NEEDS_DATABASE not in said.stderr:
        fail(f"tools/table show examples/climate.toml ends with {said.returncode}: {said.stderr}")
    return said.returncode == 0


def commands(document):
    """The lines of a document that run the two programs."""
    text = contents(os.path.join(TOP, document)).replace("\\\n", " ")
    return [shlex.split(line, comments=True) for line in re.findall(r"^    (tools/(?:table|journey) .*)$", text, re.MULTILINE)]


def played(folder, document, least, with_databases):
    """Every command of a document ends well, and what it names after --out is there and begins as it should."""
    found = commands(document)
    if len(found) < least:
        fail(f"{document} has {len(found)} commands, at least {least} were expected")
    possible = [words for words in found if with_databases or not any(DATABASE in word for word in words)]
    for words in possible:
        said = run(folder, *words)
        if said.returncode != 0 or "Traceback" in said.stderr:
            fail(f"{document}: {' '.join(words)} ends with {said.returncode}: {said.stderr}")
        for path in [words[at + 1] for at, word in enumerate(words) if word == "--out"]:
            begins = BEGINNINGS.get(os.path.splitext(path)[1])
            if begins is not None and not contents(os.path.join(folder, path)).startswith(begins):
                fail(f"{document}: {' '.join(words)} writes a {path} that does not begin with {begins}")
    return len(possible)


def tables_accepted(folder):
    """What the commands wrote for each node is whole, and the proved check accepts the tables."""
    for name in WRITTEN:
        path = os.path.join(folder, "target", "climate", name)
        if not os.path.getsize(path):
            fail(f"target/climate/{name} is empty")
        if name.endswith(".table"):
            with open(path, "rb") as file:
                answer = subprocess.run([os.path.join(TOP, "target/bin/table_check")], stdin=file, capture_output=True, text=True, check=True).stdout
            if not answer.startswith("ok "):
                fail(f"table_check answers {answer!r} for target/climate/{name}")


def wrong_uses(folder):
    """Arguments, the status, and what the last line of standard error is or, where it ends in .., begins with."""
    with open(os.path.join(folder, "short.table"), "wb") as file:
        file.write(b"\1\0")
    for name, text in (("bad.log", "(1.0) can0 120#0\n"), ("bad.script", "start\njump\n"), ("bytes", "\udcff"), ("other.stdout", "0\n"),
                       ("two.log", "(1.0) can0 200#00000000\n(2.0) vcan1 200#00000000\n")):
        with open(os.path.join(folder, name), "w", encoding="utf-8", errors="surrogateescape") as file:
            file.write(text)
    van = "examples/van.toml"
    return [
        (["tools/table"], 2, "table: error: the following arguments are required: COMMAND"),
        (["tools/table", "compile"], 2, "table compile: error: the following arguments are required: toml"),
        (["tools/table", "compile", "none.toml"], 1, "table: none.toml: can't be read: No such file or directory"),
        (["tools/table", "compile", "."], 1, "table: .: can't be read: Is a directory"),
        (["tools/table", "compile", "bytes"], 1, "table: bytes: is no text: byte 0 is not UTF-8"),
        (["tools/table", "compile", "examples/climate.dbc"], 1,
         'table: examples/climate.dbc: is no TOML file; a database is named in one: database = "climate.dbc"'),
        (["tools/table", "dbc", "examples/CLIMATE.ARXML"], 1,
         'table: examples/CLIMATE.ARXML: is no TOML file; a database is named in one: database = "CLIMATE.ARXML"'),
        (["tools/table", "compile", van, "--out", "bytes"], 1, "table: bytes/van.table: can't be written: File exists"),
        (["tools/table", "compile", van, "--node", "bus"], 1, 'table: examples/van.toml: nodes: there is no node "bus" with a table, only van, case'),
        (["tools/table", "show", "short.table"], 1, "table: short.table: bad 65535: .."),
        (["tools/table", "show", "none"], 1, "table: none: can't be read: No such file or directory"),
        (["tools/table", "explain", "none"], 1, "table: none: can't be read: No such file or directory"),
        (["tools/table", "dbc", "examples/request.toml"], 1, "table: examples/request.toml: ipdu.Readings.id: .."),
        (["tools/journey"], 2, "journey: error: the following arguments are required: COMMAND"),
        (["tools/journey", "script", van, "none.log"], 1, "journey: none.log: can't be read: No such file or directory"),
        (["tools/journey", "script", van, "bad.log"], 1, "journey: bad.log: line 1: .."),
        (["tools/journey", "script", van, "bad.log", "--drain", "soon"], 2, "journey script: error: argument --drain: soon is no time in ms"),
        (["tools/journey", "script", van, "examples/climate.log", "--drain", "150"], 1, "journey: examples/van.toml: tick_ms: a drain every 150 ms .."),
        (["tools/journey", "svg", van, "examples/van.script", "--drive", "none"], 1, "journey: none: is missing: `tools/build drive` proves and builds it"),
        (["tools/journey", "svg", van, "examples/van.script", "--drive", "bytes"], 1, "journey: bytes: fails: Permission denied"),
        (["tools/journey", "log", van, "examples/van.script", "other.stdout"], 1,
         "journey: other.stdout: has 1 answers, and examples/van.script has 127 calls: they are not of one run"),
        (["tools/journey", "vcd", van, "examples/van.script", "--out", "bytes/x"], 1, "journey: bytes/x: can't be written: File exists"),
        (["tools/journey", "svg", van, "bad.log"], 1, "journey: bad.log: line 1: can't be read, and the run ends there: '(1.0) can0 120#0'"),
        (["tools/journey", "svg", van, "bad.script", "--out", "bad.script"], 1, "journey: bad.script: is what is read, and would be written over"),
        (["tools/journey", "svg", van, "examples/van.script", "--drive", "/bin/cat"], 1, "journey: what drive prints: has .."),
        (["tools/journey", "script", van, "two.log"], 1, "journey: two.log: has frames of can0 and vcan1: --interface says of which the script is to be"),
        (["tools/journey", "script", van, "two.log", "--interface", "can7"], 1, "journey: two.log: has no frame of can7, only of can0 and vcan1"),
        (["tools/table", "explain", van], 1, "table: examples/van.toml: is no table but a text: no byte of it is 0; `table compile` makes tables of a TOML file"),
        (["tools/table", "show", "bad.script"], 1, "table: bad.script: is no table but a text: no byte of it is 0; `table compile` makes tables of a TOML file"),
        (["tools/journey", "report", van, "bytes"], 1, "journey: bytes: is no text: byte 0 is not UTF-8"),
    ]


def refused(folder):
    cases = wrong_uses(folder)
    for words, status, expected in cases:
        said = run(folder, *words)
        last = said.stderr.rstrip("\n").split("\n")[-1] if status == 2 else said.stderr.split("\n")[0]
        right = last.startswith(expected[:-2]) if expected.endswith("..") else last == expected
        if said.returncode != status or not right or said.stdout:
            fail(f"{' '.join(words)} ends with {said.returncode} and says {said.stderr!r}, should be {status} and {expected!r}")
    return len(cases)


def explained(folder):
    """A right table has status 0 and a wrong one 1; both are answers, on standard output. Names are those of the TOML."""
    table = os.path.join(TOP, "examples", "van.table")
    with open(table, "rb") as file:
        data = bytearray(file.read())
    data[16 + 16 * 3 + 4] = 33
    with open(os.path.join(folder, "wrong.table"), "wb") as file:
        file.write(data)
    right = run(folder, "tools/table", "explain", table)
    wrong = run(folder, "tools/table", "explain", "wrong.table", "--names", "examples/van.toml")
    if (right.returncode, right.stdout) != (0, "ok 3 10\n"):
        fail(f"a right table is explained with {right.returncode} and {right.stdout!r}")
    if wrong.returncode != 1 or not wrong.stdout.startswith("bad 256: ") or "FrontHumidity" not in wrong.stdout or "33" not in wrong.stdout:
        fail(f"33 bits in FrontHumidity are explained with {wrong.returncode} and {wrong.stdout!r}")


def ended(folder):
    """A script with a line that can't be read is shown up to there, and the line is named."""
    for command in ("log", "svg", "vcd", "report"):
        said = run(folder, "tools/journey", command, "examples/van.toml", "bad.script")
        if not (said.stdout or command == "log") or (said.returncode, said.stderr) != (1, "journey: bad.script: line 2: can't be read, and the run ends there: 'jump'\n"):
            fail(f"tools/journey {command} of a script whose second line can't be read ends with {said.returncode} and says {said.stderr!r}")


def helped(folder):
    """Every command has its help, which names its arguments."""
    known = {"table": ["compile", "show", "explain", "dbc"], "journey": ["script", "log", "svg", "vcd", "report"]}
    for program, names in known.items():
        for words in [["--help"], *([name, "--help"] for name in names)]:
            said = run(folder, f"tools/{program}", *words)
            if said.returncode != 0 or not said.stdout.startswith(f"usage: {program}") or len(said.stdout.split("\n")) < 8:
                fail(f"tools/{program} {' '.join(words)} ends with {said.returncode} and prints {said.stdout!r}")
            if len(words) == 1 and not all(f"\n    {name} " in said.stdout for name in names):
                fail(f"tools/{program} --help does not list {', '.join(names)}")


def quiet_end(folder):
    """A reader that goes away ends the program, with no word."""
    said = run(folder, "bash", "-c", "tools/journey vcd examples/van.toml examples/van.script | head -n 1")
    if said.returncode != 0 or said.stderr or not said.stdout.startswith("$"):
        fail(f"a closed pipe ends with {said.returncode} and {said.stderr!r}")


def progress(folder):
    """On a terminal a line that is written over and cleared at the end; elsewhere nothing."""
    for name, text in (("slow", SLOW), ("slow.script", "stop\n" * 3)):
        with open(os.path.join(folder, name), "w", encoding="utf-8") as file:
            file.write(text)
    os.chmod(os.path.join(folder, "slow"), 0o755)
    words = ["tools/journey", "svg", "examples/van.toml", "slow.script", "--drive", "slow", "--out", "target/slow.svg"]
    said = run(folder, *words)
    if said.returncode != 0 or said.stdout or said.stderr:
        fail(f"{' '.join(words)} ends with {said.returncode} and says {said.stderr!r} where there is no terminal")
    ours, theirs = pty.openpty()
    with subprocess.Popen(words, cwd=folder, stdin=subprocess.DEVNULL, stdout=subprocess.DEVNULL, stderr=theirs) as process:
        os.close(theirs)
        shown = b""
        try:
            while part := os.read(ours, 65536):
                shown += part
        except OSError:
            pass  # the other end is closed
    os.close(ours)
    counts = re.findall(rb"calls made: ([0-9]) of 3", shown)
    if process.returncode != 0 or counts != [b"0", b"1", b"2"] * 2 or b"3 calls are shown" not in shown or not shown.endswith(b"\r\x1b[K") or b"\n" in shown:
        fail(f"progress on a terminal is {shown[:300]!r}")


def main():
    if not all(os.path.exists(os.path.join(TOP, "target", "bin", name)) for name in ("drive", "table_check")):
        fail("target/bin/drive or target/bin/table_check is missing: run 'tools/build drive table_check' first")
    with tempfile.TemporaryDirectory() as folder:
        folder_like(folder)
        with_databases, left_out = has_databases(folder), ", those with a database left out: python3-canmatrix is not on this machine"
        count = played(folder, "README.md", 3, with_databases) + played(folder, "docs/DESK.md", 14, with_databases)
        if with_databases:
            tables_accepted(folder)
            left_out = ""
        wrong = refused(folder)
        explained(folder)
        ended(folder)
        helped(folder)
        quiet_end(folder)
        progress(folder)
    print(f"desk_programs.py: {count} commands of the documents work, {wrong} wrong uses are refused{left_out}")


main()
