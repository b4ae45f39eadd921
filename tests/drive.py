#!/usr/bin/env python3
"""The program drive: what it says of files that it can't read and of missing arguments; and each script of examples/, over
its table, prints what its .stdout file has. The table NAME.table is that of the node NAME in NAME.toml."""
import glob
import os
import subprocess
import sys
import tempfile

sys.dont_write_bytecode = True
TOP = os.path.join(os.path.dirname(os.path.abspath(__file__)), "..")
PROGRAM = os.path.join(TOP, "target", "bin", "drive")
EXAMPLES = os.path.join(TOP, "examples")
sys.path.insert(0, os.path.join(TOP, "tools"))
from desk.source import load  # noqa: E402

USAGE = b"drive TABLE SCRIPT"
CALLS = "start stop send initialise receive status marks clear_marks start_periodic stop_periodic indication confirm tick"


def contents(path):
    with open(path, "rb") as file:
        return file.read()


def drive(*arguments):
    return subprocess.run([PROGRAM, *arguments], stdin=subprocess.DEVNULL, stdout=subprocess.PIPE, stderr=subprocess.PIPE, timeout=20)


def check(name, holds, run):
    if not holds:
        sys.exit(f"drive.py: {name}: printed {run.stdout[:200]!r}, said {run.stderr[:500]!r}, status {run.returncode}")


def refused(name, arguments, words):
    """Nothing is printed, and one line is said, which has one of the words."""
    run = drive(*arguments)
    one_line = run.stderr.count(b"\n") == 1 and run.stderr.endswith(b"\n")
    has_word = any(word in run.stderr for word in words)
    check(name, run.returncode >= 0 and not run.stdout and one_line and has_word, run)


def files_that_cannot_be_read(folder):
    """The same for the table and for the script; gives how many were tried."""
    table, script = os.path.join(EXAMPLES, "request.table"), os.path.join(EXAMPLES, "request.script")
    locked = os.path.join(folder, "locked")
    open(locked, "wb").close()
    os.chmod(locked, 0)
    wrong = [
        ("a missing file", os.path.join(folder, "missing")),
        ("a missing file with blanks", os.path.join(folder, "a missing file")),
        ("a missing file with a long name", os.path.join(folder, "m" * 200)),
        ("a file in a missing folder", os.path.join(folder, "missing", "file")),
        ("a file of a file", os.path.join(table, "file")),
        ("a folder", folder),
        ("no name", ""),
    ]
    if os.geteuid() != 0:
        wrong.append(("a file that may not be read", locked))
    for name, path in wrong:
        refused(f"{name} as table", [path, script], [path.encode()])
        refused(f"{name} as script", [table, path], [path.encode()])
        refused(f"{name} as both", [path, path], [path.encode()])
    missing = [os.path.join(folder, name) for name in ("one", "other")]
    refused("two missing files", missing, [path.encode() for path in missing])
    return 3 * len(wrong) + 1


def arguments():
    table = os.path.join(EXAMPLES, "request.table")
    refused("a table and no script", [table], [table.encode(), USAGE])
    run = drive()
    check("no argument", run.returncode >= 0 and not run.stdout and USAGE in run.stderr, run)
    run = drive("--help")
    check("--help", run.returncode >= 0 and USAGE in run.stdout and not run.stderr, run)
    return 3


def output_that_cannot_be_written():
    """The program ends all the same."""
    command = [PROGRAM, os.path.join(EXAMPLES, "van.table"), os.path.join(EXAMPLES, "van.script")]
    with open("/dev/full", "wb") as full:
        subprocess.run(command, stdin=subprocess.DEVNULL, stdout=full, stderr=subprocess.DEVNULL, timeout=20)


def names():
    """The examples that have a script or a table."""
    return sorted({os.path.splitext(os.path.basename(path))[0] for end in ("script", "table") for path in glob.glob(f"{EXAMPLES}/*.{end}")})


def tables():
    """Before the program is run: each example is whole, and has the table that its TOML describes."""
    for name in names():
        described = [board.table for board in load(f"{EXAMPLES}/{name}.toml").boards() if board.node == name]
        if described != [contents(f"{EXAMPLES}/{name}.table")]:
            sys.exit(f"drive.py: examples/{name}.table is not the one of {name}.toml: "
                     f"run 'tools/table compile examples/{name}.toml --node {name} --only table --out examples'")
    if contents(f"{EXAMPLES}/request.table") != contents(os.path.join(TOP, "crates", "table_check", "stdin")):
        sys.exit("drive.py: examples/request.table is not case 12's table")
    called = {line.split()[0] for line in contents(f"{EXAMPLES}/van.script").decode().splitlines()}
    if called != set(CALLS.split()):
        sys.exit(f"drive.py: examples/van.script has the calls {sorted(called)}, not each of the thirteen")


def examples():
    for name in names():
        table, script = f"{EXAMPLES}/{name}.table", f"{EXAMPLES}/{name}.script"
        run = drive(table, script)
        expected = contents(f"{EXAMPLES}/{name}.stdout")
        if run.stdout != expected:
            lines = zip(contents(script).splitlines(), expected.splitlines() + [b""], run.stdout.splitlines() + [b""])
            different = [(n, *line) for n, line in enumerate(lines, 1) if line[1] != line[2]]
            print(*different[:3], sep="\n")
        check(f"examples/{name}.script", run.stdout == expected and not run.stderr, run)
    return len(names())


def main():
    tables()
    if not os.path.exists(PROGRAM):
        sys.exit("drive.py: target/bin/drive is missing: run 'tools/build drive' first")
    played = examples()
    with tempfile.TemporaryDirectory() as folder:
        tried = files_that_cannot_be_read(folder) + arguments()
    output_that_cannot_be_written()
    print(f"drive.py: {played} examples print what they should, and {tried} wrong uses are refused")


main()
