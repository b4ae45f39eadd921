#!/usr/bin/env python3
"""The list of stored numbers, docs/memory.json.

memory.py                                  writes the tables of docs/MEMORY.md anew from it
memory.py --check                          tells whether they agree
memory.py show MEMORY_FILE [TABLE_FILE]    prints a dump of working memory by name
"""
import os
import re
import sys

sys.dont_write_bytecode = True
sys.path.insert(0, os.path.dirname(os.path.realpath(__file__)))
from memory_view import Table, View, Wrong, default_layout  # noqa: E402

DOCS = os.path.join(os.path.dirname(os.path.dirname(os.path.realpath(__file__))), "docs")
BEGIN, END = "<!-- {}: made from memory.json by tools/memory.py -->", "<!-- end of {} -->"


def ranges(number):
    return [number["range"]] if isinstance(number["range"], str) else [number["range"]["send"], number["range"]["receive"]]


def part(group):
    """A group's heading and table, as docs/MEMORY.md has them."""
    lines = []
    if group["heading"]:
        lines += ["## " + group["heading"].format(**group), ""]
    if group["columns"]:
        lines += ["| " + " | ".join(["byte", "number"] + group["columns"]) + " |", "|---" * (2 + len(group["columns"])) + "|"]
        for number in group["numbers"]:
            first, last = number["offset"], number["offset"] + number["size"] - 1
            place = str(first) if first == last else f"{first}-{last}"
            lines.append("| " + " | ".join([place, number["words"]] + ranges(number)) + " |")
        lines.append("")
    return "\n".join([BEGIN.format(group["name"]), ""] + lines + [END.format(group["name"])])


def made(layout, text):
    """The text with every part between markers made anew."""
    for name, group in layout.groups.items():
        pattern = re.escape(BEGIN.format(name)) + r"\n.*?" + re.escape(END.format(name))
        text, found = re.subn(pattern, lambda _: part(group), text, flags=re.DOTALL)
        if found != 1:
            raise Wrong(f"docs/MEMORY.md has {found} parts with the markers of '{name}', not 1")
    return text


def read(path, mode="rb"):
    try:
        with open(path, mode, **({} if "b" in mode else {"encoding": "utf-8"})) as file:
            return file.read()
    except OSError as error:
        raise Wrong(f"{path} can't be read: {error.strerror}") from None


def agree(layout, path):
    """Writes nothing: the first line that differs, or nothing."""
    old = read(path, "r").split("\n")
    new = made(layout, "\n".join(old)).split("\n")
    for at, (have, want) in enumerate(zip(old, new), 1):
        if have != want:
            raise Wrong(f"docs/MEMORY.md, line {at}, is not as docs/memory.json says: '{have}', should be '{want}'")
    if len(old) != len(new):
        raise Wrong(f"docs/MEMORY.md has {len(old)} lines, by docs/memory.json {len(new)}")


def main(words):
    layout = default_layout()
    path = os.path.join(DOCS, "MEMORY.md")
    if words == []:
        text = made(layout, read(path, "r"))
        try:
            with open(path, "w", encoding="utf-8") as file:
                file.write(text)
        except OSError as error:
            raise Wrong(f"{path} can't be written: {error.strerror}") from None
    elif words == ["--check"]:
        agree(layout, path)
        print("memory.py: docs/MEMORY.md is as docs/memory.json says")
    elif words[0] == "show" and len(words) in (2, 3):
        table = Table(read(words[2])) if len(words) == 3 else None
        print("\n".join(View(layout, read(words[1]), table).lines()))
    else:
        raise Wrong("usage: memory.py [--check | show MEMORY_FILE [TABLE_FILE]]")


if __name__ == "__main__":
    try:
        main(sys.argv[1:])
    except Wrong as wrong:
        sys.exit(f"memory.py: {wrong}")
