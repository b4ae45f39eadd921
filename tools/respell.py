#!/usr/bin/env python3
"""Turns the names of the repository's own definitions, lemmas, fields and local facts to snake case: `groupStep` to `group_step`,
`put-none` to `put_none`. Types, modules, names from src/ and names that Rattle makes keep their spelling. It was run once, on what
the toolchain's port.py had made of the older form; docs/PORT.md says at which commit. `respell.py --map` prints the names alone."""
import re
import sys
from collections import defaultdict
from pathlib import Path

ROOT = Path.cwd()
CHAR = r"[^\s(){}\[\];,.\"`|@]"
TOKEN = re.compile(CHAR + "+")
# Lemmas whose names in snake case would be their function's: they get _lem, as the library's do.
LEMMAS = ("no_value", "same_object", "stored_last", "with_rest")
KEEP = set()


def proofs_and_specs():
    return sorted(p for p in ROOT.glob("crates/*/**/*.antt") if "/out/" not in str(p))


def code_of(line):
    return "" if line.lstrip().startswith("--") else line


def declared():
    """The names that the .antt files declare, but for those that a file gives to a goal that Rattle names."""
    names = defaultdict(set)
    for path in proofs_and_specs():
        text = "\n".join(code_of(l) for l in path.read_text().split("\n"))
        found = re.findall(rf"^[ \t]*(?:(?:pub|abbrev|unfoldable|let|where|in)\s+)*({CHAR}+)((?:\s+{CHAR}+)*)\s*(?:\{{[^}}\n]*\}}\s*)?:\s+(\S+)", text, flags=re.M)
        for first, more, said in found:
            if re.match(r"tie\.(invariant|decreases)|goal\.", said):
                KEEP.add(first)
                continue
            for name in [first, *more.split()]:
                names[name].add(path)
        for name in re.findall(rf"\blet\s+({CHAR}+)", text):
            names[name].add(path)
        for group in re.findall(r"[({]((?:[^\s(){}\[\];,.:=]+\s+)+):\s", text):
            for name in group.split():
                names[name].add(path)
        for group in re.findall(r"λ ((?:[^\s(){}\[\];,.:=]+\s?)+)\.", text):
            for name in group.split():
                names[name].add(path)
    return names


def plain(name):
    name = re.sub(r"(?<=[a-z0-9ℕℤ₀-₉])([A-Z])", lambda m: "_" + m[1].lower(), name)
    return name.replace("-", "_").replace("′", "'")


def turned(names):
    out = {}
    for name in names:
        if name in KEEP or not re.match(r"\+?[a-z]", name):
            continue
        if plain(name) != name:
            out[name] = plain(name)
    functions = {new for old, new in out.items() if "-" not in old} | {name for name in names if name not in out}
    for name, new in out.items():
        if "-" in name and new in functions:
            out[name] = new + "_lem"
    return out | {name: name + "_lem" for name in LEMMAS}


def fell_together(names, turn):
    """Names that would be one: of the repository, or of a file that also says the new name."""
    by_new = defaultdict(set)
    for name in names:
        by_new[turn.get(name, name)].add(name)
    for new, olds in sorted(by_new.items()):
        if len(olds) > 1:
            yield new, sorted(olds), sorted({str(p) for o in olds for p in names[o]})
    for path in proofs_and_specs() + sorted(ROOT.glob("crates/*/src/**/*.rt")):
        text = path.read_text()
        if path.suffix == ".rt":
            text = re.sub(r"//.*", "", text)
        words = set(TOKEN.findall("\n".join(code_of(l) for l in text.split("\n"))))
        for old in words & turn.keys():
            if turn[old] in words:
                yield turn[old], [old, turn[old] + " in the same file"], [str(path)]


def respell(text, turn):
    """A name that the file takes from a library outside of the repository stays."""
    crates = {p.name for p in (ROOT / "crates").iterdir()}
    kept = set()
    for module, names in re.findall(r"^(?:ghost )?use ([^\s{]+)\.\{([^}]*)\}", text, flags=re.M):
        if module.split(".")[0] != "Rattle" or module.split(".")[1] not in crates:
            kept |= {w for item in names.split(",") for w in item.split(" as ")[-1].split()}
    return TOKEN.sub(lambda m: m[0] if m[0] in kept else turn.get(m[0], m[0]), text)


def in_code_font(text, turn, names, font=r"`[^`\n]+`"):
    """Documents and tests name some definitions as they were before port.py."""
    known = set(turn.values()) | set(names)

    def now(name):
        new = turn.get(name) or turn.get(plain(name))
        return new or (plain(name) if plain(name) in known else name)

    return re.sub(font, lambda m: re.sub(r"[A-Za-z+][\w-]*", lambda w: now(w[0]), m[0]), text)


def main():
    names = declared()
    turn = turned(names)
    if "--map" in sys.argv:
        for old, new in sorted(turn.items()):
            print(old, new)
        for new, olds, files in fell_together(names, turn):
            print("TOGETHER", new, olds, files[:6])
        return
    camel = {o: n for o, n in turn.items() if "-" not in o}
    for path in proofs_and_specs():
        text = path.read_text()
        path.write_text(respell(text, turn))
    for path in sorted(ROOT.glob("crates/*/src/**/*.rt")):
        lines = path.read_text().split("\n")
        path.write_text("\n".join(respell(l, turn if l.startswith("ghost use") else camel) for l in lines))
    for path in sorted(ROOT.glob("crates/*/must-fail/*.edit")):
        text = path.read_text()
        antt = re.search(r"^file: \S+\.antt", text, flags=re.M)
        path.write_text(respell(text, turn if antt else camel))
    documents = [ROOT / "README.md", *sorted((ROOT / "docs").rglob("*.md"))]
    for path in documents:
        path.write_text(in_code_font(path.read_text(), turn, names))
    for path in [ROOT / "tests/memory.py"]:
        path.write_text(in_code_font(path.read_text(), turn, names, font="r?f?\"[^\"\\n]+\""))


if __name__ == "__main__":
    main()
