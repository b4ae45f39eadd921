#!/usr/bin/env python3
"""The documents: every link of README.md, CHANGELOG.md, docs/ and examples/README.md leads to a file, one with # to a heading of it; a link whose
words are a name in a code font leads to a file that declares the name; and in a table every such name in a column of definitions, functions or
statements is declared in a file that its cell links, or, where the cell links none, its row. docs/WRONG_VERSIONS.md names every must-fail edit, and where it
names one as CRATE/EDIT, there is such a one. Prints how many of each it found."""
import re
import sys
from functools import lru_cache
from pathlib import Path

ROOT = Path(__file__).resolve().parent.parent
DOCUMENTS = [ROOT / "README.md", ROOT / "CHANGELOG.md", ROOT / "examples/README.md", *sorted((ROOT / "docs").rglob("*.md"))]
LINK = re.compile(r"\[((?:`[^`]*`|[^\]`])*)\]\(([^)\s]+)\)")
CODE = re.compile(r"`([^`]+)`")
# the columns of a table whose names in a code font are declared somewhere, as their heads begin
NAMED = ("definition", "function", "code", "law", "statement", "theorem", "public call", "its row of facts")
NAME = re.compile(r"[A-Za-z][\w-]*(?:::\w+)?")

problems = []
counts = {"links": 0, "names": 0, "must-fail edits": 0}


def headings(path):
    """The anchors of a document, as GitHub makes them."""
    lines = re.sub(r"```.*?```", "", path.read_text(), flags=re.S).split("\n")
    titles = [line.lstrip("#").strip() for line in lines if re.match(r"#+ ", line)]
    return {re.sub(r"[^\w\- ]", "", re.sub(r"[`*]", "", t).lower()).replace(" ", "-") for t in titles}


@lru_cache(maxsize=None)
def declared(path):
    """The names that a file declares: in .antt definitions, laws, records, types, fields and cases of a type; in .rt and .rs functions,
    types, traits and constants; in .h functions and macros."""
    text = path.read_text()
    names = set()
    if path.suffix == ".antt":
        names |= set(re.findall(r"^ *(?:abbrev |unfoldable )*(?:pub )?(?:record |data )?([A-Za-z][\w-]*)(?=[^:\n=]*:(?!:))", text, flags=re.M))
    elif path.suffix in (".rt", ".rs"):
        names |= set(re.findall(r"\b(?:fn|struct|enum|trait|const|type|mod)\s+(\w+)", text))
    elif path.suffix == ".h":
        names |= set(re.findall(r"\b(\w+)\(", text)) | set(re.findall(r"#define (\w+)", text))
    elif path.suffix == ".edit":
        pass
    else:
        names |= set(re.findall(r"[\w-]+", text))
    return names


def target(document, link):
    """The file that a link leads to, and the anchor behind it; nothing for one that leads out of the repository."""
    if re.match(r"[a-z]+:", link):
        return None, None
    file, _, anchor = link.partition("#")
    return ((document.parent / file).resolve() if file else document), anchor


def problem(document, number, words):
    problems.append(f"{document.relative_to(ROOT)}:{number}: {words}")


def look_at_links(document, number, line):
    for words, link in LINK.findall(line):
        file, anchor = target(document, link)
        if file is None:
            continue
        counts["links"] += 1
        if not file.exists():
            problem(document, number, f"no file {link}")
            continue
        if ROOT not in file.parents and file != ROOT:
            problem(document, number, f"{link} leads out of the repository")
        if anchor and (file.suffix != ".md" or anchor not in headings(file)):
            problem(document, number, f"no heading #{anchor} in {file.name}")
        name = CODE.fullmatch(words)
        if name and file.is_file() and NAME.fullmatch(name[1]):
            counts["names"] += 1
            if name[1].split("::")[-1] not in declared(file):
                problem(document, number, f"{link} declares no {name[1]}")


def files_of(document, text):
    files = [target(document, link)[0] for _, link in LINK.findall(text)]
    return [f for f in files if f and f.is_file() and f.suffix != ".md"]


def look_at_row(document, number, heads, cells):
    for head, cell in zip(heads, cells):
        if not head.lower().startswith(NAMED):
            continue
        files = files_of(document, cell) or [f for c in cells for f in files_of(document, c)]
        for name in CODE.findall(LINK.sub("", cell)):
            if not NAME.fullmatch(name):
                continue
            counts["names"] += 1
            if not any(name.split("::")[-1] in declared(f) for f in files):
                problem(document, number, f"`{name}` is in no file that the table gives for it")


def cells_of(line):
    return [c.strip() for c in line.strip().strip("|").split("|")]


def look_at(document):
    heads, fenced = None, False
    for number, line in enumerate(document.read_text().split("\n"), 1):
        if line.startswith("```"):
            fenced = not fenced
        if fenced or line.startswith("    "):
            continue
        look_at_links(document, number, line)
        if not line.startswith("|"):
            heads = None
        elif heads is None:
            heads = cells_of(line)
        elif not re.fullmatch(r"[|\s:-]+", line):
            look_at_row(document, number, heads, cells_of(line))


def look_at_edits(document):
    text = document.read_text()
    edits = {f"{edit.parent.parent.name}/{edit.stem}" for edit in (ROOT / "crates").glob("*/must-fail/*.edit")}
    counts["must-fail edits"] = len(edits)
    crates = {path.name for path in (ROOT / "crates").iterdir()}
    for number, line in enumerate(text.split("\n"), 1):
        for name in CODE.findall(line):
            if re.fullmatch(r"\w+/\w+", name) and name.split("/")[0] in crates and name not in edits:
                problem(document, number, f"there is no must-fail edit {name}")
    for edit in sorted(edits):
        if not re.search(rf"\b{edit.split('/')[1]}\b", text):
            problem(document, 1, f"the must-fail edit {edit} is not named")


for document in DOCUMENTS:
    look_at(document)
look_at_edits(ROOT / "docs/WRONG_VERSIONS.md")
for words in problems:
    print(words)
if problems:
    sys.exit(f"docs.py: {len(problems)} places of the documents are wrong")
if not all(counts.values()):
    sys.exit(f"docs.py: nothing was looked at: {counts}")
print("docs.py: " + ", ".join(f"{n} {what}" for what, n in counts.items()) + f" in {len(DOCUMENTS)} documents are as they say")
