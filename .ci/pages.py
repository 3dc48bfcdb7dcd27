#!/usr/bin/env python3
"""Checks the pages against the files that they cite. An argument is another root than the repository's.

Of README.md and docs/*.md: every path in backquotes is there. Of these, of docs/landings/*.md, of the header, the
examples in C and the comments in crates/*/src and crates/*/specs: no line is over 120 characters, and none cites a
plan, which a reader of this repository does not have. Some files have at most so many lines (`MOST`). README.md has
the examples of `COPIED`, each under its heading, as they are in their files.
Of docs/PROMISES.md, whose label lines ("- Proof: ...", continued on indented lines) have citations with semicolons
between them, names, "in" and a path, or a path alone:
1. every name on a label line is declared in the very file that it is said to be in;
2. every statement of crates/*/specs/Promises.antt, *DemandThree.antt and *Seam.antt, which is an abbreviation whose
   type is exactly `Type 0`, and every `extern "C"` function of crates/ups/src/lib.rt is cited from there.
Prints a line for each fault and exits with 1; or prints how much was checked.
"""
import re
import sys
from pathlib import Path

ROOT = Path(sys.argv[1]) if len(sys.argv) > 1 else Path(__file__).resolve().parent.parent
PROMISES = "docs/PROMISES.md"
LABELS = ("Definition", "Answer", "Stated", "Contract", "Proof")

PATH = r"`((?:crates|docs|tests|bench|include|examples|rust|desk|\.ci)/[^`]*)`"
LABELLED = r"^- (\w+):(.*(?:\n  .*)*)"
CITATION = r"\s*(?:((?:`[^`/]+`,?\s+)+)in\s+)?" + PATH + r"\s*"

# how a name is declared, by the kind of file
DECLARED = {
    ".antt": r"^ *(?:(?:pub|abbrev|unfoldable) )*(?:{0} :\s|(?:record|data) {0}\s)",
    ".rt": r'^ *(?:pub )?(?:extern "C" )?(?:fn|enum|struct|const) {0}\b',
}

# the files whose names have to be cited, and which names
DUE = {
    "crates/*/specs/Promises.antt": r"^abbrev pub (\S+) : Type 0$",
    "crates/*/specs/*DemandThree.antt": r"^abbrev pub (\S+) : Type 0$",
    "crates/*/specs/*Seam.antt": r"^abbrev pub (\S+) : Type 0$",
    "crates/ups/src/lib.rt": r'^pub extern "C" fn (\w+)',
}

# the most lines of a file
MOST = {
    "README.md": 185,
    "docs/REFERENCE.md": 274,
    "examples/door.c": 80,
    "examples/point.c": 10,
    "rust/examples/point.rs": 10,
}

# the examples that README.md has, each as a fenced block under its heading
COPIED = {"Use it from C": "examples/point.c", "Use it from Rust": "rust/examples/point.rs"}

PLANS = r"\b(?:DESIGN|(?<!docs/)SPEED|TOOLCHAIN-NOTES|PLAN-[A-Z]+)\b"

faults = []


def fault(page, text, at, what):
    faults.append(f"{page}:{text.count(chr(10), 0, at) + 1}: {what}")


def text_of(path):
    file = ROOT / path
    if not file.is_file():
        faults.append(f"{path} is not there")
        return ""
    return file.read_text("utf-8")


def is_declared(name, path):
    file = ROOT / path
    pattern = DECLARED.get(file.suffix, "(?!)").format(re.escape(name))
    return file.is_file() and bool(re.search(pattern, file.read_text("utf-8"), re.M))


def check_lines(page, text, begins=""):
    for line in re.finditer(rf"^(?={begins}).*$", text, re.M):
        if len(line[0]) > 120:
            fault(page, text, line.start(), f"a line of {len(line[0])} characters")
        if re.search(PLANS, line[0]):
            fault(page, text, line.start(), "a plan is cited")


def check_lengths():
    for path, most in MOST.items():
        count = len(text_of(path).splitlines())
        if count > most:
            faults.append(f"{path}: {count} lines, and at most {most} are wanted")


def check_copies(page, text):
    for heading, path in COPIED.items():
        section = re.search(rf"^## {heading}$.*?(?=^## |\Z)", text, re.M | re.S)
        blocks = re.findall(r"^```\w+\n(.*?)^```$", section[0] if section else "", re.M | re.S)
        if text_of(path) not in blocks:
            fault(page, text, section.start() if section else 0, f"{path} does not stand under {heading}")


def check_paths(page, text):
    for path in re.finditer(PATH, text):
        if not any(ROOT.glob(path[1])):
            fault(page, text, path.start(), f"`{path[1]}` is not there")
    return set(re.findall(PATH, text))


def check_labels(page, text):
    cited = set()
    for labelled in re.finditer(LABELLED, text, re.M):
        if labelled[1] not in LABELS:
            fault(page, text, labelled.start(), f"unknown label {labelled[1]}")
        for part in re.finditer(r"[^;]+", labelled[2]):
            at = labelled.start(2) + part.start()
            citation = re.fullmatch(CITATION, part[0])
            if not citation:
                fault(page, text, at, f"not names, in and a path: {' '.join(part[0].split())}")
                continue
            for name in re.finditer(r"`([^`]+)`", citation[1] or ""):
                cited.add((name[1], citation[2]))
                if not is_declared(name[1], citation[2]):
                    fault(page, text, at + citation.start(1) + name.start(),
                          f"`{name[1]}` is not declared in {citation[2]}")
    return cited


def check_due(page, text, cited):
    count = 0
    for files, pattern in DUE.items():
        names = [(name, file.relative_to(ROOT).as_posix())
                 for file in sorted(ROOT.glob(files)) for name in re.findall(pattern, file.read_text("utf-8"), re.M)]
        if not names:
            fault(page, text, len(text) - 1, f"nothing that has to be cited is found in {files}")
        for name, path in names:
            if (name, path) not in cited:
                fault(page, text, len(text) - 1, f"`{name}` of {path} is not cited")
        count += len(names)
    return count


paths = set()
for file in [ROOT / "README.md", *sorted(ROOT.glob("docs/**/*.md"))]:
    page, text = file.relative_to(ROOT).as_posix(), file.read_text("utf-8")
    check_lines(page, text)
    if "landings" not in page:
        paths |= check_paths(page, text)
    if page == "README.md":
        check_copies(page, text)
check_lengths()
for file in sorted([*ROOT.glob("include/*.h"), *ROOT.glob("examples/*.c"), *ROOT.glob("tests/c/*.c")]):
    check_lines(file.relative_to(ROOT).as_posix(), file.read_text("utf-8"))
for file in sorted([*ROOT.glob("crates/*/src/*.rt"), *ROOT.glob("crates/*/specs/*.antt")]):
    check_lines(file.relative_to(ROOT).as_posix(), file.read_text("utf-8"), " *(?://|--)")
promises = (ROOT / PROMISES).read_text("utf-8")
cited = check_labels(PROMISES, promises)
due = check_due(PROMISES, promises, cited)
print("\n".join(faults) or f"{len(paths)} files and folders, {len(cited)} names, {due} statements and exports: all there")
sys.exit(1 if faults else 0)
