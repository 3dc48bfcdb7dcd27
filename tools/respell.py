#!/usr/bin/env python3
"""Brings this repository's own definitions and lemmas to snake case, once, after the port.py of the kit.

usage: python3 tools/respell.py [--dry]     at the top of the repository

A name is this repository's own where an .antt file of crates/ declares it. Functions of src/, exported names, strings,
types and modules keep theirs, and so do names of the library and those that Rattle makes.
"""
import collections
import os
import re
import sys

WORD = r"[A-Za-z_][\w'₀-₉≤<≡]*(?:-[A-Za-z0-9_≤<≡][\w'₀-₉≤<≡]*)*"
TOKEN = re.compile(r"(?<![\w'₀-₉-])" + WORD)
DECLARED = re.compile(r"^\s*(?:(?:pub|abbrev|unfoldable|opaque|instance|record|data|constructor|let|and|where)\s+)*(" + WORD + r")\s+:(?!\w)", re.M)
LET = re.compile(r"\blet\s+(" + WORD + r")\s+(?::|=)")
BOUND = re.compile(r"[({](" + WORD + r"(?:\s+" + WORD + r")*)\s+:\s")
LAMBDA = re.compile(r"λ\s+((?:" + WORD + r"\s*)+)\.")
# what Rattle names: the goals that a proof by hand answers
MADE = re.compile(r"^\s*(" + WORD + r")\s+:\s+tie\.", re.M)


def snake(name):
    parts = []
    for part in name.split("-"):
        if part[:1].islower():
            part = re.sub(r"getD(?![a-z])", "get_or", part)
            part = re.sub(r"(?<=[a-z0-9'₀-₉])([A-Z])", lambda m: "_" + m.group(1).lower(), part)
            part = re.sub(r"([A-Z])", lambda m: m.group(1).lower(), part)
        parts.append(part)
    return "_".join(parts)


def texts(endings, root="crates"):
    for folder, dirs, files in os.walk(root):
        dirs[:] = sorted(d for d in dirs if d != "out")
        for name in sorted(files):
            if name.endswith(endings):
                yield os.path.join(folder, name)


def read(path):
    with open(path, encoding="utf-8") as f:
        return f.read()


def code(text):
    return re.sub(r"(?m)(^|\s)--(\s.*)?$", r"\1", text)


def main():
    own, library, made = collections.Counter(), set(), set()
    for path in texts((".antt",)):
        text = code(read(path))
        made.update(MADE.findall(text))
        own.update(DECLARED.findall(text))
        own.update(LET.findall(text))
        for group in BOUND.findall(text) + LAMBDA.findall(text):
            own.update(group.split())
        for names in re.findall(r"^use (?!Rattle\.(?!std\b))[^\n{]*\{([^}]*)\}", text, re.M):
            library.update(n.strip() for n in names.split(","))
    for path in texts((".rt",)):
        for names in re.findall(r"^ghost use (?!Rattle\.(?!std\b))[^\n{]*\{([^}]*)\}", read(path), re.M):
            library.update(n.strip() for n in names.split(","))
    turned = {n: snake(n) for n in own if n not in library | made and n[:1].islower() and snake(n) != n}
    names = collections.defaultdict(set)
    for n in own:
        names[turned.get(n, n)].add(n)
    # where a definition and a lemma on it had one name but for its spelling, the lemma is named after it
    lemmas = {}
    for name, group in names.items():
        if len(group) > 1:
            definition = [n for n in group if "-" not in n and "_" not in n] or [n for n in group if "-" not in n]
            for n in group - set(definition[:1]):
                lemmas[n] = name + "_lem"
    turned.update(lemmas)
    print("the library's too, kept:", sorted(n for n in own if n in library and snake(n) != n))
    print("lemmas named after their definition:", sorted(lemmas.items()))
    print("the library has the new name:", sorted(n for n in turned if turned[n] in library))
    functions = set()
    for path in texts((".rt",)):
        functions.update(re.findall(r"\bfn (\w+)", read(path)))
    print("a function has the new name:", sorted(n for n in turned if turned[n] in functions))
    print(len(turned), "names turned")
    if "--dry" in sys.argv:
        return
    for path in texts((".antt", ".rt", ".edit")):
        before = read(path)
        here = turned if not path.endswith(".rt") else {n: m for n, m in turned.items() if "_" not in n}
        # after a dot a name with a dash is one of a step of the code, which Rattle makes
        step = lambda m: "-" in m.group(0) and before[m.start() - 1 : m.start()] == "."
        after = TOKEN.sub(lambda m: m.group(0) if step(m) else here.get(m.group(0), m.group(0)), before)
        if after != before:
            with open(path, "w", encoding="utf-8") as f:
                f.write(after)


main()
