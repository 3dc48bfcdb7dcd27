#!/usr/bin/env python3
"""Brings the proofs of functions that docs/PROMISES.md cites to what is there, as crates are proved.

usage: python3 tools/cite.py     at the top of the repository

On a line "- Proof: ..." the proof of the function f of src/m.rt is cited as its Answers.antt, or as its Invariants.antt
where no goal is answered by hand; where it has no file, the function is cited, f in src/m.rt. The folder of a module's
proofs is cited as that folder, or as the module where it has none.
"""
import os
import re

PAGE = "docs/PROMISES.md"
WIDTH = 120
FILES = ("Answers.antt", "Invariants.antt", "Proof.antt")


def source(crate, modules):
    names = ["/".join(modules)] if modules else ["lib", "main"]
    return next((it for it in (f"crates/{crate}/src/{name}.rt" for name in names) if os.path.isfile(it)), None)


def of_function(crate, modules, name):
    for folder in (name, "+" + name):
        for file in FILES:
            path = "/".join(["crates", crate, "proofs", *modules, folder, file])
            if os.path.isfile(path):
                return f"`{path}`"
    return f"`{name}` in `{source(crate, modules)}`"


def of_module(crate, module):
    folder = f"crates/{crate}/proofs/{module}/"
    return f"`{folder}`" if os.path.isdir(folder) else f"`{source(crate, [module])}`"


def turned(citation):
    found = re.fullmatch(r"`crates/(\w+)/proofs/((?:\w+/)*)\+?(\w+)/(?:Answers|Invariants|Proof)\.antt`", citation)
    if found:
        return of_function(found[1], found[2].split("/")[:-1], found[3])
    found = re.fullmatch(r"`(\w+)` in `crates/(\w+)/src/(\w+)\.rt`", citation)
    if found:
        return of_function(found[2], [] if found[3] in ("lib", "main") else [found[3]], found[1])
    found = re.fullmatch(r"`crates/(\w+)/(?:proofs/(\w+)/|src/(\w+)\.rt)`", citation)
    return of_module(found[1], found[2] or found[3]) if found else citation


def lines_of(citations):
    """The label line, broken between words."""
    words, lines = f"- Proof: {'; '.join(citations)}".split(" "), []
    for word in words:
        if lines and len(lines[-1]) + 1 + len(word) <= WIDTH:
            lines[-1] += " " + word
        else:
            lines.append(word if not lines else "  " + word)
    return "\n".join(lines)


def main():
    with open(PAGE, encoding="utf-8") as it:
        text = it.read()

    def line(found):
        before = [" ".join(it.split()) for it in found[1].split(";")]
        after = list(dict.fromkeys(turned(it) for it in before))
        return found[0] if after == before else lines_of(after)

    with open(PAGE, "w", encoding="utf-8") as it:
        it.write(re.sub(r"(?m)^- Proof:(.*(?:\n  .*)*)", line, text))


main()
