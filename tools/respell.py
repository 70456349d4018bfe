#!/usr/bin/env python3
"""Brings the names of definitions and lemmas to snake case, after the port to a newer Rattle.

usage: python3 tools/respell.py            at the top of the repository, once
       python3 tools/respell.py hyphens    the same for names of several words with a dash between two

Turns each name of this repository's specs/ and proofs/ that begins with a small letter and has a capital inside, in .antt files, in .rt files
(outside strings) and in must-fail edits. A name whose new spelling is taken by another one in the same file gets the spelling of RENAMED.
The second form takes the names and their spelling from respell.tsv: a dash stays in a lemma's name between the names of two definitions, as in
`table-length`; a lemma whose name would be its definition's ends in _lem.
"""

import os
import re
import sys

# A lemma or a definition whose plain spelling would fall together with another name.
RENAMED = {"firstOf": "first_vertex_of", "isNOrR": "is_n_or_r"}
LEMMAS = {
    "call_rows": "call_rows_are",
    "counts_of": "counts_of_is",
    "edge_to": "edge_to_is",
    "kept_sets": "kept_sets_are",
    "labels_at": "labels_at_is",
}
DECLARED = re.compile(r"^ *(?:(?:abbrev|unfoldable) )?(?:pub )?(?:(?:record|data) )?([^\s:(){}.;,]+)(?: [({][^\n]*?)? : ", re.M)
CAMEL = re.compile(r"[a-z][a-z0-9_]*(?:[A-Z][A-Za-z0-9_]*)")
WORD = re.compile(r"[A-Za-z0-9_']+")


def files(*ends):
    for folder, dirs, names in os.walk("crates"):
        dirs[:] = sorted(d for d in dirs if d != "out")
        for name in sorted(names):
            if name.endswith(ends):
                yield os.path.join(folder, name)


def snake(word):
    return RENAMED.get(word) or re.sub(r"(?<=[a-z0-9])([A-Z])", lambda m: "_" + m.group(1).lower(), word)


def turned(text, names, strings):
    """The text with each name respelled; with strings, what stands between double quotes stays."""
    parts = re.split(r'("(?:\\.|[^"\\\n])*")', text) if strings else [text]
    return "".join(p if strings and i % 2 else WORD.sub(lambda m: names.get(m.group(0), m.group(0)), p) for i, p in enumerate(parts))


def hyphens():
    """Writes a name of respell.tsv as its second column has it."""
    with open(os.path.join(os.path.dirname(os.path.abspath(__file__)), "respell.tsv"), encoding="utf-8") as f:
        names = dict(line.rstrip("\n").split("\t") for line in f)
    whole = re.compile(r"[A-Za-z0-9_'-]+")
    for path in files(".antt", ".rt", ".edit"):
        with open(path, encoding="utf-8") as f:
            text = f.read()
        new = whole.sub(lambda m: names.get(m.group(0), m.group(0)), text)
        if new != text:
            with open(path, "w", encoding="utf-8") as f:
                f.write(new)


def main():
    if not os.path.isfile("crates.txt"):
        sys.exit("respell: run it at the top of the repository")
    names = {}
    for path in files(".antt"):
        with open(path, encoding="utf-8") as f:
            text = f.read()
        for found in DECLARED.finditer(text):
            for word in WORD.findall(found.group(1)):
                if CAMEL.fullmatch(word):
                    names[word] = snake(word)
        for word in WORD.findall(re.sub(r"--.*", "", text)):
            if word == "vertexCount":
                names[word] = snake(word)
    if len(set(names.values())) != len(names):
        sys.exit("respell: two names fall together")
    for path in files(".antt", ".rt", ".edit"):
        with open(path, encoding="utf-8") as f:
            text = f.read()
        new = text
        if path.endswith(".antt") and "/proofs/" in path and not path.startswith("crates/planner/"):
            # A lemma's own name, never a module of a path.
            for old, to in LEMMAS.items():
                new = re.sub(r"(?<![\w.'-])" + old + r"(?![\w'.-])", to, new)
        new = turned(new, names, path.endswith(".rt"))
        if new != text:
            with open(path, "w", encoding="utf-8") as f:
                f.write(new)
    print(f"respell: {len(names)} names")


if sys.argv[1:] == ["hyphens"]:
    hyphens()
else:
    main()
