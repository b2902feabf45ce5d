#!/usr/bin/env python3
"""Brings this repository's own definitions and lemmas to snake case, and says which names would fall together.

usage: tools/snake_names.py [--check]      at the top of the repository, once, after port.py

A word of specs/, proofs/, clauses and must-fail edits that begins small and has a capital inside, as trimEnd, is turned: trim_end. Words with an
underscore already are the library's (mut_slice_Tells) and stay, as do numbers (0xBF) and words of documents that no definition has.
"""

import collections
import os
import re
import sys

WORD = re.compile(r"(?<![A-Za-z0-9_'])[a-z][A-Za-z0-9]*[A-Z][A-Za-z0-9]*(?![A-Za-z0-9_])")
FULL = re.compile(r"(?<![A-Za-z0-9_'-])[A-Za-z_][A-Za-z0-9_'₀-₉-]*")
KEPT = {"getD"}
# Lemmas, and one variable, that would fall together with the definitions that they are about.
LEMMAS = {"no_fields": "no_fields_lem", "no_key": "no_key_lem", "part_no": "part_no_lem", "room_of": "room_of_lem", "is_one": "is_digit_1", "is_word": "is_word_lem"}
DOCUMENTS = ["docs/ARCHITECTURE.md", "docs/COMPARISON.md", "docs/DECISIONS.md", "docs/DIFFERENCES.md", "docs/changes/03-month-starts.md", "docs/changes/10-semicolon-number.md", "README.md"]


def snake(word):
    return re.sub(r"(?<=[a-z0-9])([A-Z])", r"_\1", word).lower()


def sources():
    for folder, dirs, files in os.walk("crates"):
        dirs[:] = sorted(d for d in dirs if d != "out")
        for f in sorted(files):
            if f.endswith((".rt", ".antt", ".edit")):
                yield os.path.join(folder, f)


def read(path):
    with open(path, encoding="utf-8") as f:
        return f.read()


def lemmas(path, text):
    if not path.endswith(".antt"):
        return text
    return re.sub("(?<![.])" + FULL.pattern, lambda m: LEMMAS.get(m[0], m[0]), text)


def main():
    texts = {p: lemmas(p, read(p)) for p in sources()}
    words = set()
    for p, t in texts.items():
        if p.endswith(".antt"):
            words |= {w for w in WORD.findall(t) if w not in KEPT}
    turned = {w: snake(w) for w in words}
    whole = collections.Counter()
    for p, t in texts.items():
        if p.endswith(".antt"):
            whole.update(set(FULL.findall(t)))
    for name in sorted(whole):
        new = WORD.sub(lambda m: turned.get(m[0], m[0]), name)
        if new != name and new in whole:
            print(f"falls together: {name} and {new}: {whole[name]} and {whole[new]} files")
    for a in sorted(turned):
        print(f"{a} {turned[a]}")
    if "--check" in sys.argv[1:]:
        return
    for p in list(texts) + [d for d in DOCUMENTS if os.path.exists(d)]:
        t = texts.get(p) or read(p)
        new = WORD.sub(lambda m: turned.get(m[0], m[0]), t)
        if new != read(p):
            with open(p, "w", encoding="utf-8") as f:
                f.write(new)


main()
