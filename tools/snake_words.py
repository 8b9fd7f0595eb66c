#!/usr/bin/env python3
"""Brings the definitions and lemmas of specs/ and proofs/ to snake case: wordOf becomes word_of. Types and modules keep their camel case.

usage: python3 tools/snake_words.py [--dry] [FOLDER]

Every name that a .antt file of the repository declares at its margin, and that begins with a small letter and holds a capital one, is turned
wherever it stands as a whole word: in .antt files, in clauses and `ghost use` lines of .rt files, in must-fail edits, and in the pages.
Functions, types, strings and C names of src/ are left alone. A lemma whose name a definition would fall together with gets the ending that
APART gives it first. What still stands beside a word of its new form is printed: a function, a crate or a field of that name, which no clause
can mean.
"""

import collections
import os
import re
import sys

WORD = re.compile(r"[^\s(){}\[\],;.:λ→×∷≡∙\"]+")
DECLARED = re.compile(r"^(?:(?:abbrev|unfoldable|axiom|pub|open)\s+)*([^\s:(){}]+)\s*:\s", re.M)
# lemmas that a definition's new name would fall together with, by crate; and one that is named after a word of std that has another name today
APART = {
    "door_lines": {"edge_on": "edge_on-leaves"},
    "outlook": {"one_bit": "one_bit-not_zero"},
    "scene": {"at_top": "at_top-now"},
    "dump": {"written_all": "written_all-joined"},
    "soak": {"written_all": "written_all-joined", "read_back": "read_back-changes"},
    "events": {"getD-swap": "get_or-swap"},
    "plans": {"getD-swap": "get_or-swap"},
    "scheduler": {"getD-swap": "get_or-swap"},
}
# names that are declared inside another declaration
INNER = ["nothingDue", "popDue", "isScheduled", "nearOf", "struckTo", "chosenTo"]


def snake(name):
    return re.sub(r"(?<=[a-z0-9])([A-Z]+)", lambda m: "_" + m.group(1).lower(), name)


def files(root):
    for folder, dirs, names in os.walk(os.path.join(root, "crates")):
        dirs[:] = sorted(d for d in dirs if d != "out")
        for name in sorted(names):
            if name.endswith((".antt", ".rt", ".edit")):
                yield os.path.join(folder, name)
    yield os.path.join(root, "README.md")
    for name in sorted(os.listdir(os.path.join(root, "docs"))):
        if name.endswith(".md"):
            yield os.path.join(root, "docs", name)


def main():
    words = [w for w in sys.argv[1:] if not w.startswith("--")]
    dry = "--dry" in sys.argv
    root = words[0] if words else "."
    texts = {}
    for path in files(root):
        with open(path, encoding="utf-8") as f:
            texts[path] = f.read()
        parts = os.path.relpath(path, root).split(os.sep)
        for old, new in APART.get(parts[min(1, len(parts) - 1)], {}).items():
            texts[path] = re.sub(r"(?<![\w'-])" + old + r"(?![\w'-])", new, texts[path])
    declared = set()
    for path, text in texts.items():
        if path.endswith(".antt"):
            declared.update(DECLARED.findall(text))
    turned = {n: snake(n) for n in declared if n[0].islower() and re.search(r"[a-z0-9][A-Z]", n)}
    turned.update({n: snake(n) for n in INNER})
    twice = collections.Counter(turned.values())
    for n in sorted(turned):
        if twice[turned[n]] > 1:
            print("two become one:", n, turned[n])
    pattern = re.compile(r"(?<![\w'-])(" + "|".join(sorted(map(re.escape, turned), key=len, reverse=True)) + r")(?![\w'-])")
    changed = 0
    for path, text in texts.items():
        seen = set(WORD.findall(text))
        for n in sorted(set(pattern.findall(text))):
            if turned[n] in seen and not (path.endswith(".rt") and re.search(r"\bfn " + turned[n] + r"\b", text)):
                print("falls together:", path, n, turned[n])
        new = pattern.sub(lambda m: turned[m.group(1)], text)
        with open(path, encoding="utf-8") as f:
            old = f.read()
        if new != old:
            changed += 1
            if not dry:
                with open(path, "w", encoding="utf-8") as f:
                    f.write(new)
    print(f"{len(turned)} names, {changed} files")


main()
