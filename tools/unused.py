#!/usr/bin/env python3
"""Lists definitions of specs/ and lemmas of proofs/ whose name stands nowhere else in the repository.

It is a list and no gate. What no contract and no proof cites goes, unless the crate's README says that it is there for crates above.

usage: tools/unused.py [REPOSITORY]
"""
import os
import re
import sys

PARTS = ("Answers.antt", "Invariants.antt", "Proof.antt", "Lib.antt")
MARKS = r"(?:(?:abbrev|unfoldable|pub|data|record|private)\s+)*"
DECLARED = re.compile(MARKS + r"([^\s:(){}]+)\s*(?:\([^)]*\)\s*|\{[^}]*\}\s*)*:\s")
OTHER = re.compile(r"use |mod |--|pub use |pub mod ")


def sources(folder):
    for at, folders, files in os.walk(folder):
        folders[:] = [it for it in folders if it != "out"]
        for it in files:
            if it.endswith((".rt", ".antt")):
                path = os.path.join(at, it)
                with open(path, encoding="utf-8") as text:
                    yield path, text.read().split("\n")


def declared(lines):
    """The names that stand at the left edge, before their type."""
    found = (DECLARED.match(it) for it in lines if not OTHER.match(it))
    return {it[1] for it in found if it}


def is_own(name, line):
    """A line that declares the name, or a clause of its definition."""
    return re.match(MARKS + re.escape(name) + r"(\s|$)", line) is not None


def is_cited(name, path, texts):
    word = re.compile(r"(?<![\w'-])" + re.escape(name) + r"(?![\w'-])")
    for other, lines in texts.items():
        for line in lines:
            if name in line and word.search(line) and not (other == path and is_own(name, line)):
                return True
    return False


def main():
    root = sys.argv[1] if len(sys.argv) > 1 else "."
    texts = dict(sources(os.path.join(root, "crates")))
    for path in sorted(it for it in texts if it.endswith(".antt") and os.path.basename(it) not in PARTS):
        for name in sorted(declared(texts[path])):
            if not is_cited(name, path, texts):
                print(f"{os.path.relpath(path, root)}: {name}")


main()
