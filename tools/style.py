#!/usr/bin/env python3
"""Lists what a reader of this repository may stumble over. It is a list and no gate: mend a line, or leave it.

usage: tools/style.py [REPOSITORY]      (run `rt fmt` in each crate first)
"""
import os
import re
import sys

BODY_LINES, FILE_LINES, COLUMNS, IMPORTED_NAMES, DEPTH = 40, 400, 100, 12, 3
STANDARD_NAMES = re.compile(r"[ui](8|16|32|64|128)|f(32|64)|utf(8|16)|crc32c|(\w+_)?md5|base64|http1|rfc\d+")
EMPTY_NAMES = re.compile(r"tmp|temp|foo|inner|data|info|manager|helpers?|misc|utils?|stuff|do_\w+|my_\w+|\w+_impl")
WORK_TALK = re.compile(r"\b(TODO|FIXME|XXX|HACK|for now|no longer|previously)\b")
FUNCTION = re.compile(r"(\s*)(?:pub(?:\([^)]*\))?\s+)?(?:const |unsafe )*fn\s+(\w+)")
BRANCH = re.compile(r"\s*(if|match|while|for|loop|\}? ?else)\b")
DECLARED = re.compile(r"\b(?:fn|struct|enum|trait|mod|let mut|let|const)\s+(\w+)")
MAY_BE_WIDE = re.compile(r"\s*(ghost|requires|ensures|//|0x)|.*[^\x00-\x7f]")  # clauses, comments, tables of numbers


def files_below(folder):
    for at, folders, files in os.walk(folder):
        folders[:] = sorted(it for it in folders if it not in ("out", "data"))
        yield from (os.path.join(at, it) for it in sorted(files))


def text_of(path):
    with open(path, encoding="utf-8") as it:
        return it.read()


def bodies(lines):
    """Each function's name, first line, number of lines in its body, and depth of its deepest branch."""
    for first, line in enumerate(lines):
        found = FUNCTION.match(line)
        if not found:
            continue
        indent, start = found[1], first
        while start < len(lines) and not lines[start].endswith("{") and not lines[start].endswith(";"):
            start += 1
        if start == len(lines) or lines[start].endswith(";"):
            continue
        end = start + 1
        while end < len(lines) and not lines[end].startswith(indent + "}"):
            end += 1
        body = [it for it in lines[start + 1 : end] if it.strip()]
        depths = [(len(it) - len(it.lstrip()) - len(indent)) // 4 for it in body if BRANCH.match(it)]
        yield found[2], first + 1, len(body), max(depths, default=0)


def of_edit(path):
    """An edit whose old text does not stand exactly once in its file."""
    edit = dict(re.findall(r"^(file|old): ?(.*)$", text_of(path), re.M))
    source = os.path.join(os.path.dirname(path), "..", edit.get("file", ""))
    if not os.path.isfile(source) or text_of(source).count(edit.get("old", "")) != 1:
        yield 1, "the old text does not stand once in its file"


def of_line(line, is_rust):
    """What is odd in one line of code or of a definition."""
    imported = re.match(r"\s*(?:ghost )?use ([\w.:]+)\.?\{(.*)\}", line)
    if imported:
        names = imported[2].count(",") + 1
        if names > IMPORTED_NAMES and ".std." not in imported[1]:
            yield f"imports {names} names of one module"
        return
    if is_rust and len(line) > COLUMNS and not MAY_BE_WIDE.match(line):
        yield f"{len(line)} columns"
    comment = re.search(r"(//|--).*$", line)
    if comment and WORK_TALK.search(comment[0]):
        yield "the comment speaks of the work and not of the thing"
    for name in DECLARED.findall(line if is_rust else ""):
        if re.search(r"\d$", name) and not STANDARD_NAMES.fullmatch(name) or EMPTY_NAMES.fullmatch(name):
            yield f"the name {name}"


def of_file(path):
    lines = text_of(path).split("\n")
    is_rust = path.endswith(".rt")
    if len(lines) > FILE_LINES:
        yield 1, f"{len(lines)} lines"
    for number, line in enumerate(lines, 1):
        yield from ((number, it) for it in of_line(line, is_rust))
    for name, number, size, depth in bodies(lines) if is_rust else []:
        if size > BODY_LINES:
            yield number, f"fn {name}: {size} lines"
        if depth > DEPTH:
            yield number, f"fn {name}: branches {depth} deep"


def main():
    root = sys.argv[1] if len(sys.argv) > 1 else "."
    crates = os.path.join(root, "crates")
    for name in sorted(os.listdir(crates)):
        if not os.path.isfile(os.path.join(crates, name, "README.md")):
            print(f"crates/{name}: no README.md")
    for path in files_below(crates):
        found = of_edit(path) if path.endswith(".edit") else of_file(path) if path.endswith((".rt", ".antt")) else []
        for number, what in found:
            print(f"{os.path.relpath(path, root)}:{number}: {what}")


main()
