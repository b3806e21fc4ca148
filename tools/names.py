#!/usr/bin/env python3
"""Spells the repository's definitions and lemmas in snake case, by names.tsv beside this file.

usage: names.py [TOP]

A row of the table is a name and its new spelling; a third column, of files below crates/, keeps the row to those files. Definitions,
lemmas and fields are renamed in specs/, proofs/, the clauses of src/, the must-fail edits, and where a comment or a page names them.
Strings and the program's own names stay. Run it once, after the kit's port/port.py and before any edit by hand.
"""

import os
import re
import subprocess
import sys

HERE = os.path.dirname(os.path.realpath(__file__))
CUT = r'\s(){}.;,@"«»`'
TOKEN = re.compile(rf"[^{CUT}]+")
PAGES = ("README.md", "docs/ARCHITECTURE.md", "docs/CHECKLIST.md", "docs/DECISIONS.md", "docs/DIFFERENCES.md", "docs/PERFORMANCE.md")


def table(path):
    everywhere, somewhere = {}, {}
    with open(path, encoding="utf-8") as f:
        for line in f:
            row = line.rstrip("\n").split("\t")
            if len(row) == 2:
                everywhere[row[0]] = row[1]
            else:
                for name in row[2].split():
                    somewhere.setdefault(name, {})[row[0]] = row[1]
    return everywhere, somewhere


EVERYWHERE, SOMEWHERE = table(os.path.join(HERE, "names.tsv"))


def respell(text, local):
    """The tokens of code; a local row's name stays behind a dot, where it is a step or a path."""

    def one(m):
        word = m.group()
        if word in EVERYWHERE:
            return EVERYWHERE[word]
        if word in local and text[m.start() - 1 : m.start()] != ".":
            return local[word]
        return word

    return TOKEN.sub(one, text)


def in_comment(text, local):
    """Names in camel case anywhere, others only between backticks, since a word with a dash may be plain prose."""
    text = re.sub(r"`[^`\n]+`", lambda m: respell(m.group(), local), text)
    return TOKEN.sub(lambda m: EVERYWHERE[m.group()] if m.group() in EVERYWHERE and "-" not in m.group() and not m.group().islower() else m.group(), text)


def pieces(text, mark, local):
    """Code by its tokens, comments by `in_comment`, strings as they are."""
    out = []
    for m in re.finditer(rf'(?P<comment>{mark}[^\n]*)|(?P<string>"(?:\\.|[^"\\])*")|(?P<code>(?:(?!{mark})[^"])+)', text):
        if m.group("comment") is not None:
            out.append(in_comment(m.group(), local))
        elif m.group("string") is not None and mark == "//":
            out.append(m.group())
        else:
            out.append(respell(m.group(), local))
    return "".join(out)


def edit(text, local):
    lines = []
    for line in text.splitlines(keepends=True):
        m = re.match(r"(old|new): ", line)
        if m:
            lines.append(m.group() + pieces(line[m.end() :], "//", local))
        elif line.startswith("#"):
            lines.append(in_comment(line, local))
        else:
            lines.append(line)
    return "".join(lines)


def page(text):
    return re.sub(r"`[^`\n]+`", lambda m: respell(m.group(), {}), text)


def rewrite(path, how):
    with open(path, encoding="utf-8") as f:
        old = f.read()
    new = how(old)
    if new != old:
        with open(path, "w", encoding="utf-8") as f:
            f.write(new)


def main():
    top = os.path.abspath(sys.argv[1] if len(sys.argv) > 1 else os.path.join(HERE, ".."))
    crates = os.path.join(top, "crates")
    for folder, dirs, files in os.walk(crates):
        dirs[:] = sorted(d for d in dirs if d != "out")
        for f in sorted(files):
            path = os.path.join(folder, f)
            local = SOMEWHERE.get(os.path.relpath(path, crates), {})
            if f.endswith(".antt"):
                rewrite(path, lambda t: pieces(t, "--", local))
            elif f.endswith(".rt"):
                rewrite(path, lambda t: pieces(t, "//", local))
            elif f.endswith(".edit"):
                rewrite(path, lambda t: edit(t, local))
    for f in PAGES:
        if os.path.isfile(os.path.join(top, f)):
            rewrite(os.path.join(top, f), page)
    for name in sorted(os.listdir(crates)):
        if os.path.isdir(os.path.join(crates, name, "src")):
            subprocess.run(["rt", "fmt"], cwd=os.path.join(crates, name), stdout=subprocess.DEVNULL, check=False)


if __name__ == "__main__":
    main()
