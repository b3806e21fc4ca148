#!/usr/bin/env python3
"""places.py [-l]: how many places of each point of docs/DESIGN-PASS.md stand in crates/*/src. -l lists each with its file and line."""
import glob
import re
import sys

LIST = "-l" in sys.argv[1:]
SOURCES = sorted(glob.glob("crates/*/src/**/*.rt", recursive=True))
HEAD = re.compile(r"^\s*(?:pub(?:\(crate\))? )?(?:extern \"C\" )?fn (\w+)")
OWN_CONVERSIONS = {"color_of", "color_word", "area_of", "paint", "float_of", "wide", "f32_of", "joined", "pair", "int", "nat_of", "two_numbers", "regs_of"}
OWN_ORDER = {"max_i", "min_i", "larger", "smaller", "between", "least", "lower", "upper", "less", "clamped"}


def functions():
    """Each function: its file, line, name, what stands between its name and its body, and its body."""
    for path in SOURCES:
        lines = open(path, encoding="utf-8").read().split("\n")
        for at, line in enumerate(lines):
            found = HEAD.match(line)
            if not found:
                continue
            indent = len(line) - len(line.lstrip())
            end = at
            while end + 1 < len(lines) and lines[end] != " " * indent + "}":
                end += 1
            text = "\n".join(lines[at:end + 1])
            yield path, at + 1, found.group(1), text


def parameters(text):
    depth, start, count, seen = 0, text.index("("), 0, False
    for i in range(start, len(text)):
        c = text[i]
        if c in "([{<":
            depth += 1
        elif c in ")]}>" and text[i - 1] != "-":
            depth -= 1
            if depth == 0:
                return count + (1 if text[start + 1:i].strip().rstrip(",") else 0) - (1 if text[start + 1:i].rstrip().endswith(",") else 0)
        elif c == "," and depth == 1:
            count += 1
    return count


def grep(pattern, skip=r"^\s*//"):
    for path in SOURCES:
        for at, line in enumerate(open(path, encoding="utf-8").read().split("\n")):
            if re.search(pattern, line) and not re.search(skip, line):
                yield path, at + 1, line.strip()


ALL = list(functions())
POINTS = [
    ("1 a function returns the number of a refusal", [(p, l, n) for p, l, n, t in ALL if re.search(r"number$|^five|_kind_number$", n) and re.search(r"-> u32", t.split("{")[0].split("\n    ensures")[0])]),
    ("1 a number is tested against 0, and a refusal returned by hand", list(grep(r"if \w*(number|lent|frame|first|second|before)\w* != 0 \{"))),
    ("1 a struct holds a number beside a value", list(grep(r"^\s*(pub )?number: u32,"))),
    ("1 a match on the number of a kind, a function or an area", list(grep(r"match (kind|f|area|i|k|number|word\(case, 0\)|self\.kind) \{"))),
    ("3 a while loop", list(grep(r"^\s*while "))),
    ("3 a for over a range of numbers", list(grep(r"^\s*for \w+ in .*\.\."))),
    ("4 equality, order, the larger and the smaller by hand", [(p, l, n) for p, l, n, t in ALL if n.startswith("same_") or n in OWN_ORDER]),
    ("4 a conversion by hand", [(p, l, n) for p, l, n, t in ALL if n in OWN_CONVERSIONS]),
    ("6 two bounds, or a place and a count, as two fields", list(grep(r"^\s*(pub )?(to|upto|rs|need): usize,"))),
    ("6 a function that only makes a buffer and says its length", list(grep(r"ensures \{ \d+ ≡ length result \}"))),
    ("7 a match on which step to run", list(grep(r"match (area|word\(case, 0\)|f) \{"))),
    ("5 pitch, y, x0, x1 as four parameters", [(p, l, n) for p, l, n, t in ALL if re.search(r"pitch: usize,\s+y: usize,\s+x0: usize,\s+x1: usize", t) or re.search(r"pitch: usize,\s+x0: usize,\s+x1: usize,\s+y: usize", t)]),
    ("5 a function of more than 7 parameters", [(p, l, n) for p, l, n, t in ALL if parameters(t) > 7]),
    ("5 a clause says that a part of a row, or an area, fits px", list(grep(r"\b(RowFits|SpanFits|AreaFits)\b", r"^\s*(//|ghost use)"))),
    ("2 a loop that stores pixels", list(grep(r"px\[\w+( \+ \w+)?\] = "))),
]
answers = 0
for path in glob.glob("crates/*/proofs/**/Answers.antt", recursive=True):
    answers += len(re.findall(r"^pub \S+ : goal\.", open(path, encoding="utf-8").read(), re.M))
for name, found in sorted(POINTS, key=lambda p: p[0]):
    print(f"{len(found):5}  {name}")
    if LIST:
        for path, line, what in found:
            print(f"           {path}:{line}  {what}")
print(f"{answers:5}  8 an answer in a proof of a function")
print(f"{len(glob.glob('crates/*/proofs/**/Invariants.antt', recursive=True)):5}  8 a file of invariants")
print(f"{len(ALL):5}  all functions")
