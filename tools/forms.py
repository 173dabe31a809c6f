#!/usr/bin/env python3
"""Counts, in crates/*/src, places where a plainer form of code may be had, by rough patterns: python3 tools/forms.py [-l] [FOLDER]

With -l each place is listed. A pattern finds more than what is to be changed: a reader decides.
"""
import re
import sys
from collections import defaultdict
from pathlib import Path

LINES = [
    ("1 own enums", r"^\s*(pub )?enum "),
    ("1 flags: fields and parameters that are bool", r"^\s*(pub )?\w+: bool,|[(,] *\w+: bool\b|\bbool\)"),
    ("1 numbers for a refusal", r"fn refusal\b|\b(refusal|e)\.number\(\)"),
    ("1 an answer with a marker value beside it", r"-> \(usize, |Result<Option<"),
    ("3 while and loop", r"^\s*(while|loop)\b"),
    ("3 for over a range", r"^\s*for \w+ in .*\.\."),
    ("4 equality, order, printing, conversion by hand", r"\bfn (same|equal|eq|alike|print|digest|is_one|cmp)\b"),
    ("4 casts", r"\bas (u8|u32|u64|usize)\b"),
    ("6 tables, and arrays with a fixed number of places", r"\[[^\[\]]*; (31|8|9|2|13|538|\w*[A-Z]\w*)\]"),
    ("7 steps picked by a word", r"^\s*\"[\w-]+\" =>"),
]


def functions(text):
    """Each function: its name, how many parameters, and its clauses."""
    for m in re.finditer(r"\bfn (\w+)\s*(<[^{;]*?>)?\(", text):
        depth, i = 1, m.end()
        while depth and i < len(text):
            depth += {"(": 1, ")": -1}.get(text[i], 0)
            i += 1
        inside = text[m.end():i - 1]
        level, parts, part = 0, [], ""
        for ch in inside:
            level += {"(": 1, "<": 1, "[": 1, ")": -1, ">": -1, "]": -1}.get(ch, 0)
            if ch == "," and level == 0:
                parts.append(part)
                part = ""
            else:
                part += ch
        parts = [p for p in parts + [part] if p.strip()]
        head = re.match(r"[^\n{;]*(\n\s+(where|[A-Z]\w*: |requires|ensures|≡|→|×|\(|result)[^\n]*)*", text[i:]).group(0)
        yield m.group(1), len(parts), re.findall(r"requires[^{]*\{(.*)\}\s*$", head, re.M), text.count("\n", 0, m.start()) + 1


def main():
    args = [a for a in sys.argv[1:] if a != "-l"]
    top = Path(args[0] if args else ".")
    found = defaultdict(list)
    clauses = defaultdict(list)
    for path in sorted(top.glob("crates/*/src/*.rt")):
        text = path.read_text()
        name = str(path.relative_to(top / "crates"))
        for number, line in enumerate(text.splitlines(), 1):
            if line.lstrip().startswith(("//", "ghost", "ensures", "requires")):
                continue
            for what, pattern in LINES:
                if re.search(pattern, line):
                    found[what].append(f"{name}:{number}: {line.strip()}")
        for function, parameters, requires, number in functions(text):
            if parameters >= 5:
                found["5 functions with five parameters or more"].append(f"{name}:{number}: {function} ({parameters})")
            for clause in requires:
                clauses[clause.strip()].append(f"{name}:{number}: {function}: {clause.strip()}")
    for places in clauses.values():
        if len(places) >= 3:
            found["5 a `requires` that stands in three functions or more"] += places
    for what in sorted(found):
        print(f"{len(found[what]):4}  {what}")
        if "-l" in sys.argv:
            for place in found[what]:
                print(f"        {place}")


main()
