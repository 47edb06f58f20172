#!/usr/bin/env python3
"""Places of docs/DESIGN-PASS.md in crates/*/src, point by point: python3 tools/places.py [--list] [FOLDER]."""
import glob
import os
import re
import sys

LIST = "--list" in sys.argv
ROOT = next((a for a in sys.argv[1:] if not a.startswith("--")), ".")
FILES = sorted(glob.glob(os.path.join(ROOT, "crates", "*", "src", "*.rt")))


def code(path):
    """The lines of a file, without comments and clauses."""
    for number, line in enumerate(open(path, encoding="utf-8"), 1):
        bare = line.split("//")[0].rstrip()
        if bare and not re.match(r"\s*(ghost|requires|ensures)\b", bare):
            yield number, bare


def clauses(path):
    for number, line in enumerate(open(path, encoding="utf-8"), 1):
        if re.match(r"\s*requires\b", line):
            yield number, line


def lines(pattern):
    return [(p, n, l.strip()) for p in FILES for n, l in code(p) if re.search(pattern, l)]


def enums():
    """Enums of two or more cases of which one says that there is nothing, or what went wrong."""
    found = []
    for path in FILES:
        text = open(path, encoding="utf-8").read()
        for m in re.finditer(r"^(?:pub )?enum (\w+)[^{]*\{(.*?)^\}", text, re.S | re.M):
            if re.search(r"^\s*(Nothing|Unused|Wrong|Bad|Big|Refused)\b", m.group(2), re.M):
                found.append((path, text[: m.start()].count("\n") + 1, m.group(1)))
    return found


def facts():
    """Facts that stand in three or more `requires`: the words that head them."""
    heads = {}
    for path in FILES:
        for number, line in clauses(path):
            for head in set(re.findall(r"\b([A-Z]\w+)(?= [a-z(])", line)):
                heads.setdefault(head, []).append((path, number, head))
    return [place for places in heads.values() if len(places) >= 3 for place in places]


POINTS = [
    ("1", "enums of the shape of Option or Result", enums()),
    ("1", "flags in structs and enum cases", lines(r"^\s+(pub )?\w+: bool,|\{ formula: bool")),
    ("1", "numbers for kinds and refusals", lines(r"\bop (==|!=|<) \d|op: \d+,|match (op|number) \{|match \w+\[|\((3|5|6|7|8|9|0|1), .*nodes, laying")),
    ("2", "sizes of arrays that tell twins apart", lines(r"= \[0(u8|u16|u32|u64|usize)?; (86|512|2632|768|12288)\];")),
    ("3", "while and loop", lines(r"^\s*('\w+: )?(while|loop)\b|= '\w+: loop")),
    ("4", "widening by a call of our own", lines(r"\b(wide|number)\(")),
    ("4", "bytes of a number by division", lines(r"% 256\)? as u8|/ 256|256 \* ")),
    ("4", "equality and conversions by hand", lines(r"fn (same|same_node|same_nodes|is_of|within|two_at|number_of|place_of|shape_of|budget_of|spell|put_eight|reply_of|reading_reply|one_symbol|same_symbol)\b")),
    ("5", "facts in three or more requires", facts()),
    ("5", "problem with header, table with shape, text with shelf, line with offset", lines(r"header: Header|shape: Shape,|shelf: &(mut )?\[usize\]|at: usize")),
    ("6", "parallel arrays and offsets for slices", lines(r"(apps|owns|images): &|let (from|to) = \w+\.(from|to);")),
    ("7", "enums that say which step to run", lines(r"enum (Each|Due)\b")),
]

total = {}
for point, what, places in POINTS:
    total[point] = total.get(point, 0) + len(places)
    print(f"{point}  {len(places):4}  {what}")
    if LIST:
        for path, number, text in places:
            print(f"          {os.path.relpath(path, ROOT)}:{number}: {text}")
old = glob.glob(os.path.join(ROOT, "crates", "*", "proofs", "**", "Proof.antt"), recursive=True)
print(f"8  {len(old):4}  proofs walked by hand (Proof.antt)")
for point in sorted(total):
    print(f"point {point}: {total[point]}")
