#!/usr/bin/env python3
"""Respells the repository's own definitions, lemmas, fields and constructors: words in snake case, as the library's.

usage: tools/respell.py [--table | --answers] (at the top of the repository, once, after the kit's own script)

A name is respelled where it is declared in a file of specs/ or proofs/ with a small first letter. What the compiler makes, and what
comes from src/ or from the kit, keeps its name. Where a lemma would get a definition's name, it has _lem after it, and a field goes
by FIELDS_TOLD_APART.
It turns the .antt files, the clauses and `ghost use` items of .rt files, the must-fail edits, and code spans of the pages.
--table prints old and new, and writes nothing. --answers does another thing, once the proofs hold: in each Proof.antt an answer gets the
name of the goal that it is for.
"""

import collections
import os
import re
import sys

# Where a definition and a lemma, or a definition and a field, would get one name, the lemma or the field gets another.
FIELDS_TOLD_APART = {
    "is-app": "is_an_app",
    "own-node": "own_node_is",
    "table-in": "table_in_is",
    "witness-after": "witness_after_is",
    "work-after": "work_after_is",
}
STAYS = {"afterOne": "after_one"}  # in two files that have nothing to do with one another

SIGNATURE = re.compile(
    r"^\s*(?:(?:pub|abbrev|unfoldable)\s+)*"
    r"(?!(?:module|record|data|use|open|mutual|where|let|in|elim|mod)\b(?!-))"
    r"([^\s(){}.;,@\"«»:=]+)\s+:\s+(.*)$"
)
WORD = re.compile(r"[^\s(){}.;,@\"«»`]+")
COMMENT = re.compile(r"(?<!\S)--[^\n]*")
GHOST_USE = re.compile(r"ghost\s+use\b[^;]*;")
CLAUSE = re.compile(r"^\s*(?:requires|ensures)\b.*$", re.M)
MODULE = re.compile(r"(?:^|[\s(){}.;,@])[A-Z]\w*\.$")
SPAN = re.compile(r"`[^`\n]+`")


def files(ends, top="crates"):
    for folder, inner, names in os.walk(top):
        inner[:] = sorted(d for d in inner if d not in ("out", "target", ".git"))
        for name in sorted(names):
            if name.endswith(ends):
                yield os.path.join(folder, name)


def read(path):
    with open(path, encoding="utf-8") as f:
        return f.read()


def snake(name):
    bare = name.rstrip("'")
    low = re.sub(r"(?<=[a-z0-9])(?=[A-Z])", "_", bare.replace("-", "_")).lower()
    return low + name[len(bare) :]


def declared():
    """Each name that a file of specs/ or proofs/ declares, with what it is: a field or a constructor, or a definition or lemma."""
    kinds = collections.defaultdict(set)
    for path in files(".antt"):
        block = None
        for line in read(path).splitlines():
            inset = len(line) - len(line.lstrip())
            if re.match(r"\s*(?:pub )?(?:record|data)\b", line):
                block = inset
                continue
            if block is not None and line.strip() and inset <= block:
                block = None
            m = SIGNATURE.match(line)
            if m and not m[2].startswith(("tie.", "goal.")):
                kinds[m[1]].add("lemma" if block is None else "field")
    return kinds


def table():
    kinds = declared()
    new = {n: snake(n) for n in kinds if re.match("[a-z]", n) and snake(n) != n}
    groups = collections.defaultdict(set)
    for old, name in new.items():
        groups[name].add(old)
    for name in groups:
        if name in kinds:
            groups[name].add(name)
    for name, group in groups.items():
        camel = {n for n in group if re.search("[A-Z]", n)}
        if len(group) == 1 or group & set(STAYS):
            continue
        keeps = camel or {n for n in group if "-" not in n}
        for old in group - keeps:
            new[old] = FIELDS_TOLD_APART.get(old, name + "_lem")
    fields = {n for n in new if "field" in kinds[n]}
    return new, fields


def turn(text, new, fields):
    def word(m):
        behind = text[: m.start()]
        label = behind.endswith(".") and not MODULE.search(behind[-80:])
        if m[0] not in new or label and m[0] not in fields:
            return m[0]
        return new[m[0]]

    return WORD.sub(word, text)


def outside(pattern, text, inside, other):
    """The text with what the pattern finds turned one way, and the rest another."""
    out, at = [], 0
    for m in pattern.finditer(text):
        out += [other(text[at : m.start()]), inside(m[0])]
        at = m.end()
    return "".join(out + [other(text[at:])])


ANSWER = re.compile(r"^\s*(\S+) : (?:tie|lts)\.Need-(\S+)", re.M)


def answers():
    """Names each answer by its goal, where no other word of the file has that name."""
    for path in files("Proof.antt"):
        text = read(path)
        code = COMMENT.sub("", text)
        goals = {m[1]: m[2] for m in ANSWER.finditer(code) if m[1] != m[2]}
        words = {m[0] for m in WORD.finditer(code) if code[m.start() - 1 : m.start()] != "."}
        taken = words - set(goals)
        new = {old: goal for old, goal in goals.items() if goal not in taken}
        for old in sorted(set(goals) - set(new)):
            print(f"respell: {path}: {old} stays, {goals[old]} is another word there")
        turned = outside(COMMENT, text, lambda t: t, lambda t: turn(t, new, set()))
        if turned != text:
            with open(path, "w", encoding="utf-8") as f:
                f.write(turned)


def main():
    if "--answers" in sys.argv:
        return answers()
    new, fields = table()
    if "--table" in sys.argv:
        for old in sorted(new):
            print(f"{old}\t{new[old]}")
        return
    code = lambda t: turn(t, new, fields)
    same = lambda t: t
    prose = lambda t: outside(SPAN, t, code, same)
    turned = {}
    for path in files(".antt"):
        turned[path] = outside(COMMENT, read(path), prose, code)
    for path in files(".rt"):
        first = outside(GHOST_USE, read(path), code, same)
        turned[path] = outside(CLAUSE, first, code, same)
    for path in files(".edit"):
        turned[path] = "".join(
            code(line) if line.startswith(("old:", "new:")) else line
            for line in read(path).splitlines(keepends=True)
        )
    pages = [p for p in files(".md", "docs")] + ["README.md"]
    for path in pages:
        turned[path] = prose(read(path))
    count = 0
    for path, text in turned.items():
        if text != read(path):
            count += 1
            with open(path, "w", encoding="utf-8") as f:
                f.write(text)
    print(f"respell: {len(new)} names, {count} files")


main()
