#!/usr/bin/env python3
"""Brings this repository's own definitions and lemmas to snake case: once, at the top, right after the kit's port.py.

Renamed: each name that a signature in crates/*/specs or crates/*/proofs declares (fields and locals of `let` too) and that
has a hyphen, a capital inside, or a prime. Left: the goals and cases that Rattle makes (`goal.NAME`, `c.NAME` of functions,
labels and loops), names of src/, strings, inputs and outputs. It prints names that fall together and then changes nothing.
"""
import os
import re
import sys

WORD = re.compile(r"[A-Za-z_«][A-Za-z0-9_'′\-»]*(?<![\-])")
HEADS = "pub|abbrev|unfoldable|opaque|private"
DECL = re.compile(r"^(\s*)((?:(?:%s)\s+)*)([^\s:(){}λ→=.,]+(?:\s+[^\s:(){}λ→=.,]+)*)\s+:(?:\s|$)" % HEADS)
LOCAL = re.compile(r"(?:\blet\s+|\bλ\s+)([A-Za-z][A-Za-z0-9_'′\-]*)|[(]([A-Za-z][A-Za-z0-9_'′\- ]*) :")

# names whose plain spelling is taken
OTHERS = {'bit-and': 'bit_of_and', 'bit-or': 'bit_of_or', 'bit-xor': 'bit_of_xor', 'blocksOf': 'block_list', 'newGroup': 'adds_group', 'newBlocks': 'adds_blocks', 'same-members': 'members_stay'}


def files(end):
    for folder, dirs, names in os.walk("crates"):
        dirs[:] = sorted(d for d in dirs if d != "out")
        for name in sorted(names):
            if name.endswith(end):
                yield os.path.join(folder, name)


def odd(name):
    return bool(re.match(r"^[A-Za-z]", name)) and ("-" in name or "′" in name or bool(re.match(r"^[a-z][A-Za-z0-9_'′\-]*[A-Z]", name)))


def snake(name):
    if name in OTHERS:
        return OTHERS[name]
    n = name.replace("-", "_").replace("′", "'")
    n = re.sub(r"(?<=[a-z0-9])([A-Z])", lambda m: "_" + m.group(1).lower(), n)
    return n


def read(path):
    with open(path, encoding="utf-8") as f:
        return f.read()


def declared(text):
    out = set()
    for line in text.splitlines():
        if line.strip().startswith("--") or re.search(r":\s*goal\.", line):
            continue
        m = DECL.match(line)
        if m:
            out |= {t for t in m.group(3).split() if odd(t)}
    return out


def locals_of(text):
    out = set()
    for m in LOCAL.finditer(text):
        for t in (m.group(1) or m.group(2)).split():
            if odd(t):
                out.add(t)
    return out


def goals_of(text):
    """Names of goals that a file answers: Rattle's own spelling."""
    return set(re.findall(r"goal\.([A-Za-z0-9_'\-+]+)", text))


def main():
    antt, rt, edits = list(files(".antt")), list(files(".rt")), list(files(".edit"))
    texts = {p: read(p) for p in antt + rt + edits}
    own, made = set(), set()
    for p in antt:
        own |= declared(texts[p])
        made |= goals_of(texts[p])
    clash = own & made
    names = {n: snake(n) for n in own}
    seen = set()
    for p in antt + rt:
        seen |= set(WORD.findall(texts[p]))
    targets = {}
    for n, t in names.items():
        targets.setdefault(t, []).append(n)
    for t, ns in sorted(targets.items()):
        if len(ns) > 1 or t in seen:
            print("falls together:", t, ns, "and a name that stands" if t in seen else "")
    for n in sorted(clash):
        print("also a goal:", n)
    if "--list" in sys.argv:
        return
    for p in antt + rt + edits:
        text = texts[p]
        local = {} if p.endswith((".rt", ".edit")) else {n: snake(n) for n in locals_of(text)}

        def put(m):
            w = m.group(0)
            before = text[m.start() - 1] if m.start() else ""
            if before == "." and text[max(0, m.start() - 5):m.start()] == "goal.":
                return w
            if w in names:
                return names[w]
            if w in local and before != ".":
                return local[w]
            return w

        new = WORD.sub(put, text)
        if p.endswith((".rt",)):
            # code and strings keep their names: only lines that speak of definitions change
            new = ghost_only(text, new)
        if new != text:
            with open(p, "w", encoding="utf-8") as f:
                f.write(new)


def ghost_only(old, new):
    out = []
    for a, b in zip(old.split("\n"), new.split("\n")):
        s = a.strip()
        spoken = s.startswith(("ghost", "requires", "ensures", "law", "measure", "invariant", "decreases", "→"))
        out.append(b if spoken else a)
        if not spoken and a != b:
            print("code line left:", a.strip())
    return "\n".join(out)


main()
