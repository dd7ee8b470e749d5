#!/usr/bin/env python3
"""Spells the repository's own definitions and lemmas as the library spells its own: words in snake case, types and facts in camel case.

usage: python3 tools/spell.py [--write] [--table]        at the top of the repository, once, on what port.py left

A name that begins with a small letter gets underscores for its humps and dashes; one that begins with a capital keeps them.
Where two names would meet, the lemma (the one with dashes) ends in `_lem`. Goals' names in proofs of functions are not the repository's own.
"""

import collections
import os
import re
import sys

ROOT = "crates"
NAME = r"[^\s(){}.;,@\"«»|]+"
SEVERAL = re.compile(rf"(?m)^ +((?:{NAME} )+{NAME}) :(?=\s)")
ALIAS = re.compile(rf"\bas ([a-z][^\s(){{}}.;,]*)")
MODULE = re.compile(rf"(?m)^\s*(?:pub )?use [^\s{{]+ as (\S+)$|^\s*(?:pub )?use Rattle\.(?:[^\s{{]+\.)?([^\s.{{]+)$")
# Names that a match or a module binds, and that are no definitions: they go along.
BOUND = {"flatLen", "outLen", "isDriven"}
CLAUSE = re.compile(r"\b(?:requires|ensures)(?:\s+\w+)?\s*\{")
DECLARED = re.compile(rf"(?m)^( *)((?:(?:pub|abbrev|unfoldable|data|record)\s+)*)({NAME})((?: \{{[^{{}}\n]*\}}| \([^()\n]*\))*) :(?=\s)([^\n]*)")
USE = re.compile(r"(?m)^\s*(?:pub )?(?:ghost )?use ([^\s;{]+?)\.?\{([^}]*)\}")


def files(ends):
    for folder, dirs, names in os.walk(ROOT):
        dirs[:] = sorted(d for d in dirs if d not in ("out", "target"))
        for n in sorted(names):
            if n.endswith(ends):
                yield os.path.join(folder, n)


def of_function(path):
    return "/proofs/" in path and path.endswith("/Proof.antt")


def spelled(name):
    if not name[0].islower() or "◌" in name:
        return name
    name = name.replace("getD", "get_or")
    return re.sub(r"(?<=[a-z0-9₀-₉])[A-Z]", lambda m: "_" + m[0].lower(), name).replace("-", "_")


def clauses(text):
    """The spans of clauses and of imports for them, in a file of code."""
    spans = [m.span() for m in re.finditer(r"(?m)^\s*ghost use [^;]*;", text)]
    for m in CLAUSE.finditer(text):
        depth, end = 1, m.end()
        while depth:
            depth += {"{": 1, "}": -1}.get(text[end], 0)
            end += 1
        spans.append((m.start(), end))
    return spans


def main():
    write = "--write" in sys.argv
    texts = {p: open(p, encoding="utf-8").read() for p in files((".antt", ".rt"))}
    declared, fields = set(), set()
    for p, t in texts.items():
        if not p.endswith(".antt"):
            continue
        in_record = None
        for line in t.splitlines():
            m = re.match(r"( *)(?:pub )?record ", line)
            if m:
                in_record = len(m[1])
            several = SEVERAL.match(line)
            if several and not of_function(p):
                declared.update(w for w in several[1].split() if w not in ("pub", "abbrev", "unfoldable"))
            d = DECLARED.match(line)
            if d:
                if of_function(p) and (re.match(r"\s*tie\.", d[5]) or d[3].endswith("-spec")):
                    continue
                declared.add(d[3])
                if in_record is not None and len(d[1]) > in_record and "record" not in d[2]:
                    fields.add(d[3])
            if line.strip() and not line.startswith(" ") and not line.lstrip().startswith("pub record") and in_record is not None and not m:
                in_record = None
    table = {n: spelled(n) for n in declared if spelled(n) != n}
    by_new = collections.defaultdict(list)
    for old, new in table.items():
        by_new[new].append(old)
    words = {p: set(re.findall(rf"(?<![.]){NAME}", t)) for p, t in texts.items()}
    everywhere = set().union(*(w for p, w in words.items() if p.endswith(".antt")))
    met = 0
    for new, olds in sorted(by_new.items()):
        rivals = [o for o in olds if "-" in o]
        others = [o for o in olds if "-" not in o]
        if new in declared or new in everywhere or len(olds) > 1:
            met += 1
            gives_way = rivals if (others or new in everywhere) else rivals[1:]
            for k, o in enumerate(gives_way):
                table[o] = new + "_lem" + ("" if k == 0 else str(k + 1))
            if new in declared and others:
                table[new] = new + "_lem"
            elif others and any(new in w and o in w for o in others for p, w in words.items() if p.endswith(".antt")):
                print("meets a name that is there:", others, new, [p for p, w in words.items() if new in w and others[0] in w][:3])
            print("meet:", new, olds, "->", [table[o] for o in olds])
    taken = collections.Counter(table.values())
    for n, k in taken.items():
        if k > 1:
            print("still meet:", n, [o for o in table if table[o] == n])
    for p, t in texts.items():
        foreign = set()
        for path, items in USE.findall(t):
            if not path.startswith("Rattle.") or path.startswith("Rattle.std.") or path.startswith("Rattle.core."):
                foreign.update(w for w in re.findall(NAME, items))
                foreign.difference_update(w for w in re.findall(rf"as ({NAME})", items))
        own_fn = of_function(p)
        modules = {w for pair in MODULE.findall(t) for w in pair if w} - {"tie", "goal"}
        aliases = {a: spelled(a) for a in ALIAS.findall(t) if spelled(a) != a and spelled(a) not in words[p]} | {b: spelled(b) for b in BOUND}
        inside = clauses(t) if p.endswith(".rt") else []

        def turn(m):
            w = m[0]
            behind = m.start() and t[m.start() - 1] == "."
            if w in aliases and not behind:
                return aliases[w]
            if w not in table or w in foreign:
                return w
            if behind:
                before = t[max(0, m.start() - 200) : m.start()]
                head = re.search(rf"({NAME})\.$", before)
                if re.search(r"Rattle\.[^\s{}]*\.$", before) or head and (head[1] in modules or head[1][0].isupper()):
                    return table[w]
                if w not in fields or own_fn and "-" in w and re.search(r"\b[cslam](\.[^\s]*)?\.$", before):
                    return w
            if own_fn and re.match(r" : tie\.| c[ =]", t[m.end() : m.end() + 7]):
                return w
            return table[w]

        comments = [m.span() for m in re.finditer(r"//.*" if p.endswith(".rt") else r"(?:(?<=\s)|^)--(?=\s).*", t, re.M)]
        at = 0

        def turn_code(m):
            nonlocal at
            while at < len(comments) and comments[at][1] <= m.start():
                at += 1
            if at < len(comments) and comments[at][0] <= m.start():
                w = m[0].strip("`")
                return m[0].replace(w, table[w]) if m[0].startswith("`") and m[0].rstrip(",:;").endswith("`") and w in table else m[0]
            if p.endswith(".rt") and ("-" in m[0] or not any(a <= m.start() < b for a, b in inside)):
                return m[0]
            return turn(m)

        new_t = re.sub(NAME, turn_code, t)
        if write and new_t != t:
            open(p, "w", encoding="utf-8").write(new_t)
    pages = [f for f in ["README.md", "cases/README.md", "rust/README.md"] if os.path.exists(f)]
    pages += [os.path.join(d, f) for d, _, fs in os.walk("docs") for f in fs if f.endswith(".md") and "/changes" not in d]
    for p in pages:
        t = open(p, encoding="utf-8").read()
        new_t = re.sub(r"`([^`\n]+)`", lambda m: "`" + table.get(m[1], m[1]) + "`", t)
        if write and new_t != t:
            open(p, "w", encoding="utf-8").write(new_t)
    print(len(declared), "declared,", len(table), "respelled,", met, "meet")
    if "--table" in sys.argv:
        for o in sorted(table):
            print(o, table[o])


main()
