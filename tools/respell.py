#!/usr/bin/env python3
"""Brings this repository's own names of antt to today's spelling: words in snake case.

usage: python3 tools/respell.py [--list]      at the top of the repository, once, after the kit's port.py

A name is one that a file of specs/ or a file of lemmas in proofs/ declares: a definition, a lemma, a field or a constructor. Names that begin with a
capital are types, facts and modules, and stay. In every other name a hump becomes `_` and a small letter, and a dash becomes `_`. A dash stays where it joins a function of
the library to a definition, as in `length-below`. Names of Rattle source have their spelling already. With --list nothing is written: the map is printed, and the names that fall
together. It renames in specs/, proofs/, the clauses of src/, the edits, and between backticks in comments and pages.
"""

import os
import re
import sys

WORD = re.compile(r"[^\s(){};,.\"`\[\]|]+")
HEADS = {"length", "getD", "get_or", "map", "take", "drop", "set"}
SPELLED = {"getD": "get_or"}
OWN_CASE = re.compile(r"^[a-z]")


def files(root, ends):
    for top in ("crates",):
        for folder, dirs, names in os.walk(os.path.join(root, top)):
            dirs[:] = sorted(d for d in dirs if d != "out")
            for n in sorted(names):
                if n.endswith(ends):
                    yield os.path.join(folder, n)


def text(path):
    with open(path, encoding="utf-8") as f:
        return f.read()


def code(line):
    """A line of antt without its comment."""
    return re.split(r"(?:^|(?<=\s))--(?:\s|$)", line, maxsplit=1)[0]


def declared(root):
    """The names that the files of specs/ and of lemmas declare, with the definitions among them."""
    names, words = set(), set()
    for p in files(root, ".antt"):
        rel = os.path.relpath(p, root)
        if os.path.basename(p) in ("Proof.antt", "Answers.antt", "Invariants.antt", "Lib.antt"):
            continue
        depth = 0
        for raw in text(p).split("\n"):
            line = code(raw).rstrip()
            if not line or line.lstrip().startswith(("use ", "pub use ", "module ", "unfolding ", "where", "let ", "infix")):
                continue
            m = re.match(r"^(\s*)((?:(?:abbrev|unfoldable|pub|data|record)\s+)*)([^\s(){};,]+(?: [^\s(){}:;,=]+)*?)\s*(?=[:({]|$)", line)
            if not m:
                continue
            indent, mods, heads = m.groups()
            rest = line[m.end():]
            if not mods:
                # a plain signature or constructor: NAME : .., at the margin or one step in
                if len(indent) not in (0, 2) or not re.match(r"\s*:(\s|$)", rest):
                    continue
            for n in heads.split():
                names.add(n)
                if "abbrev" in mods or "unfoldable" in mods:
                    words.add(n)
    return names, words


def humps(name):
    return re.sub(r"(?<=[a-z0-9])([A-Z])", lambda m: "_" + m.group(1).lower(), name)


def spelled(name, words):
    if not OWN_CASE.match(name) or not re.match(r"^[A-Za-z0-9_'-]+$", name):
        return name
    head, dash, tail = name.partition("-")
    if dash and head in HEADS and tail in words:
        return SPELLED.get(head, head) + "-" + humps(tail).replace("-", "_")
    head = SPELLED.get(head, head)
    name = head + dash + tail
    # a fact keeps its capital where it stands in a name: parts that begin with a capital stay
    parts = [p if p[:1].isupper() else humps(p) for p in name.split("-")]
    return "_".join(parts)


def imported(root):
    """The names that files import from elsewhere than this repository."""
    found = set()
    for p in files(root, (".antt", ".rt")):
        for m in re.finditer(r"use ([A-Za-z0-9_.'+-]+)\.\{([^}]*)\}", text(p)):
            own = re.match(r"Rattle\.(\w+)\.", m.group(1))
            if own and own.group(1) in CRATES and ".declared." not in m.group(1):
                continue
            found |= {n.strip().split(" as ")[0] for n in m.group(2).split(",")}
    return found


def rename(t, names):
    return WORD.sub(lambda m: names.get(m.group(0), m.group(0)), t)


def ticked(t, names):
    return re.sub(r"`[^`\n]*`", lambda m: rename(m.group(0), names), t)


def by_line(t, names, mark):
    """Renames in code, and between backticks in the comments, which begin with the mark."""
    out = []
    for line in t.split("\n"):
        m = re.search(r"(?:^|(?<=\s))" + re.escape(mark) + r"(?=\s|$)", line)
        at = m.start() if m else len(line)
        out.append(rename(line[:at], names) + ticked(line[at:], names))
    return "\n".join(out)


def main(argv):
    global CRATES
    root = "."
    CRATES = set(os.listdir("crates"))
    names, words = declared(root)
    outside = imported(root)
    change = {}
    for n in sorted(names):
        s = spelled(n, words)
        if s != n and n not in outside:
            change[n] = s
    # names that fall together: the new one stands somewhere already, or two become one
    seen = set()
    for p in files(root, (".antt", ".rt")):
        mark = "--" if p.endswith(".antt") else "//"
        for line in text(p).split("\n"):
            at = line.find(mark + " ")
            seen |= set(WORD.findall(line if at < 0 else line[:at]))
    back = {}
    for n, s in change.items():
        back.setdefault(s, []).append(n)
    clash = {s: ns for s, ns in back.items() if len(ns) > 1 or s in seen}
    # a lemma that would have its definition's name ends in `_lem`
    for s, ns in back.items():
        defined = [n for n in ns if n in words] or [n for n in ns if "-" not in n][: len(ns) - 1]
        for n in ns:
            if n not in defined and (defined or s in words or s in outside):
                change[n] = s + "_lem"
        if defined and s in names and s not in words:
            change[s] = s + "_lem"
    if "--list" in argv:
        for n, s in change.items():
            print(n, s)
        print("fall together:")
        for s, ns in sorted(clash.items()):
            print(" ", s, ns, "stands already" if s in seen else "")
        return 0
    for p in files(root, (".antt", ".rt")):
        t = text(p)
        n = by_line(t, change, "--" if p.endswith(".antt") else "//")
        if n != t:
            with open(p, "w", encoding="utf-8") as f:
                f.write(n)
    for p in files(root, ".edit"):
        t = text(p)
        n = "\n".join(rename(l, change) if l.startswith(("old:", "new:")) else ticked(l, change) for l in t.split("\n"))
        if n != t:
            with open(p, "w", encoding="utf-8") as f:
                f.write(n)
    for folder, dirs, fs in os.walk("."):
        dirs[:] = [d for d in dirs if d not in (".git", "crates", "target")]
        for f in fs:
            if f.endswith(".md"):
                p = os.path.join(folder, f)
                t = text(p)
                n = ticked(t, change)
                if n != t:
                    with open(p, "w", encoding="utf-8") as g:
                        g.write(n)
    print(len(change), "names")
    return 0


if __name__ == "__main__":
    sys.exit(main(sys.argv[1:]))
