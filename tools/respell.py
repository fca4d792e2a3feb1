#!/usr/bin/env python3
"""Brings this repository's own names of specs/ and proofs/ to today's spelling.

usage: python3 tools/respell.py [--dry]      at the top of the repository

A definition, a lemma or a record's field that is spelled with dashes gets underscores, and a fact or a
type, whose name begins with a capital, camel case: `low-number` becomes `low_number` and `Is-field`
`IsField`. Only names that a file of ours states are touched: what the language makes (the goals of a
function, its steps) and what the library has keep their spelling. Names in the code keep theirs too.
It stops where two names would become one.
"""

import os
import re
import sys

NAME = r"[A-Za-z][\w'’]*(?:-[\w'’]+)+"
STATED = re.compile(r"^\s*(?:(?:pub|abbrev|unfoldable)\s+)*(" + NAME + r")\s*:(?!:)\s*(.*)$")
RECORD = re.compile(r"^\s*(?:(?:pub|abbrev|unfoldable)\s+)*(?:record|data|ruleset)\s+(" + NAME + r")\b")
BOUND = re.compile(r"(?<![\w'’◌-])" + NAME + r"(?![\w'’-])")
MADE = re.compile(r"^(goal|need|given)\.")
CAPS = {"FD": "Fd", "FE": "Fe", "FC": "Fc"}


def files(*ends):
    for folder, dirs, names in os.walk("crates"):
        dirs[:] = sorted(d for d in dirs if d != "out")
        for n in sorted(names):
            if n.endswith(ends):
                yield os.path.join(folder, n)


def read(p):
    with open(p, encoding="utf-8") as f:
        return f.read()


def respelled(name):
    if name[0].isupper():
        parts = [CAPS.get(p, p) for p in name.split("-")]
        return "".join(p[0].upper() + p[1:] for p in parts)
    return name.replace("-", "_")


def foreign(text):
    """The names that a file takes from elsewhere than this repository's crates."""
    ours = set(os.listdir("crates"))
    out = set()
    for m in re.finditer(r"^(?:ghost )?use ([\w.+◌·-]+)\.\{([^}]*)\}", text, re.M):
        path = m.group(1).split(".")
        if path[0] == "Rattle" and len(path) > 1 and path[1] in ours and not ("proofs" in path and path[-1] in ("Goals", "Given")):
            continue
        out |= set(re.findall(NAME, m.group(2)))
    return out


def main(argv):
    own, kept = {}, set()
    for p in files(".antt", ".rt"):
        text = read(p)
        kept |= foreign(text)
        if p.endswith(".antt"):
            for line in text.splitlines():
                m = RECORD.match(line)
                s = STATED.match(line)
                if m:
                    own.setdefault(m.group(1), p)
                elif s and not MADE.match(s.group(2)):
                    own.setdefault(s.group(1), p)
    clash = sorted(n for n in own if n in kept)
    for n in clash:
        print(f"kept, the library's: {n} ({own.pop(n)})")
    to = {n: respelled(n) for n in own}
    back = {}
    for n, m in to.items():
        back.setdefault(m, []).append(n)
    bad = {m: ns for m, ns in back.items() if len(ns) > 1}
    tokens = {}
    for p in files(".antt"):
        for t in re.findall(r"[A-Za-z][\w'’]*(?:-[\w'’]+)*", read(p)):
            tokens.setdefault(t, set()).add(p)
    for m in sorted(back):
        if m in tokens:
            print(f"look: {back[m][0]} becomes {m}, which {', '.join(sorted(tokens[m])[:3])} has")
    if bad:
        print("two names would become one: " + str(bad))
        return 1
    if "--dry" in argv:
        for n in sorted(to):
            print(f"{n} {to[n]}")
        return 0
    changed = 0
    for p in files(".antt", ".rt"):
        text = read(p)
        new = BOUND.sub(lambda m: to.get(m.group(0), m.group(0)), text)
        if new != text:
            with open(p, "w", encoding="utf-8") as f:
                f.write(new)
            changed += 1
    print(f"{len(to)} names, {changed} files")
    return 0


if __name__ == "__main__":
    raise SystemExit(main(sys.argv[1:]))
