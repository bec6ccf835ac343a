#!/usr/bin/env python3
"""Brings this repository's own definitions and lemmas to one spelling, once: words in snake case, facts and types in camel case.

usage: python3 tools/respell.py      at the top of a checkout on which port.py ran

Names that the toolchain makes (goals, steps) keep their dashes, and so do names of its library. A name that would fall together
with another is printed, and nothing is written.
"""

import os
import re
import sys

DASHED = re.compile(r"[^\W\d][\w'≡≢≤<+*]*(?:-[\w'≡≢≤<+*]+)+")
TOKEN = re.compile(r"(?<![\w'≡≢≤<+*-])" + DASHED.pattern + r"(?![\w'-])")
DEFINED = re.compile(r"\s*(?:(?:pub|abbrev|unfoldable|data|record|ruleset|where|let)\s+)*(" + DASHED.pattern + r")(?:\s[^:=]*)?\s[:=]\s")
BOUND = re.compile(r"[({λ]\s*((?:[^\s(){}λ.:]+\s+)+):\s")
# parameters, labels and names in edits that the patterns above do not reach
FURTHER = {"action-of", "guard-of", "a-in", "b-in", "k-in", "around-zero", "well-formed", "met-by", "list-full"}
MADE = re.compile(r"(returns|loop|invariant|overflow|bounds|decreases|ghost)-.*")
STD = re.compile(r"use (?:Rattle\.std|Rattle\.core|borrow|lib|mathlib|Prim|native)\.[^{;\n]*\{([^}]*)\}")


def texts():
    for folder, dirs, files in os.walk("crates"):
        dirs[:] = sorted(d for d in dirs if d != "out")
        for f in sorted(files):
            if f.endswith((".rt", ".antt", ".edit")):
                yield os.path.join(folder, f)


def respelled(name):
    if name[0].isupper():
        return "".join(w[0].upper() + w[1:] for w in name.split("-"))
    return name.replace("-", "_")


def without_comments(text):
    return re.sub(r"(?m)--(?=\s|$).*$", "", text)


def own_names(path, text):
    names = set()
    for line in without_comments(text).splitlines():
        made = "goal." in line
        m = DEFINED.match(line)
        if m and not (made and MADE.fullmatch(m.group(1))):
            names.add(m.group(1))
        for group in BOUND.findall(line):
            names.update(w for w in group.split() if DASHED.fullmatch(w))
    return {n for n in names if not MADE.fullmatch(n)}


def main():
    files = {p: open(p, encoding="utf-8").read() for p in texts()}
    names = set(FURTHER)
    for p, t in files.items():
        if p.endswith(".antt"):
            names |= own_names(p, t)
    clash = {}
    words = {w for p, t in files.items() if p.endswith(".antt") for w in re.findall(r"[\w']+", without_comments(t))}
    for n in sorted(names):
        clash.setdefault(respelled(n), set()).add(n)
    bad = [f"{new}: {', '.join(sorted(olds))}" for new, olds in clash.items() if len(olds) > 1]
    fall = [f"{respelled(n)}: also {n}" for n in sorted(names) if respelled(n) in words]
    if bad:
        print("fall together:\n" + "\n".join(bad))
        return 1
    if fall:
        print("look: words that stand already:\n" + "\n".join(fall))
    changed = 0
    for p, t in files.items():
        library = {w.split(" as ")[0].strip() for group in STD.findall(t) for w in group.split(",")}
        new = TOKEN.sub(lambda m: respelled(m.group(0)) if m.group(0) in names and m.group(0) not in library else m.group(0), t)
        if new != t:
            changed += 1
            with open(p, "w", encoding="utf-8") as f:
                f.write(new)
    print(f"{len(names)} names, {changed} files")
    return 0


if __name__ == "__main__":
    sys.exit(main())
