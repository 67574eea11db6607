#!/usr/bin/env python3
"""Brings this repository's own definitions and lemmas to today's spelling: words in snake case, types in camel case.

usage: python3 tools/respell.py          at the top of the repository, once, after the library's own port script
       python3 tools/respell.py --list   only print what would be renamed

A dash stays where it joins two names (`length-betweens`, the length of what `betweens` answers); before a plain word it becomes `_`
(`nearest_stops`). Functions of src/, strings, inputs and outputs keep their names. It fails where two names would fall together.
"""

import os
import re
import sys

TOKEN = re.compile(r"[^\s(){}\[\];,.\"]+")
# Names whose plain respelling is taken: by a method or function of src/ beside it, or by another definition.
BY_HAND = {
    "noBetter": "is_no_better",
    "countsFor": "counts_for_part",
    "vertexFor": "vertex_for_part",
    "isUnder": "each_at_most",
    "noSuchPart": "part_missing",
    "someOf": "corners_or",
    "mean-of": "mean_of_weights",
    "foot-of": "foot_laws",
    "weights-of": "weights_by",
    "getD-mix": "get_or-mix",
    "getD-scored": "get_or-scored",
    "left-fits": "left_fits",
    "right-fits": "right_fits",
}
# A parameter that clauses show.
PARAMETERS = {"no-better": "no_better"}
# Words of the library that names here are joined with, and short words that join nothing although a definition has that name.
WORDS = {"length", "map", "get_or"}
SMALL = {"by", "at", "of", "is", "in", "on", "to", "for", "as", "no", "not"}


def files(root, endings):
    for folder, dirs, names in os.walk(os.path.join(root, "crates")):
        dirs[:] = sorted(d for d in dirs if d != "out")
        for n in sorted(names):
            if n.endswith(endings):
                yield os.path.join(folder, n)


def read(path):
    with open(path, encoding="utf-8") as f:
        return f.read()


def is_topic(path):
    """A file of definitions or lemmas, and no file of a function's proof."""
    parts = path.split(os.sep)
    at = parts.index("crates")
    return parts[at + 2] in ("specs", "proofs") and len(parts) == at + 4


DEFINED = re.compile(r"^\s*(?:(?:abbrev|unfoldable|pub|record|data|law)\s+)*([^\s(){}\[\];,.\":]+)(?:\s+(?:\([^)]*\)|\{[^}]*\})+)*\s*:", re.M)
MEMBER = re.compile(r"^\s*ghost\s+([^\s:={}]+)\s*[:=]", re.M)
ALIAS = re.compile(r"[^\s{},]+ as ([^\s{},;]+)")


def own_names(root):
    words, defined = set(), set()
    for p in files(root, (".antt",)):
        t = read(p)
        if is_topic(p):
            for n in DEFINED.findall(t):
                words.add(n)
                if "/specs/" in p:
                    defined.add(n)
        for line in t.split("\n"):
            if line.startswith("use "):
                words.update(a for a in ALIAS.findall(line) if a != "goal")
    for p in files(root, (".rt",)):
        t = read(p)
        words.update(MEMBER.findall(t))
        for line in t.split("\n"):
            if line.startswith("ghost use "):
                words.update(ALIAS.findall(line))
    # a proof's let and its parameters are its own affair
    return words, defined


def snake(word):
    return re.sub(r"(?<=[a-z0-9])([A-Z])|(?<=-)([A-Z])", lambda m: ("_" if m.group(1) else "") + m.group(0).lower(), word)


def is_symbol(part):
    return not re.search(r"[a-z]", part)


def respelled(name, names):
    if name in BY_HAND:
        return BY_HAND[name]
    if name[:1].isascii() and name[:1].isupper() or name.startswith("◌"):
        return name
    parts = [snake(p) for p in re.split(r"(?<=.)-(?=.)", re.sub(r"-([A-Z])(?![A-Za-z])", lambda m: "-" + m.group(1).lower(), name))]
    out = parts[0]
    for a, b in zip(parts, parts[1:]):
        both = all(x in names or is_symbol(x) for x in (a, b))
        out += ("-" if both else "_") + b
    return out


def main(argv):
    root = os.getcwd()
    words, defined = own_names(root)
    names = ({snake(d) for d in defined} | {snake(d).lower() for d in defined} | WORDS) - SMALL
    turn = {n: respelled(n, names) for n in words}
    turn = {a: b for a, b in turn.items() if a != b} | PARAMETERS
    tokens = set()
    for p in files(root, (".rt", ".antt")):
        tokens.update(TOKEN.findall(read(p)))
    bad = [f"{a} -> {b}: that name is taken" for a, b in turn.items() if b in tokens and b not in turn and a not in PARAMETERS]
    back = {}
    for a, b in turn.items():
        back.setdefault(b, []).append(a)
    bad += [f"{' and '.join(a)} -> {b}: they fall together" for b, a in back.items() if len(a) > 1]
    if "--list" in argv:
        print("\n".join(f"{a} -> {b}" for a, b in sorted(turn.items())))
    if bad:
        print("\n".join(sorted(bad)), file=sys.stderr)
        return 1
    if "--list" in argv:
        return 0
    for p in files(root, (".rt", ".antt")):
        old = read(p)
        new = TOKEN.sub(lambda m: turn.get(m.group(0).rstrip(":"), m.group(0).rstrip(":")) + m.group(0)[len(m.group(0).rstrip(":")):], old)
        if new != old:
            with open(p, "w", encoding="utf-8") as f:
                f.write(new)
    print(f"{len(turn)} names respelled")
    return 0


if __name__ == "__main__":
    raise SystemExit(main(sys.argv[1:]))
