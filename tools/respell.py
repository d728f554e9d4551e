#!/usr/bin/env python3
"""Respells this repository's own definitions and lemmas as the library does: words in snake case, types in camel case.

usage: python3 tools/respell.py [--list]     at the top of the repository, once, after port.py

A definition, constructor, label, lemma or variable whose name begins with a small letter gets snake case. A dash joins the
parts of a lemma's name only where both are names; before a plain word stands `_`. Laws are types, so they get camel case.
Names of src/ (and what Rattle makes of them, as `in-LargeUtf8`), strings and edits keep their spelling. A name that would
fall together with another one is listed and left.
"""

import glob
import re
import sys

WORD = re.compile(r"[A-Za-z_][A-Za-z0-9_'?\-]*")
# a name that Rattle makes of the source, as `returns-in-FixedSizeList-clause-writes`
MADE = re.compile(r"(^|-)in-[A-Z]|^(returns|invariant|overflow|decreases|loop|bounds)-|-(requires|ensures|clause)(-|$)")
# a string, or a word outside strings
STRING = re.compile(r"\"(?:[^\"\\\n]|\\.)*\"|(" + WORD.pattern + ")")
DEFINED = re.compile(r"^\s*(?:(?:abbrev|unfoldable|opaque|data|record|ruleset|pub)\s+)*([A-Za-z_][A-Za-z0-9_'?\-]*)((?:\s+[({][^:=]*:[^=]*?[)}])*)\s*:\s")
# words of the library that older lemmas name; and `maybe_part` is a function of src/
OTHER = {"getD": "get_or", "maybePart": "maybe_part_of"}
# a lemma whose name is taken by the definition that it speaks of
WHOLE = {"body_bytes": "body_bytes_lem"}


def files():
    return sorted(glob.glob("crates/*/specs/**/*.antt", recursive=True) + glob.glob("crates/*/proofs/**/*.antt", recursive=True) + glob.glob("crates/*/src/**/*.rt", recursive=True))


def snake(word):
    if word in OTHER:
        return OTHER[word]
    word = re.sub(r"([a-z0-9])([A-Z])", r"\1_\2", word)
    return re.sub(r"([A-Z])([A-Z][a-z])", r"\1_\2", word).lower()


def camel(name):
    return "".join(p[:1].upper() + p[1:] for p in name.split("-"))


def library(texts):
    """The names that a file brings in from the library."""
    own = {p.split("/")[1] for p in files()}
    names = set()
    for t in texts:
        for path, items in re.findall(r"^(?:ghost )?use ([\w.'+-]+)\.\{([^}]*)\}", t, re.M):
            parts = path.split(".")
            if parts[0] != "Rattle" or parts[1] not in own:
                names |= set(WORD.findall(items))
    return names


def walked(path):
    """Whether the file holds answers to goals, whose names Rattle makes."""
    return path.rsplit("/", 1)[-1] in ("Answers.antt", "Invariants.antt", "Choices.antt", "Proof.antt")


def main(argv):
    texts = {f: open(f, encoding="utf-8").read() for f in files()}
    words, defined, specs = set(), {}, set()
    for f, t in texts.items():
        words |= set(WORD.findall(t))
        if f.endswith(".rt"):
            continue
        for line in t.split("\n"):
            m = DEFINED.match(line)
            if m and not (walked(f) and line.startswith("pub ")):
                defined.setdefault(m[1], set()).add(f)
                if "/specs/" in f:
                    specs.add(m[1])
    lent = library(texts.values())
    known = {snake(w) for w in specs} | {snake(w) for w in words if "-" not in w and w[0].islower() and w in specs}
    turned = {}
    for w in sorted(words):
        small = w[0].islower()
        if MADE.search(w) or w.startswith("_") or w in lent:
            continue
        if w in WHOLE:
            turned[w] = WHOLE[w]
            continue
        if not small:
            if "-" in w and w in specs:
                turned[w] = camel(w)
            continue
        parts = w.split("-")
        if len(parts) == 1:
            if re.search(r"[a-z0-9][A-Z]", w):
                turned[w] = snake(w)
            continue
        if w not in defined:
            if re.search(r"[a-z0-9][A-Z]", w):
                turned[w] = "-".join(snake(p) for p in parts)
            continue
        new = snake(parts[0])
        for a, b in zip(parts, parts[1:]):
            joined = "/specs/" not in " ".join(defined[w]) and snake(a) in known and snake(b) in known
            new += ("-" if joined else "_") + snake(b)
        if new != w:
            turned[w] = new
    taken = {}
    for old, new in sorted(turned.items()):
        taken.setdefault(new, []).append(old)
    for new, olds in taken.items():
        if len(olds) > 1 or new in words and new not in turned:
            for old in olds:
                if not old[0].islower():
                    continue
                dashed = "-".join(snake(p) for p in old.split("-"))
                print("falls together:", old, "->", new)
                if "-" in old:
                    turned[old] = dashed
                elif len(olds) > 1 and not any("-" in o for o in olds):
                    del turned[old]
    turned = {o: n for o, n in turned.items() if o != n}
    if "--list" in argv:
        for o, n in sorted(turned.items()):
            print(o, "->", n)
        return
    for f, t in texts.items():
        def change(m):
            return turned.get(m[0], m[0])

        new = STRING.sub(lambda m: m[0] if m[1] is None else change(m), t)
        if new != t:
            open(f, "w", encoding="utf-8").write(new)
    print(len(turned), "names turned")


if __name__ == "__main__":
    main(sys.argv[1:])
