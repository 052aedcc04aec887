#!/usr/bin/env python3
"""Brings the names of this repository's definitions and lemmas to one spelling: words in snake case, types in camel case.

usage: python3 tools/respell.py        at the top of the repository, once, right after the kit's port.py

A name is one that a file of specs/ or proofs/ declares at its head, as a constructor or as a field, and that has a dash. `some-word` becomes `some_word` and
`Some-type` becomes `SomeType`; a lemma on the length of a list keeps the dash after `length`. Names that Rattle makes (goals, invariants, measures) and names that
a file brings in from a library stay. Clauses, proofs, must-fail edits and pages are all turned. It stops, before it writes anything, where two names of one file would fall together.
"""

import collections
import os
import re
import sys

WORD = re.compile(r"[^\s(){}\[\];,.:=→λ`∷⌜⌝\"]+")
HEADS = ("abbrev", "unfoldable", "pub", "record", "data")


def files(root, ends):
    for top in ("crates", "docs", "examples"):
        for folder, dirs, names in os.walk(os.path.join(root, top)):
            dirs[:] = sorted(d for d in dirs if d != "out")
            for name in sorted(names):
                if name.endswith(ends):
                    yield os.path.join(folder, name)
    if "README.md".endswith(ends):
        yield os.path.join(root, "README.md")


def read(path):
    with open(path, encoding="utf-8") as f:
        return f.read()


def declared(text):
    """The names that a file declares: of definitions and lemmas, of constructors and of fields, but not of answers to goals."""
    for line in text.split("\n"):
        indent = len(line) - len(line.lstrip())
        words = line.split()
        if indent not in (0, 2) or not words or words[0] == "--" or ":" not in words:
            continue
        names = words[: words.index(":")]
        while names and names[0] in HEADS:
            names = names[1:]
        if words[0] in HEADS and ("record" in words[:2] or "data" in words[:2]):
            names = names[:1]
        if " : goal." in line or any(not WORD.fullmatch(n) for n in names):
            continue
        yield from names


def uses(text):
    """The modules of a file's use lines, each with the names that it brings in."""
    for module, names in re.findall(r"(?m)^\s*(?:pub )?(?:ghost )?use ([^\s{;]+?)\.\{([^}]*)\}", text):
        yield module, [re.split(r"\s+as\s+", n.strip()) for n in names.split(",")]


def respelt(name):
    if name[0].isupper():
        return "".join(p[:1].upper() + p[1:] for p in name.split("-"))
    if name.startswith("length-"):
        return "length-" + name[7:].replace("-", "_")
    return name.replace("getD", "get_or").replace("-", "_")


def main():
    root = "."
    crates = set(os.listdir(os.path.join(root, "crates")))
    own, plain, code = set(), set(), set()
    for path in files(root, (".antt",)):
        for name in declared(read(path)):
            (own if "-" in name else plain).add(name)
    for path in files(root, (".rt",)):
        code |= set(re.findall(r"\bfn (\w+)", read(path)))
    turned = {n: respelt(n) for n in own if not n.startswith(("the-", "◌")) and n[0].isalpha()}
    together = collections.defaultdict(list)
    for old, new in turned.items():
        together[new].append(old)
    clash = {n: o + [n] * (n in plain) for n, o in together.items() if len(o) > 1 or n in plain}
    words = [set(WORD.findall(read(p))) for p in files(root, (".antt", ".rt", ".edit"))]
    clash = {n: o for n, o in clash.items() if any(len(w & set(o)) > 1 for w in words)}
    for new, olds in sorted(clash.items()):
        print("fall together:", new, olds)
    for new in sorted(set(together) & code):
        print("also a function of src/:", new)
    if "--list" in sys.argv:
        return
    if clash:
        raise SystemExit("respell: nothing was written")
    changed = 0
    for path in files(root, (".antt", ".rt", ".edit", ".md")):
        text = read(path)
        foreign = set()
        for module, names in uses(text):
            parts = module.split(".")
            ours = parts[0] == "Rattle" and parts[1] in crates and "Goals" not in parts and "Given" not in parts
            if not ours:
                foreign |= {n for pair in names for n in pair}

        def turn(m):
            w = m.group(0)
            return turned[w] if w in turned and w not in foreign else w

        new = WORD.sub(turn, text)
        if new != text:
            changed += 1
            with open(path, "w", encoding="utf-8") as f:
                f.write(new)
    print(f"respell: {len(turned)} names, {changed} files")


main()
