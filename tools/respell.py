#!/usr/bin/env python3
"""Respells this repository's own definitions and lemmas: words in snake case, types in camel case.

usage: python3 tools/respell.py [FOLDER]     rewrites FOLDER/crates in place (FOLDER is the working folder if none is given)
       python3 tools/respell.py --list [FOLDER]   prints each old name and its new one

Run it once, after the kit's port.py has turned the rest. A dash stays where it joins the names of two definitions, as in
length-padded; elsewhere it becomes an underscore. Functions of src/ keep their names, and so do the names that the check makes.
"""
import collections
import os
import re
import sys

WORD = r"[A-Za-z0-9_'ℕℤ-]"
TOP = re.compile(r"^(?:abbrev |unfoldable )?(?:pub )?(data |record |ruleset )?([A-Za-z]" + WORD + r"*)(?=[ :({])")
MEMBER = re.compile(r"^  (?:pub )?([A-Za-z]" + WORD + r"*(?: [A-Za-z]" + WORD + r"*)*) : ")
MADE = re.compile(r"^(returns|loop|overflow|bounds|offset|nonzero|slice|invariant|decreases|ghosts?|drop|prove)(?![A-Za-z0-9])|-(requires|init|preserved|smaller)\b")
NOT_NAMES = ("use", "mod", "pub", "unfolding", "infixl", "infixr", "infix", "mutual", "where", "open", "let", "in")

# Words of the library on which lemmas speak.
LIBRARY = {"length", "take", "drop", "get_or", "append", "map", "set", "replicate", "suc", "sum", "min", "fold"}

# Where the rule would make two names fall together, or read badly.
BY_HAND = {
    "byte-at": "byte_at_written",
    "flat-beside": "flat_beside_written",
    "in-sector": "sector_below",
    "name-units": "name_units_small",
    "u16-at": "u16_at_bytes",
    "u32-at": "u32_at_bytes",
    "u64-at": "u64_at_bytes",
}


def files(root):
    for folder, dirs, names in os.walk(os.path.join(root, "crates")):
        dirs[:] = sorted(d for d in dirs if d != "out")
        for name in sorted(names):
            if name.endswith((".antt", ".rt")):
                yield os.path.join(folder, name)


def snake(word):
    """camelCase to snake_case, a part between dashes at a time."""
    word = word.replace("getD", "get_or")
    return re.sub(r"(?<=[a-z0-9])([A-Z])", lambda m: "_" + m[1].lower(), word)


def declared(root):
    """The names that the repository's antt declares: of definitions, of lemmas, and of members."""
    defs, others = {}, {}
    for path in files(root):
        if not path.endswith(".antt"):
            continue
        answers = os.path.basename(path) in ("Answers.antt", "Invariants.antt")
        with open(path, encoding="utf-8") as f:
            for line in f:
                m = TOP.match(line)
                if m and m[2] not in NOT_NAMES and not (answers and MADE.search(m[2])):
                    is_def = bool(m[1]) or line.startswith(("abbrev", "unfoldable"))
                    (defs if is_def else others).setdefault(m[2], path)
                m = MEMBER.match(line)
                if m and not answers:
                    for word in m[1].split():
                        others.setdefault(word, path)
    return defs, others


def new_names(root):
    defs, others = declared(root)
    words = {snake(d) for d in defs if d[0].islower()} | LIBRARY
    out = {}
    for old in sorted(set(defs) | set(others)):
        if old in BY_HAND:
            new = BY_HAND[old]
        elif old[0].isupper():
            new = "".join(p[:1].upper() + p[1:] for p in old.split("-")) if old in defs else old
        else:
            parts = snake(old).split("-")
            new = parts[0]
            for part in parts[1:]:
                joins = new.split("-")[-1] in words and part in words
                new += ("-" if joins else "_") + part
        if new != old:
            out[old] = new
    fallen = collections.defaultdict(set)
    for old in set(defs) | set(others):
        fallen[out.get(old, old)].add(old)
    for new, olds in sorted(fallen.items()):
        if len(olds) > 1:
            print(f"respell: {' and '.join(sorted(olds))} fall together as {new}", file=sys.stderr)
    return out


def turn(text, names):
    pattern = re.compile(r"(?<![A-Za-z0-9_'-])(" + "|".join(sorted(map(re.escape, names), key=len, reverse=True)) + r")(?![A-Za-z0-9_'-])")
    return pattern.sub(lambda m: names[m[1]], text)


def main():
    words = [w for w in sys.argv[1:] if not w.startswith("--")]
    root = words[0] if words else "."
    names = new_names(root)
    if "--list" in sys.argv:
        for old, new in names.items():
            print(old, new)
        return
    for path in files(root):
        with open(path, encoding="utf-8") as f:
            text = f.read()
        turned = turn(text, names)
        if turned != text:
            with open(path, "w", encoding="utf-8") as f:
                f.write(turned)


main()
