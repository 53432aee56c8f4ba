#!/usr/bin/env python3
"""Brings the names of this repository's definitions and lemmas to one spelling.

usage: python3 tools/spell_names.py [FOLDER]

Run once, after the repository was turned to the newer kit's spelling: what the crates' own .antt
files declare is spelled in snake case, and a type or a fact in upper camel case, so `is-due`
becomes `is_due` and `Loss-never-grows` becomes `LossNeverGrows`. Names of goals, which the check
makes, keep the dashes that join their parts; a few of their words get the newer spelling. Names of
std are left alone, and so are functions, strings, inputs and outputs.
"""

import os
import re
import sys

BREAK = r"\s(){}\[\],;.:=`\"@|"
TOKEN = re.compile(rf"[^{BREAK}]+")
DECLARED = re.compile(
    r"^[ ]*(?:(?:pub|abbrev|unfoldable|data|record|ruleset) )*"
    rf"([^{BREAK}]+)[ ]*(?:\([^\n]*?\)[ ]*|\{{[^\n]*?\}}[ ]*)*:(?!:)",
    re.M,
)
GOAL = re.compile(rf"^\s*(?:pub |abbrev )*([^{BREAK}]+) : goal\.\1\s*$", re.M)
# words that the check writes in the names of goals and steps
MADE = [
    (r"\boverflow-(add|sub|mul|shl|shr|cast|step)-", r"overflow_\1-"),
    (r"\bnonzero-(div|rem)-", r"nonzero_\1-"),
    (r"\b(slice|offset)-bounds-", r"\1_bounds-"),
    (r"\binvariant-of-", "invariant_of-"),
    (r"\bin-default\b", "in_default"),
    (r"\bin-(ok|err)-", r"in_\1-"),
]


def files(root, *endings):
    for folder, dirs, names in os.walk(os.path.join(root, "crates")):
        dirs[:] = sorted(d for d in dirs if d != "out")
        for name in sorted(names):
            if name.endswith(endings):
                yield os.path.join(folder, name)


def read(path):
    with open(path, encoding="utf-8") as f:
        return f.read()


def is_answer(path):
    return os.path.basename(path) in ("Answers.antt", "Invariants.antt")


def new_spelling(name):
    parts = [p for p in name.split("-") if p]
    if parts[0][0].isupper():
        return parts[0] + "".join(p[0].upper() + p[1:] for p in parts[1:])
    return "_".join(parts)


def declared(root):
    """The names with a dash that the crates' own files declare, and their new spelling."""
    found = {}
    for path in files(root, ".antt"):
        text = read(path)
        goals = set(GOAL.findall(text))
        for name in DECLARED.findall(text):
            inner = name.strip("-")
            if "-" in inner and name == inner and name not in goals and "→" not in name and re.match(r"[A-Za-z]", name):
                found[name] = new_spelling(name)
    for path in files(root, ".rt"):
        for name in re.findall(r"\bas ([a-z]+(?:-[a-z]+)+)\b", "\n".join(l for l in read(path).split("\n") if l.lstrip().startswith("ghost use"))):
            found[name] = new_spelling(name)
    return found


def all_tokens(root):
    return {t for path in files(root, ".antt") for t in TOKEN.findall(read(path))}


def spell(text, names, made):
    text = TOKEN.sub(lambda m: names.get(m[0], m[0]), text)
    if made:
        for old, new in MADE:
            text = re.sub(old, new, text)
    return text


def clause_lines(text, names):
    """In a .rt file names stand in clauses and imports alone: nowhere else does a name have a dash."""
    def one(m):
        return names.get(m[0], m[0])
    return "\n".join(l if l.lstrip().startswith("//") and not any(n in l for n in names) else TOKEN.sub(one, l) for l in text.split("\n"))


def main(root):
    names = declared(root)
    tokens = all_tokens(root)
    fall = {}
    for old, new in sorted(names.items()):
        fall.setdefault(new, []).append(old)
        if new in tokens:
            print(f"look: {old} becomes {new}, which stands in some file already")
    for new, olds in fall.items():
        if len(olds) > 1:
            print(f"look: {', '.join(olds)} all become {new}")
    changed = 0
    for path in files(root, ".antt", ".rt", ".edit"):
        old = read(path)
        if path.endswith(".antt"):
            new = spell(old, names, is_answer(path))
        else:
            new = clause_lines(old, names)
        if new != old:
            changed += 1
            with open(path, "w", encoding="utf-8") as f:
                f.write(new)
    print(f"{len(names)} names, {changed} files")


if __name__ == "__main__":
    main(sys.argv[1] if len(sys.argv) > 1 else ".")
