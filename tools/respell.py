#!/usr/bin/env python3
"""Brings the repository's own definitions and lemmas to the language's spelling: snake case, where they were camelCase or joined by hyphens.

usage: tools/respell.py [--dry]     at the top of the repository, once, after the kit's port.py

What is renamed: every name that an .antt file of crates/ declares (definitions, laws, fields, local laws after `where`), in the .antt files, in the clauses and comments
of the .rt files, and in the must-fail edits. Types, facts and modules keep their capitals; functions of src/, exported names, strings, inputs and outputs are not touched.
Writes each name with its new one to tools/respelled.tsv.
"""
import glob
import os
import re
import sys

NAME = r"[^\s(){}\[\].,;@\"`|]+"
TOKEN = re.compile(NAME)
# one or more names before ` : `, with the marks that may stand before a declaration, and implicit parameters behind the name
DECLARED = re.compile(r"^\s*(?:(?:pub|abbrev|unfoldable)\s+)*((?:[^\s(){}\[\].,;@\"`:λ]+ )+)(?:(?:\{[^}]*\}|\([^)]*\)) )*: ")
HEADED = re.compile(r"^\s*(?:pub )?(?:record|data) (\S+)")
WORDS = {"pub", "abbrev", "unfoldable", "use", "let", "in", "module", "where", "record", "data", "mod", "infixr", "infixl", "infix", "elim", "rw", "simp", "unfolding"}

# What the mechanical spelling would not say well, and a law that would get the name of something that its file uses: `_lem` is the language's ending for such a law.
APART = {
    "branchRead": "branch_reading",
    "switchRead": "switch_reading",
    "getD-padded": "get_or_padded",
    "getD-table": "get_or_table",
    "headRows": "rows_of_head",
    "oneMore": "one_more_round",
    "is-nan": "is_nan_lem",
    "pass_step": "pass_step_lem",
}


def snake(name):
    """camelCase and hyphens to snake case; a part that begins with a capital, a type's or a fact's name, stays as it is."""
    turned = []
    for part in name.split("-"):
        turned.append(part if re.match(r"[A-Z]", part) else re.sub(r"(?<=[a-z0-9])([A-Z])", lambda m: "_" + m[1].lower(), part))
    return "_".join(turned)


def sources():
    found = []
    for kind in ("specs", "proofs"):
        found += glob.glob(f"crates/*/{kind}/**/*.antt", recursive=True)
    return sorted(found)


def declared(text, walk):
    """The names that a file declares. A walk's own goals are named by the kit, so they are left out."""
    names = set()
    for line in text.split("\n"):
        if line.lstrip().startswith(("--", "use ", "pub use ", "pub mod ", "mod ")):
            continue
        head = HEADED.match(line)
        if head:
            names.add(head[1])
        match = DECLARED.match(line)
        if match and not (walk and re.search(r": (?:\(.*\) → )?tie\.", line)):
            words = match[1].split()
            if not WORDS & set(words) and "=" not in words and "→" not in words and "×" not in words:
                names.update(words)
    return names


def renamed(names):
    """Each name that changes, with its new spelling. A hyphened law beside a definition that gets the same spelling ends in _lem."""
    turned, camel = {}, {snake(name) for name in names if "-" not in name}
    for name in sorted(names):
        if not re.search(r"[a-z]", name) or "→" in name:
            continue
        new = APART.get(name) or snake(name)
        if "-" in name and name not in APART and new in camel and re.search(r"[a-z0-9][A-Z]", " ".join(n for n in names if snake(n) == new and "-" not in n)):
            new += "_lem"
        elif "-" in name and name not in APART and new in names:
            new += "_lem"
        if new != name:
            turned[name] = new
    for name, new in list(turned.items()):
        if name.startswith("◌") and name.endswith("◌"):
            turned[name[1:-1]] = new[1:-1]
    return turned


def respelled(text, turned):
    return TOKEN.sub(lambda m: turned.get(m[0], m[0]), text)


def main():
    texts = {path: open(path, encoding="utf-8").read() for path in sources()}
    names = set()
    for path, text in texts.items():
        names |= declared(text, path.endswith("/Proof.antt"))
    turned = renamed(names)
    for path in glob.glob("crates/*/src/**/*.rt", recursive=True) + glob.glob("crates/*/must-fail/*.edit"):
        texts[path] = open(path, encoding="utf-8").read()
    changed = 0
    for path, text in texts.items():
        if path.endswith(".antt"):
            new = respelled(text, turned)
        else:  # no string of the code is touched
            new = "\n".join(line if '"' in line else respelled(line, turned) for line in text.split("\n"))
        if new != text:
            changed += 1
            if "--dry" not in sys.argv:
                with open(path, "w", encoding="utf-8") as f:
                    f.write(new)
    if "--dry" not in sys.argv:
        with open("tools/respelled.tsv", "w", encoding="utf-8") as f:
            f.write("".join(f"{a}\t{b}\n" for a, b in sorted(turned.items())))
    print(f"respell: {len(turned)} names, {changed} files")


if __name__ == "__main__":
    main()
