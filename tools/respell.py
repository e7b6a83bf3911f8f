#!/usr/bin/env python3
"""Respells the repository's own definitions, lemmas and fields as Rattle's library has them: words in snake case.

usage: python3 tools/respell.py      at the top of the repository, once, after port.py

A name that a file of specs/ or proofs/ declares and that has a capital behind a small letter or a digit, as `rowOf` or `backL-ext`, gets `_` and the
small letter: `row_of`, `back_l-ext`. Types, modules and records begin with a capital and stay. The names turn as whole words in .antt and .rt files, in
must-fail edits, and in the pages and tests that cite definitions. A name of src/ has no capital there, so functions, strings and exported names stay.
A lemma that would fall together with a definition is listed in TWO, with the spelling that keeps them apart.
"""

import os
import re

WORD = r"[\w'′-]+"
DECLARED = (
    re.compile(r"^(?:(?:abbrev|opaque|unfoldable|pub) )*([a-z_][\w'′-]*)\s*:\s"),
    re.compile(r"^\s+pub ([a-z_][\w'′-]*)\s*:\s"),
    re.compile(r"^(?:(?:abbrev|opaque|unfoldable|pub) )*([a-z_][\w'′-]*)(?: \{[^{}]*\})*\s*:\s"),
    re.compile(r"^\s+(?:(?:abbrev|opaque|unfoldable|pub) )*([a-z_][\w'′-]*)\s*:\s"),
)
# Lemmas that a definition would meet in a file: the lemma gets the ending that the library gives to such lemmas.
TWO = {
    "crates/ask/proofs/TextLines.antt": {"cut_line": "cut_line_lem"},
    "crates/ask/proofs/write_text_line/Proof.antt": {"cut_line": "cut_line_lem"},
    "crates/text_owners/proofs/Cutting.antt": {"lines_then": "lines_then_lem"},
    "crates/text_owners/proofs/Footing.antt": {"on_line": "on_line_lem"},
    "crates/text_plan/proofs/Accepted.antt": {"is_m": "is_m_lem"},
}
# Names that import lines give, and one that a comment alone has.
ALIASES = {"lowerOf", "plainStored", "plainBytes", "inRange"}
# Names of parameters, which stay, though a line that begins with one looks like a declaration.
PARAMETERS = {"roomL", "roomU"}


def files(root):
    for folder, dirs, names in os.walk(root):
        dirs[:] = sorted(d for d in dirs if d not in ("out", "target", ".git", "__pycache__"))
        for n in sorted(names):
            yield os.path.join(folder, n)


def snake(name):
    return re.sub(r"(?<=[a-z0-9])[A-Z]+", lambda m: "_" + m[0].lower(), name)


def table():
    declared = set()
    for p in files("crates"):
        if p.endswith(".antt"):
            with open(p, encoding="utf-8") as f:
                for line in f:
                    for form in DECLARED:
                        m = form.match(line)
                        if m:
                            declared.add(m[1])
    # a goal's name is Rattle's own
    return {n: snake(n) for n in (declared | ALIASES) - PARAMETERS if re.search(r"[a-z0-9][A-Z]", n) and "-in-" not in n}


def turn(text, turned):
    return re.sub(rf"(?<![\w'′-]){WORD}(?![\w'′-])", lambda m: turned.get(m[0], m[0]), text)


def main():
    turned = table()
    for p in list(files("crates")) + [p for d in ("docs", "tests", "bench") for p in files(d)] + ["README.md"]:
        if not p.endswith((".antt", ".rt", ".edit", ".md", ".py", ".sh", "/run", ".list")):
            continue
        if p.endswith("docs/CHANGES.md"):
            continue
        with open(p, encoding="utf-8", errors="surrogateescape") as f:
            old = f.read()
        new = turn(old, turned)
        if new != old:
            new = turn(turn(old, TWO.get(p, {})), turned)
        if new != old:
            with open(p, "w", encoding="utf-8", errors="surrogateescape") as f:
                f.write(new)
            print(f"turned: {p}")
    print(f"{len(turned)} names")


if __name__ == "__main__":
    main()
