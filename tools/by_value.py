#!/usr/bin/env python3
"""Writes in contracts what is behind a reference where a definition took the reference.

usage: python3 tools/by_value.py      at the top of the repository, once, after respell.py

A `&` and a `&mut` denote two types now, so that `before x`, `stored_at s c v` and their like (crates/sparse/specs/Views.antt, crates/factor_row/specs/Entries.antt) can no
longer take either. They take the lists themselves: `before x` is x.now of a `&` and x.old of a `&mut`, `after x` is x.new, `stored_at s c v` is
`stored_at s.now c.now v.now` and so on. A `&mut` parameter in a `requires` is x.old everywhere. `before`, `after` and `LentList` stay for records that take a `&mut` list
whole, as `ChecksIn`.
"""

import os
import re

BASES = ("stored", "view", "viewed", "set", "viewed_set", "vector", "matrix", "storage", "entries", "row", "front", "cut")
MOMENT = {f"{b}_{w}": w for b in BASES for w in ("at", "before", "after")}
PARAMETER = re.compile(r"(\w+)\s*:\s*(&(?:'\w+\s+)?(mut\s+)?)")
CLAUSE = re.compile(r"\b(requires|ensures)\s*(?:\w+\s*)?\{")
FUNCTION = re.compile(r"\bfn\s+\w+\s*(?:<[^>]*>)?\s*\(")


def closing(text, at, pair):
    depth = 0
    for j in range(at, len(text)):
        depth += (text[j] == pair[0]) - (text[j] == pair[1])
        if depth == 0:
            return j
    return len(text)


def clauses(text):
    """Each clause with the parameters of its function that are references: (start, end, kind, {name: is_mut})."""
    functions = [m.end() - 1 for m in FUNCTION.finditer(text)]
    for m in CLAUSE.finditer(text):
        before = [f for f in functions if f < m.start()]
        if before:
            signature = text[before[-1] : closing(text, before[-1], "()")]
            yield m.end(), closing(text, m.end() - 1, "{}"), m[1], {p[1]: bool(p[3]) for p in PARAMETER.finditer(signature)}


def turned(clause, kind, references):
    def value(name, moment):
        if not references[name]:
            return name + ".now"
        return name + (".new" if moment == "after" and kind == "ensures" else ".old")

    for w in ("before", "after"):
        for form in (rf"\({w} (\w+)\)", rf"(?<![\w'.]){w} (\w+)(?![\w'.])"):
            clause = re.sub(form, lambda m: value(m[1], w) if m[1] in references else m[0], clause)
    out, moment, outer = [], None, []
    for t in re.split(r"(\s+|[(){}\[\],;])", clause):
        if t in ("(", "["):
            outer.append(moment)
            moment = None
        elif t in (")", "]"):
            moment = outer.pop() if outer else None
        elif t and not t.isspace():
            if t in MOMENT:
                moment = MOMENT[t]
            elif moment and t in references:
                t = value(t, moment)
            elif moment and not re.fullmatch(r"[\w'.]+", t):
                moment = None
        out.append(t)
    clause = "".join(out)
    clause = re.sub(r"(?<![\w'.])(\w+)\.now(?![\w'])", lambda m: m[1] + ".old" if references.get(m[1]) else m[0], clause)
    return re.sub(r"\b(\w+Owned) owners(?![\w'.])", r"\1 owners.now", clause)


def of_source(text):
    out, last = [], 0
    for start, end, kind, references in clauses(text):
        out += [text[last:start], turned(text[start:end], kind, references)]
        last = end
    text = "".join(out) + text[last:]
    cited = "".join(text[a:b] for a, b, _, _ in clauses(text))
    for w in ("before", "after"):
        if not re.search(rf"(?<![\w'.]){w}(?![\w'])", cited):
            text = re.sub(rf"(ghost use Rattle\.sparse\.specs\.Views\.\{{[^}}]*?)\b{w}\b(?:, )?", r"\1", text)
    return re.sub(r"ghost use [\w.]+\.\{\};\n", "", text.replace(", };", "};"))


def by_lists(text):
    """Definitions that took references, over lists."""
    text = text.replace("ListRef", "List ℕ").replace("LentList", "List ℕ")
    text = re.sub(r"\((?:before|after) (\w+)\)", r"\1", text)
    return re.sub(r"(\w+)\.now", r"\1", re.sub(r"\b(?:before|after) (\w+)", r"\1", text))


def of_views(text):
    at = text.index("abbrev pub ListRef")
    rest = text.index("abbrev pub stored_at")
    head = text[:at].replace("use Rattle.std.specs.Borrow.{Bor}", "use denote.MutBor.{MutBor}")
    lent = text[text.index("abbrev pub LentList", at) : rest].replace("Bor (", "MutBor (").replace("(Bor X)", "(MutBor X)")
    return head + lent + by_lists(text[rest:])


def of_entries(text):
    at = text.index("abbrev pub entries_at")
    return text[:at].replace("{ListRef, LentList, before, after, stored_before}", "{stored_before}") + by_lists(text[at:])


def of_owned(text):
    return text.replace("(length (before owners))", "(length owners)").replace("Owned : LentList → ℕ", "Owned : List ℕ → ℕ").replace("Views.{LentList, before}", "Views.{LentList}")


def main():
    todo = [("crates/sparse/specs/Views.antt", of_views), ("crates/factor_row/specs/Entries.antt", of_entries), ("crates/call_owned/specs/Owned.antt", of_owned)]
    for folder, _, names in os.walk("crates"):
        todo += [(os.path.join(folder, n), of_source) for n in sorted(names) if n.endswith(".rt")]
    for p, form in todo:
        with open(p, encoding="utf-8") as f:
            old = f.read()
        new = form(old)
        if new != old:
            with open(p, "w", encoding="utf-8") as f:
                f.write(new)
            print(f"turned: {p}")


if __name__ == "__main__":
    main()
