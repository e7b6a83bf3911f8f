#!/usr/bin/env python3
"""Counts the forms that docs/DESIGN-PASS.md speaks of, in the checkout that it is run at the top of: python3 tools/forms.py"""
import glob
import re

SOURCES = {f: open(f, encoding="utf-8").read() for f in sorted(glob.glob("crates/*/src/**/*.rt", recursive=True))}
NUMBERS = (
    "BAD_MODULUS OVER_LIMIT MALFORMED OUTSIDE_PLAN REPEATED_PLACE VALUE_OUT_OF_RANGE STORAGE_TOO_SHORT BAD_PLAN WRONG_LENGTH BAD_HEADER "
    "NO_PERMUTATION RANK_TOO_LARGE BAD_FACTORS PRODUCT_DIFFERS QUESTION_TOO_LARGE OWNER_TOO_LARGE"
).split()


def places(pattern, skip=lambda f, line: False):
    return [(f, i + 1, line.strip()) for f, s in SOURCES.items() for i, line in enumerate(s.split("\n")) if re.search(pattern, line) and not skip(f, line)]


def functions():
    for f, s in SOURCES.items():
        for m in re.finditer(r"\bfn (\w+)(?:<[^>]*>)?\(([^)]*)\)", s):
            yield f, m.group(1), [p.strip() for p in m.group(2).split(",") if p.strip()]


def has(parameters, *patterns):
    text = ", ".join(parameters)
    return all(re.search(p, text) for p in patterns)


def show(name, found):
    print(f"{name}: {len(found)}")


def main():
    loops = places(r"^\s*(?:'\w+: )?(while|loop)\b")
    show("3, loops that are no `for`", loops)
    show("3, in another way: steps of one written out", places(r"^\s*(\w+) [+-]= 1;$"))
    show("1, own enums", places(r"^\s*(pub )?enum "))
    show("1, an outcome or a flag with a value beside it", places(r"^\s+pub outcome: Outcome|^\s+(pub )?over: bool,$"))
    show("1, numbers of refusals", places(r"\b(" + "|".join(NUMBERS) + r")\b", lambda f, line: "/refusals/" in f or "use " in line))
    show("1, in another way: functions that answer an `Outcome`", places(r"-> Outcome\b"))
    show("1, results and options answered", places(r"-> (Result|Option)<"))
    every = list(functions())
    show("functions", every)
    show("5, of six parameters or more", [x for x in every if len(x[2]) >= 6])
    show("5, with columns and values side by side", [x for x in every if has(x[2], r"\b(cols|lc|uc): &", r"\b(vals|lv|uv): &")])
    show("6, a list with bytes beside it", [x for x in every if has(x[2], r"\b(cb|sb|vb|lsb|usb|rob|cob|kb|bytes): &\[u8\]", r"&\[u32\]")])
    show("7, closures, dyn, function pointers", places(r"\bdyn |\bFn\(|: fn\("))
    show("2, generic functions, traits and impls of them", places(r"^\s*(pub )?(trait|impl\b.* for )|\bfn \w+<\w+:"))
    answers = [line for f in glob.glob("crates/*/proofs/**/Answers.antt", recursive=True) for line in open(f, encoding="utf-8") if re.match(r"(abbrev )?pub .* : goal\.", line)]
    show("8, answers", answers)
    print("8, lines of proofs:", sum(s.count("\n") for s in (open(f, encoding="utf-8").read() for f in glob.glob("crates/*/proofs/**/*.antt", recursive=True))))
    print("lines of sources:", sum(s.count("\n") for s in SOURCES.values()))


main()
