"""The stored output of the program that runs the cases of reading, against the model.

The program's source names its cases: a text, the lengths of the lent lists, and
whether the first cells of each list are printed too. The program makes its long
texts by code; they are made here once more. The model says what each must come to.
"""

import re
import unittest
from ast import literal_eval
from pathlib import Path

from generate.texts import stated
from model.plan_text import read_plan
from model.refusals import LENGTH, Refusal

PROGRAM = Path(__file__).resolve().parents[2] / "crates" / "case_reading"
CALL = re.compile(r'\b([a-z]+)_case\(\s*rt,\s*("[^"]*")((?:,\s*\d+)*),?\s*\);')

# The files that name cases, as their cases are run.
SOURCES = ("main.rt", "owners.rt")
STARTS = 2_049
OWNERS = 2_048
LONG_ROOM = 5_460
SHOWN = {"starts": 7, "columns": 12, "values": 12, "owners": 7}

# The lengths of the lent starts, columns, values and owners, by the kind of case.
LENT = {
    "plain": lambda: (STARTS, 16, 16, OWNERS),
    "room": lambda room: (STARTS, room, room, OWNERS),
    "length": lambda *lengths: lengths,
    "cells": lambda: (STARTS, SHOWN["columns"], SHOWN["values"], OWNERS),
}


def cases():
    """Each case: name, text, lengths, and whether cells are printed."""
    source = "".join((PROGRAM / "src" / name).read_text() for name in SOURCES)
    for kind, case, numbers in CALL.findall(source):
        name, text = literal_eval(case).split("|", 1)
        lent = LENT[kind](*map(int, re.findall(r"\d+", numbers)))
        yield name, text.encode(), lent, kind == "cells"
    for name, text in long_texts():
        yield name, text, (STARTS, LONG_ROOM, LONG_ROOM, OWNERS), False


def long_texts():
    """Texts of 65,536 bytes, and one of a byte more."""
    first, *between, last = [(1_000 + k // 1_000, 1_000 + k % 1_000, 1) for k in range(5_459)]

    def text(*triples):
        return stated(2, 2_048, 2_048, [(1, 1, 101), *triples])

    yield "65536 bytes", text(first, *between, last)
    yield "65537 bytes", text(first, *between, last) + b"\n"
    yield "65536 bytes, ends exchanged", text(last, *between, first)
    yield "65536 bytes, an end repeated", text(last, *between, last)


def read(text, starts, columns, values, owners):
    if starts != STARTS or columns != values or owners != OWNERS:
        return Refusal(LENGTH)
    return read_plan(text, columns)


def wanted(name, text, lent, shown):
    """What is returned and how many cells are not 0, then the first cells."""
    found = read(text, *lent)
    if isinstance(found, Refusal):
        numbers, plan, lists = found, (0, 0, 0, 0), ((), (), (), ())
    else:
        numbers, lists = (0, 0), (*found.rows, found.owners)
        plan = (found.p, found.n, found.m, len(found.rows.columns))
    cells = [sum(map(bool, numbers)) for numbers in lists]
    yield f"{name}: {_words(numbers)} plan {_words(plan)} cells {_words(cells)}"
    if shown:
        for (label, count), numbers in zip(SHOWN.items(), lists):
            yield f"  {label} {_words((*numbers, *[0] * count)[:count])}"


def _words(numbers):
    return " ".join(map(str, numbers))


class StoredCases(unittest.TestCase):
    def test_every_case(self):
        found = (PROGRAM / "stdout").read_text().splitlines()
        self.assertGreater(len(found), 80)
        self.assertEqual(found, [line for case in cases() for line in wanted(*case)])

    def test_lengths_of_the_long_texts(self):
        lengths = [len(text) for _, text in long_texts()]
        self.assertEqual(lengths, [65_536, 65_537, 65_536, 65_536])


if __name__ == "__main__":
    unittest.main()
