"""The stored output of the program that runs the cases of factoring, against the model.

The program's source names its cases: a plan's text; plan D with rooms, and with
every room of L and U up to one more than it takes; a plan that leaves eight rows,
with every room of L and every room of U; plan D with one thing changed. The
model says what each must come to.
"""

import re
import unittest
from ast import literal_eval
from itertools import product
from pathlib import Path
from typing import NamedTuple

from generate.left import BLOCK, left, side
from model.factors import factor
from model.plan_text import read_plan
from model.refusals import LENGTH, Refusal
from model.storage import Plan, Rows, plan_refusal
from sweeps import AMPLE
from worked import EIGHT_LEFT, PLAN_D

PROGRAM = Path(__file__).resolve().parents[2] / "crates" / "case_factoring"
ARGUMENT = r'b"[^"]*"|[\w:]+'
CALL = re.compile(rf'\b(show|room|changed)\(\s*rt,\s*(b"[^"]*"(?:,\s*(?:{ARGUMENT}))*),?\s*\);')

PLAIN_ROOM = 16
D_LOWER, D_UPPER = 6, 7
EIGHT_LOWER, EIGHT_UPPER = 24, 16
GREATEST_ROOM = 32
WORKING_ROW = 2_048
# Of reading's lists the program lends the first cells, and these past their ends.
STARTS_READ = 2_049
ENTRIES_READ = 16_385
OWNERS_READ = 2_048
UNTOUCHED = 9


class Case(NamedTuple):
    """A text, the rooms for L and U, what is changed and to what."""

    text: bytes
    lower: int
    upper: int
    of: str = "NOTHING"
    to: int = 0

    def given(self, of, value):
        return self.to if self.of == of else value


def cases():
    """Each case of the source with its name."""
    for path in sorted(PROGRAM.glob("src/*.rt")):
        for kind, arguments in CALL.findall(path.read_text()):
            name, *rest = re.findall(ARGUMENT, arguments)
            if name != 'b""':
                yield literal_eval(name).decode(), CASES[kind](*rest)
    for lower, upper in product(range(D_LOWER + 2), range(D_UPPER + 2)):
        yield f"D, rooms {lower} {upper}", Case(PLAN_D, lower, upper)
    rooms = [(lower, GREATEST_ROOM) for lower in range(EIGHT_LOWER + 2)]
    rooms += [(GREATEST_ROOM, upper) for upper in range(EIGHT_UPPER + 2)]
    for lower, upper in rooms:
        yield f"eight rows left, rooms {lower} {upper}", Case(EIGHT_LEFT, lower, upper)


CASES = {
    "show": lambda text: Case(literal_eval(text), PLAIN_ROOM, PLAIN_ROOM),
    "room": lambda lower, upper: Case(PLAN_D, int(lower), int(upper)),
    "changed": lambda of, to: Case(PLAN_D, D_LOWER, D_UPPER, _part(of), int(to)),
}


def _part(of):
    """The name of a part: `Part::LStarts` is L_STARTS."""
    return re.sub(r"(?<!^)(?=[A-Z])", "_", of.removeprefix("Part::")).upper()


def handed(case):
    """The plan as it is handed to factoring."""
    read = read_plan(case.text, AMPLE)
    n, m = case.given("N", read.n), case.given("M", read.m)
    entries = case.given("ENTRIES", len(read.rows.columns))
    starts = _changed(case, "FIRST_START", read.rows.starts, STARTS_READ)
    columns = _changed(case, "FIRST_COLUMN", read.rows.columns, ENTRIES_READ)
    values = _changed(case, "FIRST_VALUE", read.rows.values, ENTRIES_READ)
    rows = Rows(
        (*starts, UNTOUCHED)[: case.given("STARTS", n + 1)],
        columns[: case.given("COLUMNS", entries)],
        values[: case.given("VALUES", entries)],
    )
    owners = (*_left(read.owners, OWNERS_READ), UNTOUCHED)[: case.given("OWNERS", m)]
    return Plan(case.given("P", read.p), n, m, rows, owners)


def _left(numbers, length):
    """A list as reading leaves it."""
    return numbers + (0,) * (length - len(numbers))


def _changed(case, of, numbers, length):
    """The same with its first number changed."""
    cells = _left(numbers, length)
    return (case.given(of, cells[0]), *cells[1:])


def lent(case, plan):
    """The lengths that factoring takes of the lists for R, C, L, U and of the
    working row, and those that are lent."""
    starts = plan.n + 1
    taken = {
        "R": plan.n,
        "C": plan.m,
        "L_STARTS": starts,
        "L_COLUMNS": case.lower,
        "L_VALUES": case.lower,
        "U_STARTS": starts,
        "U_COLUMNS": case.upper,
        "U_VALUES": case.upper,
        "WORK": WORKING_ROW,
    }
    return taken, {name: case.given(name, length) for name, length in taken.items()}


def wanted(case):
    """The lines after the name: first what is returned and how many cells are
    not 0, then the factors."""
    plan = handed(case)
    taken, given = lent(case, plan)
    if taken != given:
        return _refused(Refusal(LENGTH))
    found = plan_refusal(plan) or factor(plan, case.lower, case.upper)
    if isinstance(found, Refusal):
        return _refused(found)
    R, C, L, U, r = found.factors
    cells = [sum(map(bool, numbers)) for numbers in (R, C, *L, *U, ())]
    return [
        _line("0 0 rank", [r], "structural", [found.structural], "cells", cells),
        _line("  R", R, "C", C),
        _line("  L starts", L.starts, "columns", L.columns, "values", L.values),
        _line("  U starts", U.starts, "columns", U.columns, "values", U.values),
    ]


def _refused(refusal):
    return [_line(f"{refusal.number} {refusal.detail} rank 0 structural 0 cells", [0] * 9)]


def _line(*parts):
    words = ([part] if isinstance(part, str) else map(str, part) for part in parts)
    return " ".join(word for part in words for word in part)


def stored():
    """The name and the lines of each case in the stored output."""
    blocks = re.split(r"\n(?! )", (PROGRAM / "stdout").read_text().rstrip("\n"))
    for block in blocks:
        name, lines = block.split(": ", 1)
        yield name, lines.split("\n")


class StoredCases(unittest.TestCase):
    def test_every_case(self):
        found = list(stored())
        self.assertGreater(len(found), 50)
        self.assertEqual(dict(found), {name: wanted(case) for name, case in cases()})
        self.assertEqual(len(found), len(list(cases())))

    def test_cases_at_the_size_of_the_block(self):
        """The names say what is left, and both sides of the block are there."""
        plans = {name: handed(case) for name, case in cases() if case.of == "NOTHING"}
        for count in (BLOCK, BLOCK + 1):
            self.assertEqual(left(plans[f"{count} rows left"]).rows, count)
            self.assertEqual(left(plans[f"{count} columns left"]).columns, count)
        self.assertEqual(left(plans["rows left, but no column"]).columns, 0)
        self.assertEqual(len({side(plan) for plan in plans.values()}), 3)

    def test_rooms_of_eight_rows(self):
        """7 comes at each row that is left and has entries, by L and by U."""
        over = {"L": set(), "U": set()}
        for name, case in cases():
            if name.startswith("eight rows left") and "7" == wanted(case)[0].split()[0]:
                which = "L" if case.lower < GREATEST_ROOM else "U"
                over[which].add(int(wanted(case)[0].split()[1]))
        self.assertEqual(over["L"], set(range(10)) - {7})
        self.assertEqual(over["U"], {0, 1, 2, 3, 6, 8, 9})


if __name__ == "__main__":
    unittest.main()
