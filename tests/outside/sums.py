"""Sums of questions by the question program: beside the model, and beside the
program's own answers to the two questions (slip 14 of the change requests).

    worked_sums      the sums of plan D
    fixed_sums       those and small plans, one for each edge
    random_sums      the sums of a random plan
    found_lines      what a program prints for the questions and their sums
    model_differences    lines that are not the model's
    law_differences      lines that the program's lines for y and y′ do not bear out
"""

import re
from random import Random

from cases import Case, expected
from compare import Difference
from generate.plans import EDGES, build, dense
from generate.sums import Sum, sum_plan, sums_of_plan
from model.ask import answer_line
from model.limits import GREATEST_ENTRIES
from model.plan_text import read_plan
from model.questions import Answer
from model.sums import told
from worked import PLAN_D, SUMS


def worked_sums():
    plan = read_plan(PLAN_D, GREATEST_ENTRIES)
    return [
        Sum(plan, PLAN_D, a, y, b, other, "sums on plan D") for a, y, _, b, other, _, _ in SUMS
    ]


def fixed_sums(seed):
    rng = Random(f"sums {seed}")
    found = worked_sums()
    for p, n, m in EDGES:
        found += sums_of_plan(rng, build(rng, dense, p, n, m), f"sums {p} {n} {m}")
    return found


def random_sums(seed, index):
    rng = Random(f"sums {seed} {index}")
    return sums_of_plan(rng, sum_plan(rng, index), f"seed {seed} sums {index}")


def _case(added, question):
    return Case("ask", added.text, question=question, origin=added.origin)


def _cases(added):
    return [_case(added, y) for y in (added.y, added.other, added.question)]


def found_lines(sums, program):
    """Each question once, however many sums it is in."""
    asked = list(dict.fromkeys(case for added in sums for case in _cases(added)))
    return dict(zip(asked, program.results(asked)))


def model_differences(lines):
    for case, found in lines.items():
        wanted = expected(case)
        if found != wanted:
            yield Difference(case, wanted, found)


def law_differences(sums, lines):
    for added in sums:
        first, second, whole = (lines[case] for case in _cases(added))
        wanted = _told_line(added, _answer(added.plan, first), _answer(added.plan, second))
        if wanted not in (None, whole):
            yield Difference(_case(added, added.question), wanted, whole)


def _told_line(added, first, second):
    """What the sum's line has to be, or None where the two do not tell."""
    if first is None or second is None:
        return None
    wanted = told(added.plan, added.a, first, added.b, second)
    return wanted and answer_line(wanted)


def _answer(plan, line):
    """The answer on a line; None where it has none of the plan's size, which is
    a difference from the model already."""
    if not isinstance(line, bytes) or not re.fullmatch(rb"(open|closed)( [0-9]+)*\n", line):
        return None
    verdict, *fields = line.split()
    cells = tuple(map(int, fields))
    if verdict == b"open":
        return Answer(True, cells, (0,) * plan.m) if len(cells) == plan.n else None
    return Answer(False, (0,) * plan.n, cells) if len(cells) == plan.m else None
