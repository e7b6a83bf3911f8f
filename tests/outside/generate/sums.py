"""Questions on a plan by their verdict, and sums of two of them.

    Sum              a·y + b·y′ on a plan that a text states
    open_question    any combination of the rows
    closed_question  any question that is none, or None where there is none
    sums_of_plan     sums of every sort that the plan has
    sum_plan         a plan whose questions are soon answered
"""

from typing import NamedTuple

from model.factors import factor
from model.limits import GREATEST_ENTRIES
from model.questions import answer
from model.storage import Plan, row
from model.sums import mixed

from .left import plan_in_turn
from .texts import varied_text

MOST_CELLS = 4_000


class Sum(NamedTuple):
    plan: Plan
    text: bytes
    a: int
    y: tuple
    b: int
    other: tuple
    origin: str

    @property
    def question(self):
        return mixed(self.plan.p, self.a, self.y, self.b, self.other)


def open_question(rng, plan):
    y = [0] * plan.m
    for i in range(plan.n):
        weight = rng.randrange(plan.p)
        for j, value in row(plan.rows, i).items():
            y[j] = (y[j] + weight * value) % plan.p
    return tuple(y)


def closed_question(rng, plan):
    """Any question, and where it is open something more at a column without a
    pivot, where nothing can take it away."""
    factors = factor(plan, GREATEST_ENTRIES, GREATEST_ENTRIES).factors
    unused = factors.C[factors.r :]
    if not unused:
        return None
    y = [rng.randrange(plan.p) for _ in range(plan.m)]
    if answer(plan, factors, y).is_open:
        column = rng.choice(unused)
        y[column] = (y[column] + rng.randrange(1, plan.p)) % plan.p
    return tuple(y)


def _open_pairs(rng, p, y, other):
    """Any weights; the greatest, whose sums pass p; the weight 0; and y with its
    opposite, which modulo 2 is y twice."""
    t = rng.randrange(1, p)
    yield rng.randrange(p), y, rng.randrange(p), other
    yield p - 1, y, p - 1, other
    yield from rng.choice((((0, y, t, other),), ((t, y, 0, other),)))
    yield t, y, p - t, y


def _closed_pairs(rng, p, y, closed, another):
    """A closed question second and first; plainly added; without weight, so that
    it takes no part; and with another closed question, or its own opposite."""
    t, weight = rng.randrange(1, p), rng.randrange(p)
    yield weight, y, t, closed
    yield t, closed, weight, y
    yield from rng.choice((((1, y, 1, closed),), ((1, closed, 1, y),)))
    yield from rng.choice((((0, closed, t, y),), ((t, y, 0, closed),)))
    yield t, closed, rng.randrange(1, p), another
    yield t, closed, p - t, closed


def sums_of_plan(rng, plan, origin):
    """All of them on one text and of the same few questions."""
    text = varied_text(rng, plan)
    y, other = open_question(rng, plan), open_question(rng, plan)
    closed, another = closed_question(rng, plan), closed_question(rng, plan)
    pairs = list(_open_pairs(rng, plan.p, y, other))
    if closed:
        pairs += _closed_pairs(rng, plan.p, y, closed, another)
    return [Sum(plan, text, *pair, origin) for pair in pairs]


def sum_plan(rng, index):
    plan = plan_in_turn(rng, index)
    return plan if plan.n * plan.m <= MOST_CELLS else sum_plan(rng, index)
