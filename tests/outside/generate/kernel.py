"""Plans and texts by the settings that have no effect on their slots (slip 7 of the change requests).

    MOST_CELLS        of the settings of a plan, so that they are soon printed
    is_short          whether a text has no more, or is refused
    mixed_plans       plans with several such settings, often with pivots after their word
    longest_setting   a plan with one such setting, on the longest line
    without_slots     a plan of so many words, of which every one is free
"""

from model.limits import GREATEST_MODULUS, GREATEST_SIZE
from model.refusals import Refusal
from model.report import stages
from model.storage import plan_of, store

from .plans import build, common_left, dense, hidden_staircase, holes, low_rank

MOST_CELLS = 40_000


def is_short(text):
    result = stages(text)
    if isinstance(result, Refusal):
        return True
    plan, (factors, _) = result
    return plan.m * (plan.m - factors.r) <= MOST_CELLS


def mixed_plans(rng):
    for kind in (hidden_staircase, low_rank, dense, common_left, holes):
        for p in (2, 7, GREATEST_MODULUS):
            yield build(rng, kind, p, 20, 30)
    yield build(rng, dense, 65_521, 8, 200)


def longest_setting():
    """As many words as there may be, modulo the largest: each slot hears a word of its
    own and the last one, so that the setting has -1 at each but this."""
    size = GREATEST_SIZE
    rows = [{i: 1, size - 1: 1} for i in range(size - 1)]
    return plan_of(GREATEST_MODULUS, size - 1, size, store(rows))


def without_slots(p, m):
    return plan_of(p, 0, m, store([]))
