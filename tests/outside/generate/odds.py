"""Plans whose settings can all be tried, and questions on them (slip 8 of the change requests).

    Odds             questions on a plan that a text states
    most_words       how many words a plan may have, so that its settings can be tried
    odds_plan        a plan of at most so many
    all_questions    every word's own, the question of zeros, slots, and any others
    odds_of_plan     the plan with these
"""

from itertools import count
from typing import NamedTuple

from model.enumeration import MOST_SETTINGS, full_rows
from model.storage import Plan

from .plans import KINDS, build
from .sums import closed_question, open_question
from .texts import varied_text

MODULI = (2, 2, 3, 3, 5, 7, 13, 61, 4_093)
MOST_SLOTS = 4  # that are asked for


class Odds(NamedTuple):
    plan: Plan
    text: bytes
    questions: tuple
    origin: str


def most_words(p):
    return next(m for m in count() if p ** (m + 1) > MOST_SETTINGS)


def odds_plan(rng):
    """More often with many words than with few."""
    p = rng.choice(MODULI)
    m = max(rng.randint(0, most_words(p)) for _ in range(2))
    return build(rng, KINDS[rng.choice(sorted(KINDS))], p, rng.randint(0, m + 2), m)


def all_questions(rng, plan):
    """What the slots are is open; a closed question there is unless the slots fix
    every word."""
    units = [tuple(int(i == j) for i in range(plan.m)) for j in range(plan.m)]
    slots = rng.sample(full_rows(plan), min(plan.n, MOST_SLOTS))
    found = [(0,) * plan.m, *units, *map(tuple, slots)]
    found += [open_question(rng, plan), closed_question(rng, plan)]
    found += [tuple(rng.randrange(plan.p) for _ in range(plan.m)) for _ in range(2)]
    return tuple(dict.fromkeys(y for y in found if y is not None))


def odds_of_plan(rng, plan, origin):
    return Odds(plan, varied_text(rng, plan), all_questions(rng, plan), origin)
