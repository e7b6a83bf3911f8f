"""Seeded plans and sets that several tests share.

    PLAN, FACTORS    plan D and its factors
    factors_of       the engine's own set, whatever its size
    plans            random plans, each with its own random source
    small_plans      those among them with few cells
    plans_of_all_sorts   those and small dense ones
    sets_that_pass   the own set and others, of which none may be refused
"""

from random import Random

from generate import sets
from generate.plans import EDGES, build, dense, random_plan
from model.factors import factor
from model.plan_text import read_plan
from sweeps import AMPLE
from worked import PLAN_D


def factors_of(plan):
    return factor(plan, AMPLE, AMPLE).factors


def plans(name, count, make=random_plan):
    for index in range(count):
        rng = Random(f"{name} {index}")
        yield rng, make(rng)


def small_plans(name, count):
    for rng, plan in plans(name, count):
        if plan.n * plan.m <= 400:
            yield rng, plan


def plans_of_all_sorts(name, count):
    """Small random plans and small dense ones of every edge."""
    yield from small_plans(name, count)
    for p, n, m in EDGES:
        rng = Random(f"{name} {p} {n} {m}")
        yield rng, build(rng, dense, p, n, m)


def sets_that_pass(rng, plan):
    own = factors_of(plan)
    return [own, sets.shuffled_tail(rng, own)] + [sets.foreign_set(rng, plan) for _ in range(3)]


PLAN = read_plan(PLAN_D, AMPLE)
FACTORS = factors_of(PLAN)
