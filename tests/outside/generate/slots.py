"""Slot values for a plan: those that a setting gives, and others (slip 6 of the change requests).

    given_slots      the slots of a random setting
    one_changed      slot values with one of them another residue
    any_slots        any residues
    one_too_large    one value of p or more, now and then two
    one_fewer_or_more   a value left out or put in
    slot_values      those that a setting gives, the same with one changed, and often others
    every_slots      some of all slot values of a tiny plan
    longest_lines    plans, each with the slot values that make the longest line of its sort
"""

from itertools import product

from model.limits import GREATEST_MODULUS, GREATEST_SIZE
from model.storage import plan_of, row, store


def given_slots(rng, plan):
    s = [rng.randrange(plan.p) for _ in range(plan.m)]
    rows = (row(plan.rows, i).items() for i in range(plan.n))
    return tuple(sum(value * s[j] for j, value in cells) % plan.p for cells in rows)


def one_changed(rng, plan, h):
    """Where there is any."""
    if not h:
        return h
    place = rng.randrange(len(h))
    other = (h[place] + rng.randrange(1, plan.p)) % plan.p
    return (*h[:place], other, *h[place + 1 :])


def any_slots(rng, plan):
    return tuple(rng.randrange(plan.p) for _ in range(plan.n))


def one_too_large(rng, plan):
    """At least p, at the end of 32 bits, or a residue past 32 or 64 bits."""
    h = list(given_slots(rng, plan))
    for place in rng.sample(range(plan.n), min(plan.n, rng.choice((1, 1, 2)))):
        least = h[place]
        large = (plan.p, plan.p + least, 2**32 - 1, 2**32, 2**32 + least, 2**64 + least)
        h[place] = rng.choice(large)
    return tuple(h)


def one_fewer_or_more(rng, plan):
    """Refused before a value that is too large, which there may be too."""
    h = list(rng.choice((given_slots, one_too_large))(rng, plan))
    place = rng.randint(0, plan.n)
    if place < plan.n and rng.random() < 0.5:
        del h[place]
    else:
        h.insert(place, rng.randrange(plan.p))
    return tuple(h)


OTHERS = (any_slots, one_too_large, one_fewer_or_more)


def slot_values(rng, plan):
    h = given_slots(rng, plan)
    yield h
    yield one_changed(rng, plan, h)
    if rng.random() < 0.4:
        yield rng.choice(OTHERS)(rng, plan)


def every_slots(rng, plan, most):
    """Up to `most`, spread over all."""
    every = list(product(range(plan.p), repeat=plan.n))
    return rng.sample(every, min(most, len(every)))


def longest_lines(rng):
    """As many words and slots as there may be, modulo the largest: each slot hears
    a word of its own; and the last one hears all the others, so that its w has
    -1 at each of them."""
    p, size = GREATEST_MODULUS, GREATEST_SIZE
    single = [{i: 1} for i in range(size)]
    every = {j: 1 for j in range(size - 1)}
    h = tuple(rng.randrange(p - 10**9, p) for _ in range(size))
    yield plan_of(p, size, size, store(single)), h
    yield plan_of(p, size, size, store([*single[:-1], every])), h
