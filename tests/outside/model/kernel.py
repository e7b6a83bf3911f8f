"""The settings that have no effect on any slot, from a set that passed (slip 7 of the change requests).

Of the set nothing is used but its pivots: as slot values are, the settings are
solved for in A itself, by plain elimination, and not through U.

    free_columns     the non-pivot words, rising
    settings         for each of them the setting with 1 there
    settings_from_certificate   the same after the check, stored in the cells lent
"""

from itertools import chain

from . import certificate as certificates
from .check import check_certificate
from .refusals import LENGTH, Refusal
from .slots import eliminated
from .storage import row


def free_columns(plan, factors):
    """There are m - r of them."""
    return sorted(set(range(plan.m)) - set(factors.C[: factors.r]))


def settings(plan, factors):
    """For each non-pivot word, rising, the only setting with 1 there, 0 at the other
    non-pivot words, and As = 0. It is solved for at the pivot words, by the pivot
    slots; the other slots are then 0 too, since every row of A is made of these."""
    words = factors.C[: factors.r]
    slots = [row(plan.rows, i) for i in factors.R[: factors.r]]
    solved = eliminated(slots, words, plan.p)
    return tuple(_setting(plan, solved, free) for free in free_columns(plan, factors))


def _setting(plan, solved, free):
    """What an equation has at the non-pivot word, its pivot word takes away."""
    s = {j: -cells.get(free, 0) % plan.p for j, cells in solved.items()}
    s[free] = 1
    return tuple(s.get(j, 0) for j in range(plan.m))


def settings_from_certificate(plan, certificate, cells):
    """The check of the certificate, then 9 for the number of cells lent, then the
    settings, one after another."""
    refused = check_certificate(plan, certificate)
    if refused:
        return refused
    factors = certificates.parse(plan, certificate)
    if cells != plan.m * (plan.m - factors.r):
        return Refusal(LENGTH)
    return tuple(chain.from_iterable(settings(plan, factors)))
