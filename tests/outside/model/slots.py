"""Slot values solved for the words, from a set that passed (slip 6 of the change requests).

Of the set nothing is used but its pivots: s and w are solved for in A itself,
by plain elimination, and not through L and U.

    SlotSolution     the verdict with s and w
    solve_slots      the answer to slot values h
    slots_from_factors, slots_from_certificate   the same after the check
    setting          the s that is right at the pivot slots
    contradictions   every w of the slip's form with w.h not 0, by rising slot
    eliminated       equations solved for as many unknowns
"""

from functools import lru_cache
from itertools import chain
from typing import NamedTuple

from . import certificate as certificates
from .check import check_certificate, check_factors
from .refusals import LENGTH, QUESTION_VALUE, Refusal
from .storage import row

HEARD = "heard"  # where an equation has its right side


class SlotSolution(NamedTuple):
    """Of s and w the one that is not the answer is all zero."""

    solved: bool
    s: tuple
    w: tuple


def slots_from_factors(plan, factors, h):
    """9, then the check of the stored set, then 15, then the answer."""
    if len(h) != plan.n:
        return Refusal(LENGTH)
    return check_factors(plan, factors) or _solve_values(plan, factors, h)


def slots_from_certificate(plan, certificate, h):
    """9, then the check of the certificate, then 15, then the answer."""
    if len(h) != plan.n:
        return Refusal(LENGTH)
    refused = check_certificate(plan, certificate)
    if refused:
        return refused
    return _solve_values(plan, certificates.parse(plan, certificate), h)


def _solve_values(plan, factors, h):
    """15 at the first value that is no residue, or the answer."""
    for index, value in enumerate(h):
        if value >= plan.p:
            return Refusal(QUESTION_VALUE, index)
    return solve_slots(plan, factors, h)


def solve_slots(plan, factors, h):
    """Solved where s gives every slot its value, else the first contradiction."""
    s = setting(plan, factors, h)
    if _slots(plan, s) == tuple(h):
        return SlotSolution(True, s, (0,) * plan.n)
    _, w = next(contradictions(plan, factors, h))
    return SlotSolution(False, (0,) * plan.m, w)


def setting(plan, factors, h):
    """The only s that is 0 at every non-pivot word and gives the pivot slots
    their values: so many equations as words that are not 0."""
    words = factors.C[: factors.r]
    equations = []
    for i in factors.R[: factors.r]:
        cells = row(plan.rows, i)
        equations.append({**{j: cells[j] for j in words if j in cells}, HEARD: h[i]})
    solved = eliminated(equations, words, plan.p)
    return tuple(solved[j].get(HEARD, 0) if j in solved else 0 for j in range(plan.m))


def _slots(plan, s):
    """As."""
    rows = (row(plan.rows, i).items() for i in range(plan.n))
    return tuple(sum(value * s[j] for j, value in cells) % plan.p for cells in rows)


def contradictions(plan, factors, h):
    """Each non-pivot slot, rising, whose w is not 0 on h, with that w: 1 there,
    0 at the other non-pivot slots, and wA = 0."""
    pivots, others = factors.R[: factors.r], factors.R[factors.r :]
    by_others = _pivot_slots(plan, pivots, factors.C[: factors.r])
    for slot in sorted(others):
        w = {k: -by_others[k][slot] % plan.p for k in pivots if slot in by_others[k]}
        w[slot] = 1
        if sum(value * h[i] for i, value in w.items()) % plan.p:
            yield slot, tuple(w.get(i, 0) for i in range(plan.n))


@lru_cache(maxsize=16)  # slot values of one plan follow one another
def _pivot_slots(plan, slots, words):
    """wA = 0 at the pivot words, solved for w at the pivot slots: an equation for
    each of these, with 1 there and what else it has at non-pivot slots. At the
    other words wA is then 0 too, since every column of A is made of these."""
    columns = {j: {} for j in words}
    for i in range(plan.n):
        for j, value in row(plan.rows, i).items():
            if j in columns:
                columns[j][i] = value
    return eliminated(columns.values(), slots, plan.p)


def eliminated(equations, unknowns, p):
    """By unknown, the equation that is left for it, with 1 there and none of the
    other unknowns. An equation is a dictionary; there are as many as unknowns,
    and they are independent in these."""
    waiting, solved = [dict(cells) for cells in equations], {}
    for unknown in unknowns:
        fitting = [k for k, cells in enumerate(waiting) if unknown in cells]
        cells = waiting.pop(min(fitting, key=lambda k: len(waiting[k])))
        inverse = pow(cells[unknown], -1, p)
        own = {place: value * inverse % p for place, value in cells.items()}
        for other in chain(waiting, solved.values()):
            if unknown in other:
                _take_away(other, other[unknown], own, p)
        solved[unknown] = own
    return solved


def _take_away(cells, factor, others, p):
    """cells less factor times others, in place, zeros left out."""
    for place, value in others.items():
        cells[place] = (cells.get(place, 0) - factor * value) % p
        if not cells[place]:
            del cells[place]
