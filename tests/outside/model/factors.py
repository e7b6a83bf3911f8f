"""Factoring a plan (document 01, "Factors" and its pivot rules; number 7 in "What the library returns").

    Factors      document 01's set: R, C, L, U and r
    Factored     the factors with the number of structural pivots
    schedule     the processing order: the structural rows, then the others
    reduce       a row reduced by rows of U, in order
    factor       rules 1 to 3, within the lent rooms
"""

from functools import lru_cache
from typing import NamedTuple

from . import structure
from .refusals import ROOM, Refusal
from .storage import Rows, row, store


class Factors(NamedTuple):
    """R and C are orders of rows and columns; L is n by r, U is r by m."""

    R: tuple
    C: tuple
    L: Rows
    U: Rows
    r: int


class Factored(NamedTuple):
    """What factoring returns beside refusals."""

    factors: Factors
    structural: int


def schedule(plan):
    """The rows in processing order, each with its column where it is a
    structural pivot, else with None."""
    first = structure.structural(plan)
    taken = {pivot.row for pivot in first}
    return [*first, *((i, None) for i in range(plan.n) if i not in taken)]


def reduce(cells, upper, pivots, p):
    """The coefficients and the remainder of a row reduced by the rows of U in
    order. A cell that cancels is not kept."""
    remainder = dict(cells)
    coefficients = {}
    for k, pivot in enumerate(pivots):
        if pivot not in remainder:
            continue
        coefficients[k] = factor = remainder[pivot]
        for column, value in upper[k].items():
            left = (remainder.get(column, 0) - factor * value) % p
            if left:
                remainder[column] = left
            else:
                remainder.pop(column, None)
    return coefficients, remainder


@lru_cache(maxsize=128)  # as with reading
def factor(plan, lower_room, upper_room):
    """The engine's own set, or 7 at the first row in processing order after
    which L or U has more entries than its room."""
    p, n, m = plan.p, plan.n, plan.m
    pivots, pivot_rows, upper, lower = [], [], [], {}
    lower_entries = upper_entries = 0
    turns = schedule(plan)
    for i, column in turns:
        coefficients, remainder = reduce(row(plan.rows, i), upper, pivots, p)
        if remainder:
            pivot = column if column in remainder else min(remainder)
            value = remainder[pivot]
            inverse = pow(value, -1, p)
            coefficients[len(pivots)] = value
            pivots.append(pivot)
            pivot_rows.append(i)
            upper.append({j: v * inverse % p for j, v in remainder.items()})
            upper_entries += len(remainder)
        lower[i] = coefficients
        lower_entries += len(coefficients)
        if lower_entries > lower_room or upper_entries > upper_room:
            return Refusal(ROOM, i)

    row_order = _completed(pivot_rows, n)
    column_order = _completed(pivots, m)
    lower_rows = store(lower[i] for i in row_order)
    factors = Factors(row_order, column_order, lower_rows, store(upper), len(pivots))
    return Factored(factors, sum(column is not None for _, column in turns))


def _completed(first, size):
    """Rule 3: the pivots as found, then the rest rising."""
    taken = set(first)
    return tuple(first) + tuple(i for i in range(size) if i not in taken)
