"""Checking any set (document 01, "Factors", from "A set is"; numbers 9 to 14).

    judge               11 to 14 on a set of right lengths, or None if it passes
    check_factors       the check of a set given as stored lists
    check_certificate   the check of a set given as certificate bytes
"""

from . import certificate as certificates
from .refusals import (
    FACTOR_FORM,
    LENGTH,
    PERMUTATION,
    PRODUCT,
    RANK_BOUND,
    Refusal,
)
from .storage import has_form, plan_refusal, row


def check_factors(plan, factors):
    """9, 1, 2, 8, 11 to 14, or None if the set passes."""
    if not _lengths_fit(plan, factors):
        return Refusal(LENGTH)
    return plan_refusal(plan) or judge(plan, factors)


def check_certificate(plan, certificate):
    """9, 1, 2, 8, 10 to 14, or None if the set passes."""
    refused = plan_refusal(plan)
    if refused:
        return refused
    factors = certificates.parse(plan, certificate)
    return factors if isinstance(factors, Refusal) else judge(plan, factors)


def judge(plan, factors):
    """11, 12, 13 and 14, each for the whole set before the next."""
    R, C, _, _, r = factors
    if not (_is_permutation(R) and _is_permutation(C)):
        return Refusal(PERMUTATION)
    if r > min(plan.n, plan.m):
        return Refusal(RANK_BOUND)
    if not (_is_lower(plan, factors) and _is_upper(plan, factors)):
        return Refusal(FACTOR_FORM)
    position = _first_difference(plan, factors)
    return None if position is None else Refusal(PRODUCT, position)


def _lengths_fit(plan, factors):
    """The lengths of a set's lists, before anything in them is read."""
    R, C, L, U, r = factors
    return (
        len(R) == plan.n
        and len(C) == plan.m
        and len(L.starts) == plan.n + 1
        and len(U.starts) == r + 1
        and len(L.columns) == len(L.values)
        and len(U.columns) == len(U.values)
    )


def _is_permutation(order):
    return sorted(order) == list(range(len(order)))


def _is_lower(plan, factors):
    """L is stored as a plan is; L[i][k] is 0 for k > i, L[k][k] is not 0."""
    L, r = factors.L, factors.r
    if not has_form(L, plan.p, r):
        return False
    rows = [row(L, i) for i in range(plan.n)]
    return all(k <= i for i, cells in enumerate(rows) for k in cells) and all(
        k in rows[k] for k in range(r)
    )


def _is_upper(plan, factors):
    """U is stored as a plan is; U[k][C[k]] is 1, U[k][C[j]] is 0 for j < k."""
    C, U, r = factors.C, factors.U, factors.r
    if not has_form(U, plan.p, plan.m):
        return False
    position = {column: j for j, column in enumerate(C)}
    for k in range(r):
        cells = row(U, k)
        if cells.get(C[k]) != 1 or any(position[column] < k for column in cells):
            return False
    return True


def _first_difference(plan, factors):
    """The first position i whose row of LU is not row R[i] of A, at any column."""
    R, _, L, U, r = factors
    upper = [row(U, k) for k in range(r)]
    for i in range(plan.n):
        total = {}
        for k, value in row(L, i).items():
            for column, factor in upper[k].items():
                total[column] = total.get(column, 0) + value * factor
        product = {j: v % plan.p for j, v in total.items() if v % plan.p}
        if product != row(plan.rows, R[i]):
            return i
    return None
