"""Answering questions from a set that passed (document 01, "Questions"; number 15).

    Answer              the verdict with x and z
    answer              the answer to one question
    answer_from_factors, answer_from_certificate   the same after the check
    open_words          the words whose own question is open
"""

from typing import NamedTuple

from . import certificate as certificates
from .check import check_certificate, check_factors
from .factors import reduce
from .refusals import LENGTH, QUESTION_VALUE, Refusal
from .storage import row


class Answer(NamedTuple):
    """Of x and z the one that is not the answer is all zero."""

    is_open: bool
    x: tuple
    z: tuple


def answer_from_factors(plan, factors, y):
    """9, then the check of the stored set, then 15, then the answer."""
    if len(y) != plan.m:
        return Refusal(LENGTH)
    return check_factors(plan, factors) or _answer_values(plan, factors, y)


def answer_from_certificate(plan, certificate, y):
    """9, then the check of the certificate, then 15, then the answer."""
    if len(y) != plan.m:
        return Refusal(LENGTH)
    refused = check_certificate(plan, certificate)
    if refused:
        return refused
    return _answer_values(plan, certificates.parse(plan, certificate), y)


def _answer_values(plan, factors, y):
    """15 at the first value that is no residue, or the answer."""
    for index, value in enumerate(y):
        if value >= plan.p:
            return Refusal(QUESTION_VALUE, index)
    return answer(plan, factors, y)


def answer(plan, factors, y):
    """Open with x where y reduces to 0 by U, else closed with z."""
    upper = [row(factors.U, k) for k in range(factors.r)]
    question = {j: value for j, value in enumerate(y) if value}
    coefficients, remainder = reduce(question, upper, factors.C[: factors.r], plan.p)
    if remainder:
        return Answer(False, (0,) * plan.n, _kernel(plan, factors, upper, min(remainder)))
    return Answer(True, _combination(plan, factors, coefficients), (0,) * plan.m)


def _combination(plan, factors, coefficients):
    """The x on the pivot rows with xL equal to the coefficients, so that xA
    is what they make of U; from the last pivot back."""
    x = [0] * plan.n
    wanted = dict(coefficients)
    for k in reversed(range(factors.r)):
        cells = row(factors.L, k)
        value = wanted.get(k, 0) * pow(cells[k], -1, plan.p) % plan.p
        x[factors.R[k]] = value
        for inner, factor in cells.items():
            wanted[inner] = (wanted.get(inner, 0) - value * factor) % plan.p
    return tuple(x)


def _kernel(plan, factors, upper, free):
    """The z with 1 at the column `free`, 0 at the other non-pivot columns and
    Uz = 0; from the last pivot back."""
    z = [0] * plan.m
    z[free] = 1
    for k in reversed(range(factors.r)):
        z[factors.C[k]] = -sum(v * z[j] for j, v in upper[k].items()) % plan.p
    return tuple(z)


def open_words(plan, factors):
    """The words (columns, from 0) whose own question is open, rising.

    The remainder of the unit question at a non-pivot column is the question
    itself; at pivot column C[k] it is minus the remainders of row k's other
    columns, so every remainder follows from those of the later pivots."""
    remainders = {column: {column: 1} for column in factors.C[factors.r :]}
    for k in reversed(range(factors.r)):
        pivot = factors.C[k]
        total = {}
        for column, value in row(factors.U, k).items():
            if column != pivot:
                for free, part in remainders[column].items():
                    total[free] = (total.get(free, 0) - value * part) % plan.p
        remainders[pivot] = {free: part for free, part in total.items() if part}
    return [column for column in range(plan.m) if not remainders[column]]
