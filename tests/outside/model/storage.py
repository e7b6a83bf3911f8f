"""Stored rows, of a plan and of factors alike (document 01, "The product", "Stored form"; the owners of
words, slip 4 of the change requests).

    Rows         row starts, columns and values
    has_form     the stored form holds for a width and a modulus
    row          one row as a dictionary from column to value
    store        dictionaries as stored rows
    Plan         a modulus, the sizes, the stored rows and the owner of each word
    plan_of      the plan whose owners nobody stated
    plan_refusal what a call that takes a stored plan answers before its own tests
"""

from typing import NamedTuple

from .limits import GREATEST_ENTRIES, GREATEST_SIZE, UNSTATED_OWNER, is_modulus
from .refusals import LENGTH, LIMIT, NOT_PRIME, PLAN_FORM, Refusal


class Rows(NamedTuple):
    """Row i holds the entries from starts[i] up to starts[i + 1]."""

    starts: tuple
    columns: tuple
    values: tuple


class Plan(NamedTuple):
    """An n by m matrix modulo p, stored by rows, and a byte for each word: 0
    for a pad, 1 to 255 for a customer."""

    p: int
    n: int
    m: int
    rows: Rows
    owners: tuple


def plan_of(p, n, m, rows):
    """Every word belongs to customer 1."""
    return Plan(p, n, m, rows, (UNSTATED_OWNER,) * m)


def has_form(rows, p, width):
    """First start 0, starts never fall and end at the entry count; columns
    rise strictly within a row and stay below the width; values lie from 1 to
    p - 1."""
    starts, columns, values = rows
    if starts[0] != 0 or starts[-1] != len(columns):
        return False
    if any(start > end for start, end in zip(starts, starts[1:])):
        return False
    if any(not 0 <= column < width for column in columns):
        return False
    if any(not 1 <= value < p for value in values):
        return False
    return all(
        columns[place - 1] < columns[place]
        for start, end in zip(starts, starts[1:])
        for place in range(start + 1, end)
    )


def row(rows, i):
    """Row i as a dictionary from column to value."""
    start, end = rows.starts[i], rows.starts[i + 1]
    return dict(zip(rows.columns[start:end], rows.values[start:end]))


def store(dictionaries):
    """The stored form of rows given as dictionaries; zeros are left out."""
    starts, columns, values = [0], [], []
    for cells in dictionaries:
        for column in sorted(cells):
            if cells[column]:
                columns.append(column)
                values.append(cells[column])
        starts.append(len(columns))
    return Rows(tuple(starts), tuple(columns), tuple(values))


def plan_refusal(plan):
    """9, 1, 2 and 8, in this order, or None."""
    starts, columns, values = plan.rows
    if len(starts) != plan.n + 1 or len(columns) != len(values):
        return Refusal(LENGTH)
    if len(plan.owners) != plan.m:
        return Refusal(LENGTH)
    if not is_modulus(plan.p):
        return Refusal(NOT_PRIME)
    if max(plan.n, plan.m) > GREATEST_SIZE or len(columns) > GREATEST_ENTRIES:
        return Refusal(LIMIT)
    if not has_form(plan.rows, plan.p, plan.m):
        return Refusal(PLAN_FORM)
    return None
