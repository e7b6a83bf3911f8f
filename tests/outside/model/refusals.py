"""The numbers that calls return (document 01, table in "What the library returns"; 16 by slip 4 of the
change requests).

    Refusal      a number of the table with its detail
    encoded      the one number that a C call returns for a number and detail
"""

from typing import NamedTuple

DONE = 0
NOT_PRIME = 1
LIMIT = 2
MALFORMED = 3
OUTSIDE = 4
REPEATED = 5
VALUE_RANGE = 6
ROOM = 7
PLAN_FORM = 8
LENGTH = 9
HEADER = 10
PERMUTATION = 11
RANK_BOUND = 12
FACTOR_FORM = 13
PRODUCT = 14
QUESTION_VALUE = 15
OWNER_RANGE = 16


class Refusal(NamedTuple):
    """A number from 1 to 16; the detail is 0 where the table names none."""

    number: int
    detail: int = 0


def encoded(result):
    """The table's number plus 256 times the detail; 0 for anything accepted."""
    if isinstance(result, Refusal):
        return result.number + 256 * result.detail
    return DONE
