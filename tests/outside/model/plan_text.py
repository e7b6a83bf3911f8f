"""Reading a plan text (document 01, "Plan text"; order of refusals, "What the library returns"; triples
in any order and the line of owners, slips 2 and 4 of the change requests).

    read_plan    the stored plan that a text states, or the first refusal
"""

import re
from functools import lru_cache

from .limits import (
    GREATEST_OWNER,
    GREATEST_SIZE,
    GREATEST_TEXT,
    GREATEST_VALUE,
    LEAST_VALUE,
    UNSTATED_OWNER,
    is_modulus,
)
from .refusals import (
    LIMIT,
    MALFORMED,
    NOT_PRIME,
    OUTSIDE,
    OWNER_RANGE,
    REPEATED,
    ROOM,
    VALUE_RANGE,
    Refusal,
)
from .storage import Plan, store

NUMBER = rb"(0|[1-9][0-9]{0,9})"
SIGNED = rb"(0|-?[1-9][0-9]{0,9})"
MODULUS_LINE = re.compile(NUMBER)
SIZE_LINE = re.compile(NUMBER + rb" " + NUMBER + rb" M")
TRIPLE_LINE = re.compile(NUMBER + rb" " + NUMBER + rb" " + SIGNED)
LAST_LINE = b"0 0 0"
OWNERS_WORD = b"owners"
OWNER = re.compile(NUMBER)


@lru_cache(maxsize=128)  # many cases have the same text, and follow one another
def read_plan(text, room):
    """The plan stated by `text`, with storage lent for `room` entries."""
    if len(text) > GREATEST_TEXT:
        return Refusal(LIMIT)
    *lines, unterminated = text.split(b"\n")

    p = _modulus(lines)
    if isinstance(p, Refusal):
        return p
    sizes = _sizes(lines)
    if isinstance(sizes, Refusal):
        return sizes
    n, m = sizes
    cells = _triples(lines, p, n, m, room)
    if isinstance(cells, Refusal):
        return cells

    last = 2 + lines[2:].index(LAST_LINE) + 1
    owners = _owners(lines, unterminated, last, m)
    return owners if isinstance(owners, Refusal) else Plan(p, n, m, store(cells), owners)


def _fields(lines, number, form):
    """The numbers on a line (counted from 1), or 3 where the line is missing,
    has no line feed or is not of the form."""
    found = form.fullmatch(lines[number - 1]) if number <= len(lines) else None
    return tuple(map(int, found.groups())) if found else Refusal(MALFORMED, number)


def _modulus(lines):
    """The first line: 3, then 1."""
    fields = _fields(lines, 1, MODULUS_LINE)
    if isinstance(fields, Refusal):
        return fields
    return fields[0] if is_modulus(fields[0]) else Refusal(NOT_PRIME)


def _sizes(lines):
    """The second line: 3, then 2."""
    fields = _fields(lines, 2, SIZE_LINE)
    if isinstance(fields, Refusal):
        return fields
    return fields if max(fields) <= GREATEST_SIZE else Refusal(LIMIT)


def _triples(lines, p, n, m, room):
    """The rows stated from the third line to the last, whose triples stand in
    any order: in a line 3, 4, 5, 6, 7. A place stays taken where nothing was
    stored."""
    cells = [{} for _ in range(n)]
    taken = set()
    stored = 0
    number = 3
    while number > len(lines) or lines[number - 1] != LAST_LINE:
        fields = _fields(lines, number, TRIPLE_LINE)
        if isinstance(fields, Refusal):
            return fields
        i, j, v = fields
        if not (1 <= i <= n and 1 <= j <= m):
            return Refusal(OUTSIDE, number)
        if (i, j) in taken:
            return Refusal(REPEATED, number)
        if not LEAST_VALUE <= v <= GREATEST_VALUE:
            return Refusal(VALUE_RANGE, number)
        if v % p != 0:
            if stored == room:
                return Refusal(ROOM, number)
            cells[i - 1][j - 1] = v % p
            stored += 1
        taken.add((i, j))
        number += 1
    return cells


def _owners(lines, unterminated, last, m):
    """What follows the last line: nothing, and every word belongs to customer 1,
    or one line, on which 3 and then 16 are judged. Whatever follows that is 3."""
    if len(lines) == last and not unterminated:
        return (UNSTATED_OWNER,) * m
    owners = _owner_numbers(lines, last + 1, m)
    if isinstance(owners, Refusal):
        return owners
    if max(owners, default=0) > GREATEST_OWNER:
        return Refusal(OWNER_RANGE, last + 1)
    if len(lines) > last + 1 or unterminated:
        return Refusal(MALFORMED, last + 2)
    return owners


def _owner_numbers(lines, number, m):
    """The word `owners` and m numbers, one space before each, or 3 for the whole
    line."""
    word, *fields = lines[number - 1].split(b" ") if number <= len(lines) else [b""]
    if word != OWNERS_WORD or len(fields) != m or not all(map(OWNER.fullmatch, fields)):
        return Refusal(MALFORMED, number)
    return tuple(map(int, fields))
