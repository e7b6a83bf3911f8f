"""The same notions by trying everything, for tiny plans (document 01, "Factors": rank; "Questions";
slot values, settings and their numbers by slips 6 to 8 of the change requests).

No factors are used but for which rows and columns are pivots. A matrix is a
list of full rows.

    full_rows    the plan's matrix with its zeros
    combinations all lists of residues of a length
    rank         the greatest number of independent rows
    answer       x and z as document 01 describes them, found by trying all
    slots        s and w as slip 6 describes them, found so too
    silent       all settings that have no effect on any slot
    free_settings   those of them that slip 7 asks for
    combined     how many combinations of settings give each setting
    MOST_SETTINGS   of a plan, so that all of them are soon tried
    settings_by_slots   all settings, in a group for each list of slots that some of them give
    value_counts    for each group by how many of its settings each value y.s is taken
    values       for each group the values y.s
"""

from collections import Counter
from itertools import combinations as subsets
from itertools import product
from operator import mul

from .storage import row

MOST_SETTINGS = 4_096


def full_rows(plan):
    """A as a list of rows of m residues."""
    rows = []
    for i in range(plan.n):
        cells = row(plan.rows, i)
        rows.append([cells.get(j, 0) for j in range(plan.m)])
    return rows


def combinations(p, length):
    return product(range(p), repeat=length)


def times_rows(x, rows, width, p):
    """xA."""
    return tuple(sum(a * r[j] for a, r in zip(x, rows)) % p for j in range(width))


def times_setting(rows, s, p):
    """As."""
    return tuple(sum(a * b for a, b in zip(r, s)) % p for r in rows)


def rank(plan):
    """The greatest number of rows of which only the all-zero combination is zero."""
    rows = full_rows(plan)
    zero = (0,) * plan.m

    def independent(chosen):
        return not any(
            any(x) and times_rows(x, chosen, plan.m, plan.p) == zero
            for x in combinations(plan.p, len(chosen))
        )

    return max(
        size
        for size in range(plan.n + 1)
        if any(independent(chosen) for chosen in subsets(rows, size))
    )


def answer(plan, pivot_rows, pivot_columns, y):
    """(open, x, z): the only x with xA = y that is 0 off the pivot rows; where
    no x has xA = y, the z of the lowest non-pivot column whose y.z is not 0."""
    rows = full_rows(plan)
    p, n, m = plan.p, plan.n, plan.m
    solutions = [x for x in combinations(p, n) if times_rows(x, rows, m, p) == tuple(y)]
    if solutions:
        (x,) = [x for x in solutions if _zero_off(x, pivot_rows)]
        return True, x, (0,) * m
    kernel = silent(plan)
    for free in sorted(set(range(m)) - set(pivot_columns)):
        (z,) = [z for z in kernel if z[free] == 1 and _zero_off(z, {free, *pivot_columns})]
        if sum(a * b for a, b in zip(y, z)) % p:
            return False, (0,) * n, z
    raise AssertionError("a closed question without a witness")


def slots(plan, pivot_rows, pivot_columns, h):
    """(solved, s, w): the only s with As = h that is 0 off the pivot columns; where
    no s has As = h, the w of the lowest non-pivot row whose w.h is not 0."""
    rows = full_rows(plan)
    p, n, m = plan.p, plan.n, plan.m
    settings = [s for s in combinations(p, m) if times_setting(rows, s, p) == tuple(h)]
    if settings:
        (s,) = [s for s in settings if _zero_off(s, pivot_columns)]
        return True, s, (0,) * n
    cancelling = [w for w in combinations(p, n) if not any(times_rows(w, rows, m, p))]
    for free in sorted(set(range(n)) - set(pivot_rows)):
        (w,) = [w for w in cancelling if w[free] == 1 and _zero_off(w, {free, *pivot_rows})]
        if sum(a * b for a, b in zip(w, h)) % p:
            return False, (0,) * m, w
    raise AssertionError("slot values that no setting gives, without a contradiction")


def silent(plan):
    rows = full_rows(plan)
    return [s for s in combinations(plan.p, plan.m) if not any(times_setting(rows, s, plan.p))]


def free_settings(plan, pivot_columns):
    """For each non-pivot column, rising, the only setting with As = 0 that is 1 there
    and 0 at the other non-pivot columns."""
    kernel, found = silent(plan), []
    for free in sorted(set(range(plan.m)) - set(pivot_columns)):
        (s,) = [s for s in kernel if s[free] == 1 and _zero_off(s, {free, *pivot_columns})]
        found.append(s)
    return tuple(found)


def combined(plan, settings):
    weights = combinations(plan.p, len(settings))
    return Counter(times_rows(x, settings, plan.m, plan.p) for x in weights)


def _zero_off(cells, places):
    return all(not value or place in places for place, value in enumerate(cells))


def settings_by_slots(plan):
    """There is always a group: the setting of zeros gives some slots. Without words it
    is the only setting."""
    rows = full_rows(plan)
    groups = {}
    for s in combinations(plan.p, plan.m):
        groups.setdefault(times_setting(rows, s, plan.p), []).append(s)
    return groups


def value_counts(p, groups, y):
    """A value that no setting of the group gives is not counted."""
    return {
        slots: Counter(sum(map(mul, y, s)) % p for s in settings)
        for slots, settings in groups.items()
    }


def values(plan, y):
    """For each list of slots that some setting gives, the set of values y.s."""
    counted = value_counts(plan.p, settings_by_slots(plan), y)
    return {slots: set(counts) for slots, counts in counted.items()}
