"""Sets for a plan that the engine would not write: foreign, mixed and damaged.

A set is taken apart into full rows of L and U as dictionaries and put
together again.

    foreign_set      right-looking elimination with random pivots: passes
    shuffled_tail    dependent rows and unused columns in another order: passes
    mixed_set        inner indexes mixed: the product stays, the shape breaks
    reordered_set    rows or columns renamed: the product stays
    changed_product  the shape stays, one cell of L or U changes
    damaged_set      one number or entry changed
    with_value       one given value changed
"""

from model.factors import Factors
from model.storage import Rows, row, store


def foreign_set(rng, plan):
    """Any non-zero cell that is left may be the next pivot."""
    p = plan.p
    left = {i: row(plan.rows, i) for i in range(plan.n)}
    lower = {i: {} for i in range(plan.n)}
    upper, pivot_rows, pivots = [], [], []
    while any(left.values()):
        pivot_row = rng.choice([i for i, cells in left.items() if cells])
        cells = left.pop(pivot_row)
        pivot = rng.choice(sorted(cells))
        value = cells[pivot]
        scaled = {j: v * pow(value, -1, p) % p for j, v in cells.items()}
        lower[pivot_row][len(upper)] = value
        for i, others in left.items():
            factor = others.get(pivot, 0)
            if factor:
                lower[i][len(upper)] = factor
                left[i] = _plus(p, others, -factor, scaled)
        upper.append(scaled)
        pivot_rows.append(pivot_row)
        pivots.append(pivot)
    row_order = (*pivot_rows, *rng.sample(sorted(left), len(left)))
    unused = sorted(set(range(plan.m)) - set(pivots))
    column_order = (*pivots, *rng.sample(unused, len(unused)))
    lower_rows = store(lower[i] for i in row_order)
    return Factors(row_order, column_order, lower_rows, store(upper), len(upper))


def _plus(p, cells, factor, others):
    """cells + factor * others, zeros left out."""
    total = dict(cells)
    for column, value in others.items():
        total[column] = (total.get(column, 0) + factor * value) % p
    return {column: value for column, value in total.items() if value}


def _rows(stored):
    return [row(stored, i) for i in range(len(stored.starts) - 1)]


def shuffled_tail(rng, factors):
    """The same pivots; the rest of R, with its rows of L, and of C at random."""
    R, C, L, U, r = factors
    lower = _rows(L)
    tail = rng.sample(range(r, len(R)), len(R) - r)
    row_order = (*R[:r], *(R[i] for i in tail))
    lower_rows = store([*lower[:r], *(lower[i] for i in tail)])
    return Factors(row_order, (*C[:r], *rng.sample(C[r:], len(C) - r)), lower_rows, U, r)


def mixed_set(rng, plan, factors):
    """L times T and the inverse of T times U, for a T that is not the
    identity; None where there is none."""
    R, C, L, U, r = factors
    lower, upper = _rows(L), _rows(U)
    steps = []
    if plan.p > 2 and r > 0:
        steps.append(_scale)
    if r > 1:
        steps += [_exchange, _add]
    if not steps:
        return None
    rng.choice(steps)(rng, plan.p, r, lower, upper)
    return Factors(R, C, store(lower), store(upper), r)


def _scale(rng, p, r, lower, upper):
    """Column k of L times t, row k of U divided by t, t not 1."""
    k, t = rng.randrange(r), rng.randrange(2, p)
    for cells in lower:
        if k in cells:
            cells[k] = cells[k] * t % p
    upper[k] = {j: v * pow(t, -1, p) % p for j, v in upper[k].items()}


def _exchange(rng, p, r, lower, upper):
    """Inner indexes a and b exchanged."""
    a, b = rng.sample(range(r), 2)
    other = {a: b, b: a}
    for i, cells in enumerate(lower):
        lower[i] = {other.get(k, k): v for k, v in cells.items()}
    upper[a], upper[b] = upper[b], upper[a]


def _add(rng, p, r, lower, upper):
    """t times column b of L added to column a, t times row a of U taken from
    row b."""
    a, b = rng.sample(range(r), 2)
    t = rng.randrange(1, p)
    for i, cells in enumerate(lower):
        lower[i] = _plus(p, cells, t * cells.get(b, 0), {a: 1})
    upper[b] = _plus(p, upper[b], -t, upper[a])


def reordered_set(rng, factors):
    """Two positions of R exchanged with their rows of L, or two of C."""
    R, C, L, U, r = factors
    rows, columns, lower = list(R), list(C), _rows(L)
    if rng.random() < 0.5 and len(rows) > 1:
        a, b = rng.sample(range(len(rows)), 2)
        rows[a], rows[b] = rows[b], rows[a]
        lower[a], lower[b] = lower[b], lower[a]
    elif len(columns) > 1:
        a, b = rng.sample(range(len(columns)), 2)
        columns[a], columns[b] = columns[b], columns[a]
    return Factors(tuple(rows), tuple(columns), store(lower), U, r)


def changed_product(rng, plan, factors):
    """One cell of L, or of U right of its pivot, made another residue, where
    the shape allows it; the set as it was where there is no such cell."""
    R, C, L, U, r = factors
    lower, upper = _rows(L), _rows(U)
    if not r:
        return factors
    if rng.random() < 0.5:
        i = rng.randrange(len(R))
        k = rng.randrange(min(i + 1, r))
        lower[i][k] = _another(rng, plan.p, lower[i].get(k, 0), least=int(i == k))
    else:
        k = rng.randrange(r)
        if k + 1 < len(C):
            column = C[rng.randrange(k + 1, len(C))]
            upper[k][column] = _another(rng, plan.p, upper[k].get(column, 0), least=0)
    return Factors(R, C, store(lower), store(upper), r)


def with_value(factors, which, place, value):
    """The set with another number at a place of the values of L or of U."""
    stored = getattr(factors, which)
    values = stored.values[:place] + (value,) + stored.values[place + 1 :]
    return factors._replace(**{which: stored._replace(values=values)})


def _another(rng, p, value, least):
    """A residue from `least` on that differs, if there is one."""
    others = [v for v in {least, p - 1, rng.randrange(least, p)} if v != value]
    return rng.choice(sorted(others)) if others else value


def damaged_set(rng, plan, factors):
    """One change to a set whose lists keep the lengths that its numbers give."""
    return rng.choice(DAMAGES)(rng, plan, factors)


def _replaced(rng, factors, change):
    """The set with `change` applied to the lists of L or of U."""
    which = rng.choice("LU")
    lists = [list(cells) for cells in getattr(factors, which)]
    change(*lists)
    return factors._replace(**{which: Rows(*map(tuple, lists))})


def _odd_number(rng, plan, number):
    choices = (0, 1, number + 1, number - 1, plan.p - 1, plan.p, plan.n, plan.m, 2**32 - 1)
    return rng.choice(choices) % 2**32


def _number_replaced(rng, plan, factors):
    """One number of R, C, or of a factor's starts, columns or values."""

    def replace(cells):
        if cells:
            place = rng.randrange(len(cells))
            cells[place] = _odd_number(rng, plan, cells[place])

    which = rng.choice(("R", "C", "factor", "factor", "factor"))
    if which == "factor":
        return _replaced(rng, factors, lambda *lists: replace(rng.choice(lists)))
    order = list(getattr(factors, which))
    replace(order)
    return factors._replace(**{which: tuple(order)})


def _entry_inserted(rng, plan, factors):
    """An entry more in some row, at any place in it, often with the value 0."""

    def insert(starts, columns, values):
        if len(starts) < 2:
            return
        i = rng.randrange(len(starts) - 1)
        place = rng.randint(starts[i], starts[i + 1])
        columns.insert(place, rng.randrange(max(1, plan.m, factors.r)))
        values.insert(place, rng.choice((0, 0, 1, plan.p - 1)))
        starts[i + 1 :] = [start + 1 for start in starts[i + 1 :]]

    return _replaced(rng, factors, insert)


def _entry_dropped(rng, plan, factors):
    def drop(starts, columns, values):
        if not columns:
            return
        place = rng.randrange(len(columns))
        del columns[place], values[place]
        starts[:] = [start - (start > place) for start in starts]

    return _replaced(rng, factors, drop)


def _entries_exchanged(rng, plan, factors):
    """Two neighbouring entries in the wrong order: the matrix stays the same
    where both are in one row."""

    def exchange(starts, columns, values):
        if len(columns) < 2:
            return
        place = rng.randrange(len(columns) - 1)
        for cells in (columns, values):
            cells[place], cells[place + 1] = cells[place + 1], cells[place]

    return _replaced(rng, factors, exchange)


def _rank_changed(rng, plan, factors):
    """The last pivot left out, or one more row of U claimed."""
    R, C, L, U, r = factors
    lower, upper = _rows(L), _rows(U)
    if r and rng.random() < 0.5:
        lower = [{k: v for k, v in cells.items() if k < r - 1} for cells in lower]
        return Factors(R, C, store(lower), store(upper[:-1]), r - 1)
    upper.append({C[r]: 1} if r < len(C) else {})
    if r < len(lower):
        lower[r] = {**lower[r], r: 1}
    return Factors(R, C, store(lower), store(upper), r + 1)


DAMAGES = (_number_replaced, _entry_inserted, _entry_dropped, _entries_exchanged, _rank_changed)
