"""Random plans of many kinds.

A kind is a function from a random source, a modulus and two sizes to rows as
dictionaries from column to value.

    EDGES        moduli and sizes of small plans
    KINDS        the kinds by name, for any sizes
    THIN_KINDS   those with few entries in a row, for large sizes
    random_plan  a plan of random kind, modulus and size
    tiny_plan    a plan small enough to try every combination
"""

from model.storage import Plan, store

from .owners import random_owners

# The modulus, the slots and the words: without slots, without words, modulo 2, and modulo
# the largest.
EDGES = ((7, 0, 0), (7, 0, 3), (2, 0, 2), (7, 3, 0), (2, 4, 5), (2, 5, 3), (4_294_967_291, 4, 5))
MODULI = (2, 3, 5, 7, 13, 251, 65_521, 65_537, 2_147_483_647, 4_294_967_291)
SHORT_VALUES = 65_521  # up to this modulus values have five digits, above it ten
SHORT_LINE = len("2048 2048 65520\n")
LONG_LINE = len("2048 2048 -2147483648\n")
ROOM = 57_000  # bytes for the lines of entries, so that a text with owners stays within its limit


def _value(rng, p):
    return rng.randrange(1, p)


def _cells(rng, p, columns):
    return {column: _value(rng, p) for column in sorted(columns)}


def _few_columns(rng, m, most):
    return rng.sample(range(m), min(m, rng.randint(0, most)))


def _sum_of_rows(p, weighted_rows):
    """The combination of rows given as pairs of weight and row."""
    total = {}
    for weight, cells in weighted_rows:
        for column, value in cells.items():
            total[column] = (total.get(column, 0) + weight * value) % p
    return {column: value for column, value in total.items() if value}


def sparse(rng, p, n, m):
    """A few entries in each row."""
    most = rng.choice((1, 2, 3, 5))
    return [_cells(rng, p, _few_columns(rng, m, most)) for _ in range(n)]


def dense(rng, p, n, m):
    """Most cells filled."""
    density = rng.choice((0.5, 0.8, 1.0))
    return [_cells(rng, p, [j for j in range(m) if rng.random() < density]) for _ in range(n)]


def full(rng, p, n, m):
    """All cells filled: one structural pivot."""
    return [_cells(rng, p, range(m)) for _ in range(n)]


def empty(rng, p, n, m):
    """No entries."""
    return [{} for _ in range(n)]


def low_rank(rng, p, n, m):
    """Every row a combination of a few."""
    base = dense(rng, p, rng.randint(1, 4), m)
    return [_sum_of_rows(p, [(rng.randrange(p), cells) for cells in base]) for _ in range(n)]


def holes(rng, p, n, m):
    """Empty rows and empty columns among the others."""
    kept = [j for j in range(m) if rng.random() < 0.6]
    return [
        _cells(rng, p, rng.sample(kept, min(len(kept), rng.randint(1, 4))))
        if rng.random() < 0.6
        else {}
        for _ in range(n)
    ]


def repeated(rng, p, n, m):
    """Rows that are multiples of a few."""
    base = sparse(rng, p, rng.randint(1, 3), m)
    return [_sum_of_rows(p, [(_value(rng, p), rng.choice(base))]) for _ in range(n)]


def banded(rng, p, n, m):
    """Entries near the diagonal."""
    width = rng.randint(0, 2)
    return [_cells(rng, p, range(max(0, i - width), min(m, i + width + 1))) for i in range(n)]


def staircase(rng, p, n, m):
    """Every row with a leftmost column of its own."""
    return [
        _cells(rng, p, {i, *(j for j in _few_columns(rng, m, 3) if j > i)}) if i < m else {}
        for i in range(n)
    ]


def hidden_staircase(rng, p, n, m):
    """A staircase whose columns are renamed: most of its pivots are not at the
    leftmost column of their row."""
    names = rng.sample(range(m), m)
    return [_cells(rng, p, (names[j] for j in cells)) for cells in staircase(rng, p, n, m)]


def rings(rng, p, n, m):
    """Circles: each row has a column in common with the next one, the last with
    the first; now and then a cell more."""
    rows = []
    while m and len(rows) < n:
        ring = rng.sample(range(m), min(m, rng.randint(2, 6)))
        for j, column in enumerate(ring):
            more = _few_columns(rng, m, 1) if rng.random() < 0.2 else []
            rows.append(_cells(rng, p, {column, ring[j - 1], *more}))
    return rows[:n] if m else [{}] * n


def common_left(rng, p, n, m):
    """All rows with the same leftmost column, so one pivot by leftmost column."""
    return [
        _cells(rng, p, {0, *_few_columns(rng, m, 3)}) if m and rng.random() < 0.9 else {}
        for _ in range(n)
    ]


def cancelling(rng, p, n, m):
    """Rows that add up others, with now and then one cell more."""
    rows = sparse(rng, p, min(n, max(1, n // 2)), m)
    while len(rows) < n:
        parts = [(_value(rng, p), rng.choice(rows)) for _ in range(rng.randint(2, 3))]
        if m and rng.random() < 0.3:
            parts.append((1, {rng.randrange(m): _value(rng, p)}))
        rows.append(_sum_of_rows(p, parts))
    return rows


def single_entries(rng, p, n, m):
    """At most one entry in each row."""
    return [_cells(rng, p, _few_columns(rng, m, 1)) for _ in range(n)]


def chains(rng, p, n, m):
    """Two neighbouring cells in most rows; the others start at column 0 and
    run down the whole chain."""
    rows = []
    for _ in range(n):
        if m > 2 and rng.random() < 0.3:
            rows.append(_cells(rng, p, {0, 1, 2, rng.randrange(m)}))
        else:
            i = rng.randrange(m) if m else 0
            rows.append(_cells(rng, p, range(i, min(m, i + 2))))
    return rows


def filling(rng, p, n, m):
    """Five entries in each row at random: a third of the rows is no structural
    pivot, and factors soon hold more entries than any room."""
    return [_cells(rng, p, rng.sample(range(m), min(m, 5))) for _ in range(n)]


THIN_KINDS = {
    kind.__name__: kind
    for kind in (
        sparse, holes, repeated, banded, staircase, hidden_staircase, cancelling, single_entries,
        chains, rings,
    )
}
KINDS = {**THIN_KINDS, **{kind.__name__: kind for kind in (dense, empty, low_rank, common_left)}}


SHAPES = {"tiny": 20, "small": 45, "medium": 16, "wide": 8, "tall": 8, "large": 3, "filling": 1}


def _sizes(rng, shape):
    if shape == "tiny":
        return rng.randint(0, 3), rng.randint(0, 3)
    if shape == "small":
        return rng.randint(1, 12), rng.randint(1, 12)
    if shape == "medium":
        return rng.randint(10, 36), rng.randint(10, 36)
    if shape == "large":
        return rng.randint(100, 2_048), rng.randint(100, 2_048)
    if shape == "filling":
        return rng.randint(300, 600), rng.randint(300, 600)
    few, many = rng.randint(1, 8), rng.randint(30, 200)
    return (few, many) if shape == "wide" else (many, few)


def random_plan(rng):
    """A plan whose text stays within its limit."""
    shape = rng.choices(list(SHAPES), list(SHAPES.values()))[0]
    kinds = KINDS
    if shape in ("large", "filling"):
        kinds = THIN_KINDS if shape == "large" else {"filling": filling}
    n, m = _sizes(rng, shape)
    plan = build(rng, kinds[rng.choice(sorted(kinds))], rng.choice(MODULI), n, m)
    line = SHORT_LINE if plan.p <= SHORT_VALUES else LONG_LINE
    return plan if line * len(plan.rows.columns) <= ROOM else random_plan(rng)


def tiny_plan(rng):
    """A plan with p to the n and p to the m small enough for enumeration."""
    p, most = rng.choice(((2, 4), (2, 5), (3, 3), (3, 4), (5, 3), (7, 2)))
    n, m = rng.randint(0, most), rng.randint(0, most)
    return build(rng, KINDS[rng.choice(sorted(KINDS))], p, n, m)


def build(rng, kind, p, n, m):
    """The plan of a kind, its rows in random order half of the time, with random
    owners."""
    rows = kind(rng, p, n, m)
    if rng.random() < 0.5:
        rng.shuffle(rows)
    return Plan(p, n, m, store(rows), random_owners(rng, m))
