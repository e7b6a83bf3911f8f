"""The benchmark plans, the same on every machine.

A plan's text has at most 65,536 bytes, so a plan of 2,048 by 2,048 has some
5,000 entries and a full plan some 70 rows; a size that does not fit is brought
down until it does. The sizes here also keep each factor within 16,384 entries,
so that every plan has a report.

    BenchPlan    a name, a modulus, the sizes and the rows
    all_plans    the plans of the table
    desk_plans   plan D of document 01 by four moduli, too small for the table
    family       one family of plans by growing size
    FAMILIES     the families whose growth is measured
    collection_plans   matrices of the public collection that can be built from their definition
    text         a plan as plan text, its triples by row and column or in another order
    ORDERS       the other orders, by name
    peer_form    a plan as the peers read it
"""

from itertools import combinations, permutations
from random import Random
from typing import NamedTuple

GREATEST_TEXT = 65_536
GREATEST_VALUE = 2_147_483_647
LARGEST = 4_294_967_291  # the largest modulus


class BenchPlan(NamedTuple):
    """Rows are dictionaries from column to value, counted from 0. Sparse and
    dense plans have their own line under the table."""

    name: str
    p: int
    n: int
    m: int
    rows: list
    sparse: bool = True

    @property
    def entries(self):
        return sum(map(len, self.rows))


def _cells(rng, p, columns):
    return {column: rng.randrange(1, p) for column in sorted(columns)}


def _by_column(triples):
    """By column, then by row; a band of two cells rises in this order too."""
    return sorted(triples, key=lambda triple: (triple[1], triple[0]))


def _shuffled(triples):
    return Random("shuffled").sample(triples, len(triples))


ORDERS = {"by column": _by_column, "shuffled": _shuffled}


def _stated(plan, v):
    """A value that a text can have: a residue above its range as the negative
    number that has it."""
    return v if v <= GREATEST_VALUE else v - plan.p


def text(plan, order=sorted):
    """The plan text."""
    triples = [
        (i + 1, j + 1, _stated(plan, v))
        for i, cells in enumerate(plan.rows)
        for j, v in cells.items()
    ]
    lines = [f"{i} {j} {v}" for i, j, v in order(triples)]
    opening = [f"{plan.p}", f"{plan.n} {plan.m} M"]
    return "".join(line + "\n" for line in [*opening, *lines, "0 0 0"]).encode()


def peer_form(plan):
    """`p n m e`, then `i j v`, counted from 0."""
    lines = [f"{plan.p} {plan.n} {plan.m} {plan.entries}"]
    for i, cells in enumerate(plan.rows):
        lines += [f"{i} {j} {v}" for j, v in cells.items()]
    return "".join(line + "\n" for line in lines).encode()


def random_sparse(rng, p, size):
    """Entries anywhere: a row has one, two or three."""
    rows = [_cells(rng, p, rng.sample(range(size), rng.choice((1, 2, 2, 3)))) for _ in range(size)]
    return size, size, rows


def band(rng, p, size):
    """The diagonal and the cell before it."""
    return size, size, [_cells(rng, p, range(max(0, i - 1), i + 1)) for i in range(size)]


def wide_band(rng, p, size):
    """Five cells around the diagonal."""
    return size, size, [
        _cells(rng, p, range(max(0, i - 2), min(size, i + 3))) for i in range(size)
    ]


def filling(rng, p, size):
    """Five entries in each row, anywhere: a third of the rows is no structural
    pivot, and there is much fill."""
    return size, size, [_cells(rng, p, rng.sample(range(size), 5)) for _ in range(size)]


def wide_pads(rng, p, size):
    """A few words and many pads: each slot hears one word and ten pads."""
    words = 2_048 // 16
    rows = []
    for _ in range(size):
        pads = rng.sample(range(words, 2_048), 10)
        rows.append(_cells(rng, p, {rng.randrange(words), *pads}))
    return size, 2_048, rows


def full_tail(rng, p, size, tail=48):
    """A thin plan whose last rows are nearly full over the last columns."""
    rows = [_cells(rng, p, {i, rng.randrange(i, size)}) for i in range(size - tail)]
    last = range(size - 2 * tail, size)
    rows += [_cells(rng, p, [j for j in last if rng.random() < 0.9]) for _ in range(tail)]
    return size, size, rows


def dense_end(rng, p, size):
    """The same with fewer last rows: 28 and 30 rows, and as many columns, have no
    structural pivot in the two plans of the table, and fit a block of 32 by 32."""
    return full_tail(rng, p, size, tail=32)


def low_rank(rng, p, size):
    """Every row a multiple of one of few rows."""
    base = [_cells(rng, p, rng.sample(range(size), 8)) for _ in range(size // 16)]
    rows = []
    for _ in range(size):
        factor, cells = rng.randrange(1, p), rng.choice(base)
        rows.append({j: v * factor % p for j, v in cells.items()})
    return size, size, rows


def small_dense(rng, p, size):
    """Every cell any residue."""
    cells = [[(j, rng.randrange(p)) for j in range(size)] for _ in range(size)]
    return size, size, [{j: v for j, v in row if v} for row in cells]


# Name, builder, moduli, size.
TABLE = (
    ("random sparse", random_sparse, (2, 251, 65_521, LARGEST), 2_048),
    ("band", band, (7, 65_521), 2_048),
    ("wide band", wide_band, (7, 65_521), 2_048),
    ("filling", filling, (7, 65_521), 280),
    ("wide pads", wide_pads, (7, 65_521), 240),
    ("full tail", full_tail, (7, 65_521), 1_024),
    ("dense end", dense_end, (7,), 800),
    ("dense end", dense_end, (65_521,), 384),
    ("low rank", low_rank, (7, 65_521), 1_024),
    ("small dense", small_dense, (2, 7, 251, 65_521, LARGEST), 112),
)


def _fitted(name, builder, p, size):
    """The first plan, by steps of a sixteenth down, whose text fits."""
    while True:
        rng = Random(f"{name} {p} {size}")
        n, m, rows = builder(rng, p, size)
        plan = BenchPlan(f"{name} p={p}", p, n, m, rows, builder is not small_dense)
        if len(text(plan)) <= GREATEST_TEXT:
            return plan
        size -= size // 16


def all_plans():
    """The plans in the table's order."""
    return [
        _fitted(name, builder, p, size) for name, builder, moduli, size in TABLE for p in moduli
    ]


PLAN_D = ({0: 2, 2: 1}, {1: 3, 3: 1}, {0: 4, 1: 3, 2: 2, 3: 1}, {1: 1, 2: 5}, {4: 3})


def desk_plans():
    """A call on such a plan takes microseconds, and the test of its modulus is a
    part of that."""
    return [BenchPlan(f"plan D p={p}", p, 5, 5, PLAN_D) for p in (7, 251, 65_521, LARGEST)]


def half_dense(rng, p, size):
    """Every cell any residue, or 0 as often."""
    cells = [[(j, rng.randrange(1, p)) for j in range(size) if rng.random() < 0.5] for _ in range(size)]
    return size, size, [dict(row) for row in cells]


# Name, builder, modulus, the largest size; others are a half, a quarter and an eighth of it, and what lies between.
FAMILIES = (
    ("band", band, 251, 2_048),
    ("random sparse", random_sparse, 251, 2_048),
    ("wide pads", wide_pads, 251, 384),
    ("half dense", half_dense, 251, 112),
)


def family(name, builder, p, largest):
    """Plans of rising size, each about 1.4 times as large as the one before."""
    sizes = [largest * share // 16 for share in (2, 3, 4, 6, 8, 11, 16)]
    return [_fitted(name, builder, p, size) for size in sizes]


def _boundary(name, p, simplices):
    """The boundary matrix of the simplices: a row for each, a column for each of
    their faces; the face without vertex k has the sign of k."""
    faces = sorted({s[:k] + s[k + 1 :] for s in simplices for k in range(len(s))})
    column = {face: j for j, face in enumerate(faces)}
    rows = [
        dict(sorted((column[s[:k] + s[k + 1 :]], 1 if k % 2 == 0 else p - 1) for k in range(len(s))))
        for s in simplices
    ]
    return BenchPlan(name, p, len(rows), len(faces), rows)


def _matchings(vertices, edges):
    """The matchings of a complete graph with so many edges, each by rising edges."""
    pairs = list(combinations(range(vertices), 2))
    return [m for m in combinations(pairs, edges) if len({v for pair in m for v in pair}) == 2 * edges]


def _rooks(side, count):
    """So many rooks on a board of which none attacks another, by rising row."""
    return [
        tuple(zip(rows, columns))
        for rows in combinations(range(side), count)
        for columns in permutations(range(side), count)
    ]


def collection_plans():
    """mk9.b3 and ch5-5.b2: boundary matrices of a matching complex and of a
    chessboard complex."""
    p = 65_521
    return [
        _boundary("mk9.b3", p, _matchings(9, 4)),
        _boundary("ch5-5.b2", p, sorted(_rooks(5, 3))),
    ]
