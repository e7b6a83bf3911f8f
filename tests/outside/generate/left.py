"""Plans by what their structural pivots leave (slip 11 of the change requests).

Where at most 32 rows and at most 32 columns have no structural pivot, the
library reduces those rows in a block, else as stored rows. Nothing that it
returns tells which way it went, so every run needs plans of both sorts.

    BLOCK          the most rows, and the most columns, that the block holds
    left           how many rows and how many columns a plan leaves
    side           which of the two are more than the block holds
    rows_leaving   rows that leave exactly what they are told
    leaving        the same as a plan
    SIDES          the sides that plans promise, by turns
    plan_in_turn   one of a run of plans that keep this promise
"""

from itertools import product
from typing import NamedTuple

from model.storage import Plan, store
from model.structure import structural

from .owners import random_owners
from .plans import (
    MODULI,
    SHORT_VALUES,
    build,
    cancelling,
    dense,
    empty,
    full,
    hidden_staircase,
    low_rank,
    random_plan,
    sparse,
)

BLOCK = 32
MOST_LEFT = 58  # so that the text of a plan past the block stays within its limit
MOST_LEFT_LONG = 50  # the same where values have up to ten digits
SHORTEST_CHAIN = 3
LONGEST_CHAIN = 20
MOST_PADS = 12


class Left(NamedTuple):
    """The rows and the columns that have no structural pivot, counted."""

    rows: int
    columns: int


class Side(NamedTuple):
    """Whether more rows, and more columns, are left than the block holds."""

    rows_past: bool
    columns_past: bool


def left(plan):
    pivots = len(structural(plan))
    return Left(plan.n - pivots, plan.m - pivots)


def side(plan):
    return Side(*(count > BLOCK for count in left(plan)))


def rows_leaving(rng, p, content, width, chain=SHORTEST_CHAIN, pads=0):
    """Rows whose structural pivots leave `width` columns and the rows of
    `content`, each with what it holds in those columns; None is an empty row.

    A chain of rows ends in a wide row with an entry in every column that is
    left. The rows of the content start at the chain and lead to the wide row, so
    that a pivot in those columns would close a cycle; and they have more entries
    than the chain's first row. They run down the chain with 1, 2, 3, 3, .., so
    that three times the wide row is taken away from them. Pads are rows with one
    entry, whose columns stand among those that are left."""
    after = range(chain, chain + width + pads)
    pad_columns = rng.sample(after, pads)
    columns = [j for j in after if j not in pad_columns]
    rows = [{i: 1, i + 1: p - 1} for i in range(chain - 1)]
    rows.append({chain - 1: 1, **dict.fromkeys(columns, 1)})
    rows += [{j: rng.randrange(1, p)} for j in pad_columns]
    for cells in content:
        heard = {j: rng.randrange(p) for j in pad_columns}
        rows.append({} if cells is None else {**_runner(cells, columns), **heard})
    return [{j: v % p for j, v in cells.items()} for cells in rows]


def _runner(cells, columns):
    """A row that starts at the chain and leaves these cells."""
    return {0: 1, 1: 1, 2: 1, **{j: 3 + cells.get(k, 0) for k, j in enumerate(columns)}}


def leaving(rng, p, content, width, chain=SHORTEST_CHAIN, pads=0):
    """A plan of such rows, in random order, with random owners."""
    rows = rows_leaving(rng, p, content, width, chain, pads)
    rng.shuffle(rows)
    m = chain + width + pads
    return Plan(p, len(rows), m, store(rows), random_owners(rng, m))


CONTENTS = (dense, dense, dense, low_rank, cancelling, sparse, hidden_staircase, empty)
ANY = None
SIDES = (ANY,) * 6 + tuple(Side(*past) for past in product((False, True), repeat=2))


def plan_in_turn(rng, index):
    """Of ten plans in a row one stands on each side of the block; the others
    stand anywhere, most of them within it."""
    promised = SIDES[index % len(SIDES)]
    return random_plan(rng) if promised is ANY else _plan_on(rng, promised)


def _plan_on(rng, promised):
    """A full plan, which has one structural pivot, or one that leaves any
    content after many."""
    p = rng.choice(MODULI)
    most = MOST_LEFT if p <= SHORT_VALUES else MOST_LEFT_LONG
    rows, width = (
        rng.randint(BLOCK + 1, most) if past else rng.randint(1, BLOCK) for past in promised
    )
    if rng.random() < 0.3:
        return build(rng, full, p, rows + 1, width + 1)
    content = rng.choice(CONTENTS)(rng, p, rows, width)
    chain, pads = rng.randint(SHORTEST_CHAIN, LONGEST_CHAIN), rng.randint(0, MOST_PADS)
    return leaving(rng, p, content, width, chain, pads)
