"""Plans and texts at the limits of document 01.

    lower_edge, upper_edge   plans whose L or U has an exact number of entries
    left_edges               plans that leave as much as the block holds, and more
    left_lower_edge          a plan whose L has an exact number of entries, also past the chain
    text_of_length           a text with an exact number of bytes
    owned_text_of_length     the same with a line of owners, as long as any
    owner_counts             as many owners as any plan has words, and one fewer or more
    most_lines               a text of as many lines as any can have
    edge_texts               all of them around each limit
"""

from itertools import product
from random import Random

from model.factors import factor
from model.limits import (
    GREATEST_ENTRIES,
    GREATEST_MODULUS,
    GREATEST_OWNER,
    GREATEST_SIZE,
    GREATEST_TEXT,
)
from model.storage import plan_of, store

from .left import BLOCK, Left, leaving, rows_leaving
from .owners import owners_line
from .plans import dense, empty, low_rank
from .texts import plain_text, stated

CHAIN = 120
WIDE = 150
AROUND_BLOCK = (BLOCK, BLOCK + 1)


def _chain(length):
    """Rows 1 at i and -1 at i + 1: what starts at column 0 runs down to the end."""
    return [{i: 1, i + 1: -1} for i in range(length)]


def _runner():
    """A row that starts at column 0 and leaves 3 at the end of a chain. Beside
    the chain it has no unused column, and so is no structural pivot."""
    return {0: 1, 1: 1, 2: 1}


def _padded(p, rows, missing):
    """The plan with `missing` single entries more, each a pivot of its own."""
    width = 1 + max(max(cells) for cells in rows)
    rows = rows + [{width + i: 1} for i in range(missing)]
    stored = store({j: v % p for j, v in cells.items()} for cells in rows)
    return plan_of(p, len(rows), width + missing, stored)


def lower_edge(p, entries, chain=CHAIN):
    """A plan whose L has this many entries: dependent rows of three entries
    each need the whole chain. p is odd and not 3. No column is left, and so many
    rows as the chain's length leaves entries for."""
    rows = _chain(chain) + [{chain: 1}]
    total = each = chain + 1
    while total + each <= entries:
        rows.append(_runner())
        total += each
    return _padded(p, rows, entries - total)


def upper_edge(p, entries):
    """A plan whose U has this many entries: each further row runs down the
    chain into one wide row, and has a pivot column of its own before it. There
    it is no structural pivot, since two rows at the chain's end have entries in
    these columns, so that a cycle would close; but these two cancel. p is not 3.

    The chain, its end, the two rows, the wide row and the further rows have so
    many entries in U: 2 CHAIN, 4, 1 + count each, 1 + WIDE, and 1 + WIDE each."""
    each = WIDE + 1
    count = (entries - 2 * CHAIN - 6 - each) // (each + 2)
    total = 2 * CHAIN + 4 + 2 * (1 + count) + each + count * each
    plus, minus, to_wide, first_own = range(CHAIN + 1, CHAIN + 5)
    own = range(first_own, first_own + count)
    wide = range(own.stop, own.stop + WIDE)
    rows = _chain(CHAIN)
    rows.append({CHAIN: 1, plus: 1, minus: -1, to_wide: 1})
    rows += [{column: 1, **dict.fromkeys(own, 1)} for column in (plus, minus)]
    rows.append({to_wide: 1, **dict.fromkeys(wide, 1)})
    rows += [{**_runner(), column: 1} for column in own]
    return _padded(p, rows, entries - total)


def _falling(rng, p, rows, width):
    """Row after row has a pivot to the left of all before."""
    return [
        {j: rng.randrange(1, p) for j in range(max(0, width - 1 - t), width)} for t in range(rows)
    ]


def left_edges():
    """What is to be left, and a plan that leaves it, modulo the least and the
    greatest p: rows and columns up to the block's size and one more, with rows
    that are independent or not, or all 0; no row, no column, and empty rows."""
    for p in (2, GREATEST_MODULUS):
        rng = Random(f"left {p}")
        for rows, width in product(AROUND_BLOCK, repeat=2):
            for content in (dense, _falling, low_rank, empty):
                cells = content(rng, p, rows, width)
                yield Left(rows, width), leaving(rng, p, cells, width, pads=5)
        for width in range(BLOCK + 2):
            yield Left(0, width), leaving(rng, p, [], width)
        for rows in (1, 2, BLOCK - 1, *AROUND_BLOCK):
            yield Left(rows, 0), leaving(rng, p, [{}] * rows, 0, chain=5)
            yield Left(rows, 3), leaving(rng, p, [None] * rows, 3)


def left_lower_edge(p, entries, rows, width):
    """A plan that leaves so many rows and columns and whose L has this many
    entries: each row needs the whole chain and then the rows before it. p is odd
    and not 3."""
    rng = Random(f"left {entries} {rows} {width}")
    chain = entries // (rows + 1) - rows
    content = dense(rng, p, rows, width)
    built = rows_leaving(rng, p, content, width, chain)
    found = factor(_padded(p, built, 0), 2 * entries, 2 * entries).factors
    return _padded(p, built, entries - len(found.L.columns))


def _left_lower_edges():
    """7 at the last row that is left, or just not, or at an earlier one; within
    the block, and past it by one row or one column."""
    corners = ((BLOCK, BLOCK), (BLOCK + 1, BLOCK), (BLOCK, BLOCK + 1))
    for entries in (GREATEST_ENTRIES, GREATEST_ENTRIES + 1):
        for chain in (1_800, 490, 480):  # 8, 32 and 33 rows are left
            yield lower_edge(GREATEST_MODULUS, entries, chain)
        yield left_lower_edge(GREATEST_MODULUS, entries, 8, 8)
        yield from (left_lower_edge(7, entries, *corner) for corner in corners)
    yield from (left_lower_edge(7, 24_000, *corner) for corner in corners)


def _stores_nothing(characters):
    """A multiple of 7 within the text's range, written in 1 to 10 characters."""
    return 7 * 10 ** (characters - 1) if characters < 10 else -7 * 10**8


def text_of_length(length, falls=False):
    """A text of exactly this many bytes whose lines store nothing, rising or
    falling; the last values have as many characters as are missing."""
    missing = length - len(stated(7, GREATEST_SIZE, GREATEST_SIZE, []))
    triples = []
    for i, j in ((i, j) for i in range(1, GREATEST_SIZE) for j in range(1, GREATEST_SIZE)):
        shortest = len(f"{i} {j} 0\n")
        if missing < shortest:
            break
        spare = missing - shortest
        characters = 1 + spare if spare < 10 else 1
        triples.append((i, j, _stores_nothing(characters)))
        missing -= shortest + characters - 1
    return stated(7, GREATEST_SIZE, GREATEST_SIZE, triples[::-1] if falls else triples)


def owned_text_of_length(length):
    """Of the bytes the line of owners has 8,199: the plan alone is shorter than
    the limit."""
    line = owners_line([GREATEST_OWNER] * GREATEST_SIZE) + b"\n"
    return text_of_length(length - len(line)) + line


def owner_counts():
    """Texts of 2,048 words, and of none, with about as many owners."""
    for m in (0, GREATEST_SIZE):
        for count in sorted({max(0, m - 1), m, m + 1}):
            yield stated(2, 1, m, [(1, m, 1)] if m else [], [GREATEST_OWNER] * count)


def most_lines():
    """A text of the shortest lines there are, so that all but one repeat a
    place."""
    opening, line = b"2\n1 1 M\n", b"1 1 1\n"
    return opening + line * ((GREATEST_TEXT - len(opening)) // len(line))


def edge_texts():
    """Texts just within and just past each limit that a text can reach."""
    for entries in range(GREATEST_ENTRIES - 1, GREATEST_ENTRIES + 3):
        yield plain_text(lower_edge(65_521, entries))
        yield plain_text(upper_edge(7, entries))
    yield from (plain_text(plan) for _, plan in left_edges())
    yield from map(plain_text, _left_lower_edges())
    for length in (GREATEST_TEXT - 1, GREATEST_TEXT, GREATEST_TEXT + 1):
        yield text_of_length(length)
        yield text_of_length(length, falls=True)
        yield owned_text_of_length(length)
    yield from owner_counts()
    yield most_lines()
    for n in (GREATEST_SIZE, GREATEST_SIZE + 1):
        for m in (0, 1, GREATEST_SIZE, GREATEST_SIZE + 1):
            corner = [(n, m, 1)] if m else []
            yield stated(2, n, m, corner)
            yield stated(2, m, n, [(m, n, 1)] if m else [])
