"""Certificates, foreign, mixed and damaged.

    is_small               whether a plan's sets are varied at length
    bytes_changed          some bytes in turn, by a random change
    words_replaced         some 32-bit numbers in turn, by an odd number
    resized                shorter and longer certificates
    foreign_certificates   of sets that pass
    broken_certificates    of sets that are mixed, renamed or damaged
    one_that_passes        a set that passes
    one_broken             the certificate of a set with one change
"""

from model.certificate import OPENING, write

from .sets import (
    changed_product,
    damaged_set,
    foreign_set,
    mixed_set,
    reordered_set,
    shuffled_tail,
)

BEFORE_WORDS = 5
SMALL = 1_500  # cells


def is_small(plan):
    return plan.n * plan.m <= SMALL


def bytes_changed(rng, certificate, count):
    """Up to `count` neighbouring bytes, one in each copy, by any change."""
    for place in _run(rng, range(len(certificate)), count):
        changed = certificate[place] ^ rng.randint(1, 255)
        yield certificate[:place] + bytes([changed]) + certificate[place + 1 :]


def words_replaced(rng, plan, certificate, count):
    """Up to `count` neighbouring numbers, one in each copy, by one that means
    something nearby."""
    for place in _run(rng, range(BEFORE_WORDS, len(certificate), 4), count):
        number = int.from_bytes(certificate[place : place + 4], "little")
        odd = (0, 1, number + 1, number - 1, number + plan.p, plan.p, plan.n, plan.m, 2**32 - 1)
        word = (rng.choice(odd) % 2**32).to_bytes(4, "little")
        yield certificate[:place] + word + certificate[place + 4 :]


def _run(rng, places, count):
    """`count` places in a row, from a random one on."""
    start = rng.randint(0, max(0, len(places) - count))
    return places[start : start + count]


def resized(rng, certificate):
    """Cut anywhere, and with bytes after the end."""
    for length in {0, 1, 3, 4, 5, OPENING.size - 1, OPENING.size, rng.randrange(len(certificate))}:
        yield certificate[:length]
    for cut in (1, 2, 3, 4, 8):
        yield certificate[:-cut]
        yield certificate + bytes(cut)


def foreign_certificates(rng, plan, factors, count):
    """The engine's own, the same with another tail, and other pivots."""
    yield write(plan, factors)
    for _ in range(count):
        yield write(plan, shuffled_tail(rng, factors))
        yield write(plan, foreign_set(rng, plan))


def broken_certificates(rng, plan, factors, count):
    """Changes to the engine's own set and to foreign ones."""
    for _ in range(count):
        start = rng.choice((factors, foreign_set(rng, plan)))
        mixed = mixed_set(rng, plan, start)
        if mixed:
            yield write(plan, mixed)
        yield write(plan, reordered_set(rng, start))
        yield write(plan, changed_product(rng, plan, start))
        yield write(plan, damaged_set(rng, plan, start))


def one_that_passes(rng, plan, factors):
    """A set, most often with other pivots. Of a large plan the engine's own."""
    sort = rng.choice((None, shuffled_tail, foreign_set, foreign_set)) if is_small(plan) else None
    if sort is foreign_set:
        return foreign_set(rng, plan)
    return shuffled_tail(rng, factors) if sort else factors


def one_broken(rng, plan, factors):
    """The certificate of a set with one change; now and then it passes, where this
    alters nothing. Of a large plan a byte is changed."""
    sort = rng.choice(("byte", "length", "set", "set", "set")) if is_small(plan) else "byte"
    if sort == "set":
        changes = (
            lambda: mixed_set(rng, plan, factors) or factors,
            lambda: reordered_set(rng, factors),
            lambda: changed_product(rng, plan, factors),
            lambda: damaged_set(rng, plan, factors),
        )
        return write(plan, rng.choice(changes)())
    certificate = write(plan, factors)
    changed = resized if sort == "length" else lambda rng, whole: bytes_changed(rng, whole, 1)
    return rng.choice(list(changed(rng, certificate)))
