"""The bytes of a certificate (document 01, "Certificate"; number 10 in "What the library returns").

    write        the certificate of a plan's factors
    parse        the factors in a certificate for a plan, or 10
"""

import struct

from .factors import Factors
from .refusals import HEADER, Refusal
from .storage import Rows

MARK = b"PLQ"
VERSION = 1
OPENING = struct.Struct("<3sH6I")


def write(plan, factors):
    """Mark, version, then p, n, m, r, both entry counts, R, C, L and U."""
    R, C, L, U, r = factors
    opening = OPENING.pack(
        MARK, VERSION, plan.p, plan.n, plan.m, r, len(L.columns), len(U.columns)
    )
    numbers = [*R, *C, *L.starts, *L.columns, *L.values, *U.starts, *U.columns, *U.values]
    return opening + struct.pack(f"<{len(numbers)}I", *numbers)


def parse(plan, certificate):
    """The factors as the bytes state them, unjudged; 10 where mark, version
    or length is wrong or p, n and m are not the plan's."""
    if len(certificate) < OPENING.size:
        return Refusal(HEADER)
    mark, version, p, n, m, r, lower, upper = OPENING.unpack_from(certificate)
    if mark != MARK or version != VERSION or (p, n, m) != (plan.p, plan.n, plan.m):
        return Refusal(HEADER)
    lengths = [n, m, n + 1, lower, lower, r + 1, upper, upper]
    if len(certificate) != OPENING.size + 4 * sum(lengths):
        return Refusal(HEADER)
    numbers = struct.unpack_from(f"<{sum(lengths)}I", certificate, OPENING.size)
    parts, place = [], 0
    for length in lengths:
        parts.append(numbers[place : place + length])
        place += length
    R, C, *stored = parts
    return Factors(R, C, Rows(*stored[:3]), Rows(*stored[3:]), r)
