"""Questions that add up, answered from one set (slip 14 of the change requests).

    mixed        a·u + b·v modulo p, cell by cell
    told         what the answers to y and y′ tell of the answer to a·y + b·y′
"""

from .questions import Answer


def mixed(p, a, u, b, v):
    return tuple((a * s + b * t) % p for s, t in zip(u, v, strict=True))


def told(plan, a, first, b, second):
    """x adds up and z does not: of an open question and a closed one the z of the
    closed one stays. None of two closed questions, which may add up to either. A
    question without weight takes no part."""
    closed = [found for weight, found in ((a, first), (b, second)) if weight and not found.is_open]
    if len(closed) == 2:
        return None
    if closed:
        return closed[0]
    return Answer(True, mixed(plan.p, a, first.x, b, second.x), (0,) * plan.m)
