"""Questions as the C call takes them: with the numbers of cells that are lent for x and z.

    Asked            a question with these numbers
    rightly          a question with n and m cells
    any_residues     an open question, one word, zeros, or any residues
    too_large        with a value of p or more: at the first place, the last, both, or anywhere
    wrong_lengths    too few or too many values or cells, or x and z exchanged
    any_asked        any of these
    all_lengths      a question with every length up to one too few or too many
"""

from itertools import product
from typing import NamedTuple

from .sums import open_question

GREATEST_CELL = 2**32 - 1


class Asked(NamedTuple):
    y: tuple
    x_length: int
    z_length: int


def rightly(plan, y):
    return Asked(y, plan.n, plan.m)


def _one_word(rng, plan):
    word = rng.randrange(plan.m) if plan.m else 0
    return tuple(int(j == word) for j in range(plan.m))


def _zeros(rng, plan):
    return (0,) * plan.m


def _residues(rng, plan):
    return tuple(rng.randrange(plan.p) for _ in range(plan.m))


SORTS = (open_question, open_question, _residues, _residues, _one_word, _zeros)


def any_residues(rng, plan):
    return rng.choice(SORTS)(rng, plan)


def too_large(rng, plan):
    """Without words there is no such question."""
    y = list(any_residues(rng, plan))
    if not y:
        return ()
    last = len(y) - 1
    anywhere = rng.randint(0, last)
    for place in rng.choice(((0,), (last,), (0, last), (anywhere,), (anywhere, last))):
        y[place] = rng.choice((plan.p, plan.p, plan.p + 1, GREATEST_CELL))
    return tuple(y)


def _fewer(rng, y):
    return y[:-1]


def _more(rng, y):
    return (*y, rng.choice((0, 1, GREATEST_CELL)))


def _none(rng, y):
    return ()


def wrong_lengths(rng, plan, y):
    """One of the three, or two of them; or as many cells for x as for z should
    be, and the other way about, and then often as many values as slots."""
    if plan.n != plan.m and rng.random() < 0.25:
        turned = (*y, *(0,) * plan.n)[: plan.n]
        return Asked(rng.choice((y, turned)), plan.m, plan.n)
    asked = rightly(plan, y)
    for name in rng.sample(Asked._fields, rng.choice((1, 1, 2))):
        asked = asked._replace(**{name: _wrong(rng, getattr(asked, name))})
    return asked


def _wrong(rng, part):
    """A list, or a number of cells, that is not as long as it was."""
    if isinstance(part, tuple):
        return rng.choice((_fewer, _more, _none) if part else (_more,))(rng, part)
    return rng.choice((part - 1, part + 1, part + 1, 0) if part else (1, 2))


def any_asked(rng, plan):
    """Too large values with wrong lengths among them."""
    y = rng.choice((any_residues, any_residues, too_large))(rng, plan)
    return wrong_lengths(rng, plan, y) if rng.random() < 0.4 else rightly(plan, y)


def all_lengths(plan, y):
    """Each once."""
    questions = [(*y, 0)[:length] for length in _around(len(y))]
    return [Asked(*asked) for asked in product(questions, _around(plan.n), _around(plan.m))]


def _around(length):
    return range(max(0, length - 1), length + 2)
