"""Owners of words and their line in a text (slip 4 of the change requests).

    random_owners    a byte for each word; in about half of the plans all 1
    owners_line      the line that states them, without its line feed
    damaged_line     such a line with something changed
"""

from model.limits import GREATEST_OWNER, UNSTATED_OWNER
from model.plan_text import OWNERS_WORD

ODD_OWNERS = (
    b"256", b"257", b"300", b"511", b"512", b"999", b"65536", b"4294967295", b"4294967296",
    b"4294967551", b"9999999999", b"10000000000", b"", b"00", b"01", b"001", b"0255", b"-1", b"-0",
    b"+1", b"x", b"1\t", b"1\r", b"1.0", b"0", b"1", b"9", b"10", b"255", b"owners",
)
ODD_WORDS = (b"", b" owners", b"owner", b"ownersx", b"Owners", b"owners\t", b"owners\r", b"0", b"1")
# Pads and two customers, bytes of every number of digits, or any byte.
CUSTOMERS = ((0, 1, 2), (0, 9, 10, 99, 100, GREATEST_OWNER), range(GREATEST_OWNER + 1))


def random_owners(rng, m):
    """What goes without saying, or any of the sorts above."""
    if rng.random() < 0.55:
        return (UNSTATED_OWNER,) * m
    return tuple(rng.choices(rng.choice(CUSTOMERS), k=m))


def owners_line(owners):
    return b" ".join([OWNERS_WORD, *(b"%d" % owner for owner in owners)])


def damaged_line(rng, line):
    """A number replaced, put in or left out, now and then two, so that 3 of the
    line must win; or another word before them."""
    word, *numbers = line.split(b" ")
    if rng.random() < 0.1:
        return b" ".join([rng.choice(ODD_WORDS), *numbers])
    for _ in range(rng.choice((1, 1, 2))):
        place = rng.randint(0, len(numbers))
        end = place + rng.choice((0, 1, 1, 1, 1, 1))
        numbers[place:end] = [rng.choice(ODD_OWNERS)] if rng.random() < 0.8 else []
    return b" ".join([word, *numbers])
