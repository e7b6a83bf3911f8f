"""Plan texts, plain, varied and damaged.

    stated       the text of triples, with a line of owners or without
    plain_text   the text with each residue as its own value, or as that less p
    ORDERS       orders in which triples may stand, by name
    varied_text  the same plan, by other values, with lines that store nothing and in any order, and
                 now and then with a line of owners that it need not have
    damaged_text a text with something changed
    random_question   m numbers, now and then one that is no residue
    question_text     such numbers as text, now and then with something changed
    values_text       any numbers so
"""

import re

from model.limits import GREATEST_TEXT, GREATEST_VALUE, LEAST_VALUE, UNSTATED_OWNER
from model.plan_text import OWNERS_WORD
from model.storage import row

from .owners import damaged_line, owners_line, random_owners

ODD_FIELDS = (
    b"", b"0", b"00", b"01", b"+1", b"-1", b"-0", b"-", b"--1", b"-01", b"1-", b"a", b"m", b"M",
    b" 1", b"1 ", b"\t1", b"1\r", b"1.0", b"0x1", b"1\0", b"\xb2",
    b"2047", b"2048", b"2049", b"65535", b"65536", b"4294967295", b"4294967296",
    b"4294967297", b"9999999999", b"00000000001", b"10000000000", b"18446744073709551617",
    b"2147483647", b"2147483648", b"-2147483648", b"-2147483649", b"-9999999999", b"-10000000000",
)
ODD_MODULI = (
    b"0", b"1", b"2", b"4", b"6", b"9", b"15", b"49", b"169", b"255", b"65025", b"65519",
    b"65520", b"65521", b"65522", b"65536", b"65537", b"66049", b"4294049777", b"4294967291",
    b"4294967295", b"4294967298", b"-7", b"07",
)


def stated(p, n, m, triples, owners=None):
    """The text of triples (i, j, v), counted from 1, and of owners if given."""
    lines = [f"{p}", f"{n} {m} M", *(f"{i} {j} {v}" for i, j, v in triples), "0 0 0"]
    text = "".join(line + "\n" for line in lines).encode()
    return text if owners is None else text + owners_line(owners) + b"\n"


def triples_of(plan):
    """The stored entries by row, then by column, counted from 1. A residue that
    is above the range of values is stated as the negative number that has it."""
    return [
        (i + 1, j + 1, v if v <= GREATEST_VALUE else v - plan.p)
        for i in range(plan.n)
        for j, v in sorted(row(plan.rows, i).items())
    ]


def plain_text(plan, triples=None, states_owners=False):
    """By its entries in their order, or by the triples given. The owners have
    their line where one is not 1, and else where it is wanted."""
    triples = triples_of(plan) if triples is None else triples
    has_line = states_owners or set(plan.owners) - {UNSTATED_OWNER}
    return stated(plan.p, plan.n, plan.m, triples, plan.owners if has_line else None)


def rising(rng, triples):
    """By row, then by column: what is read without sorting."""
    return sorted(triples)


def by_column(rng, triples):
    """By column, then by row, as listeners are surveyed."""
    return sorted(triples, key=lambda triple: (triple[1], triple[0]))


def falling(rng, triples):
    return sorted(triples, reverse=True)


def shuffled(rng, triples):
    return rng.sample(triples, len(triples))


def one_moved(rng, triples):
    """Rising but for one triple, early or late."""
    moved = sorted(triples)
    if moved:
        moved.insert(rng.randrange(len(moved)), moved.pop(rng.randrange(len(moved))))
    return moved


ORDERS = {order.__name__: order for order in (rising, by_column, falling, shuffled, one_moved)}


def varied_text(rng, plan):
    """Values moved by multiples of p, negatives too, and cells stated as 0
    modulo p; the entries as they are where that would pass the limit of
    length. In half of the texts the triples rise."""
    cells = {(i, j): _other_value(rng, plan.p, v) for i, j, v in triples_of(plan)}
    if plan.n and plan.m:
        for _ in range(rng.randint(0, 3)):
            place = (rng.randint(1, plan.n), rng.randint(1, plan.m))
            cells.setdefault(place, _other_value(rng, plan.p, 0))
    order = rng.choice((rising, rising, rising, *ORDERS.values()))
    triples = order(rng, [(i, j, v) for (i, j), v in cells.items()])
    text = plain_text(plan, triples, states_owners=rng.random() < 0.2)
    return text if len(text) <= GREATEST_TEXT else plain_text(plan, order(rng, triples_of(plan)))


def _other_value(rng, p, v):
    """A value within the text's range that is v modulo p."""
    lowest, highest = -((v - LEAST_VALUE) // p), (GREATEST_VALUE - v) // p
    multiple = rng.choice((0, 0, 0, 1, -1, rng.randint(-9, 9), lowest, highest))
    return v + p * max(lowest, min(multiple, highest))


def _change_byte(rng, text):
    place = rng.randrange(len(text))
    return text[:place] + bytes([text[place] ^ rng.randint(1, 255)]) + text[place + 1 :]


def _change_digit(rng, text):
    place = rng.randrange(len(text))
    return text[:place] + bytes([rng.choice(b"0123456789 -\n")]) + text[place + 1 :]


def _insert_byte(rng, text):
    place = rng.randint(0, len(text))
    return text[:place] + bytes([rng.choice(b" 0123456789-+\n\r\tM\0\xff")]) + text[place:]


def _delete_byte(rng, text):
    place = rng.randrange(len(text))
    return text[:place] + text[place + 1 :]


def _truncate(rng, text):
    return text[: rng.randint(0, len(text))]


def _drop_last_feed(rng, text):
    return text[:-1]


def _append(rng, text):
    odd = (b"\n", b" ", b"0", b"0 0 0\n", b"1 1 1\n", b"\0", b"\r\n", b"owners", b"owners\n")
    return text + rng.choice(odd)


def _with_lines(change):
    """A damage of the list of lines as a damage of the text; a text without
    a whole line stays as it is."""

    def damage(rng, text):
        *lines, rest = text.split(b"\n")
        return b"\n".join([*change(rng, lines), rest]) if lines else text

    damage.__name__ = change.__name__
    return damage


@_with_lines
def _swap_lines(rng, lines):
    a, b = rng.randrange(len(lines)), rng.randrange(len(lines))
    lines[a], lines[b] = lines[b], lines[a]
    return lines


@_with_lines
def _repeat_line(rng, lines):
    place = rng.randrange(len(lines))
    return lines[: place + 1] + lines[place:]


@_with_lines
def _repeat_place(rng, lines):
    """The place of a triple on another line too, near or far, before it or
    after it, by a value that may be 0 modulo p or out of its range."""
    triples = range(min(2, len(lines) - 1), len(lines))
    place = lines[rng.choice(triples)].split(b" ")[:2]
    value = rng.choice((b"1", b"0", lines[0], b"%d" % (GREATEST_VALUE + 1)))
    at = rng.choice(triples)
    return [*lines[:at], b" ".join([*place, value]), *lines[at:]]


@_with_lines
def _drop_line(rng, lines):
    place = rng.randrange(len(lines))
    return lines[:place] + lines[place + 1 :]


@_with_lines
def _insert_line(rng, lines):
    place = rng.randint(0, len(lines))
    odd = (b"", b"0 0 0", b"0 0 1", b"0 1 0", b"1 0 0", b"0 0 -0", b"0 0", b"0 0 0 0", b"1 1 0")
    return [*lines[:place], rng.choice(odd), *lines[place:]]


@_with_lines
def _odd_field(rng, lines):
    place = rng.randrange(len(lines))
    fields = lines[place].split(b" ")
    fields[rng.randrange(len(fields))] = rng.choice(ODD_FIELDS)
    return [*lines[:place], b" ".join(fields), *lines[place + 1 :]]


@_with_lines
def _nearby_field(rng, lines):
    """A number moved a little: places just outside the plan or stated twice."""
    place = rng.randrange(len(lines))
    fields = lines[place].split(b" ")
    which = rng.randrange(len(fields))
    if re.fullmatch(b"-?[0-9]+", fields[which]):
        fields[which] = b"%d" % (int(fields[which]) + rng.choice((-2, -1, 1, 2)))
    return [*lines[:place], b" ".join(fields), *lines[place + 1 :]]


@_with_lines
def _odd_modulus(rng, lines):
    return [rng.choice(ODD_MODULI), *lines[1:]]


@_with_lines
def _odd_sizes(rng, lines):
    sizes = rng.choice((b"2048 2049", b"2049 2048", b"2049 0", b"9999999999 1", b"1 0", b"0 1"))
    return [lines[0], sizes + b" M", *lines[2:]]


@_with_lines
def _odd_value(rng, lines):
    """The value of a triple at an end of its range or past it."""
    place = rng.randrange(len(lines))
    fields = lines[place].split(b" ")
    if 2 <= place < len(lines) - 1:
        value = rng.choice((LEAST_VALUE, LEAST_VALUE - 1, GREATEST_VALUE, GREATEST_VALUE + 1))
        fields[-1] = b"%d" % value
    return [*lines[:place], b" ".join(fields), *lines[place + 1 :]]


@_with_lines
def _damage_owners(rng, lines):
    """The line of owners changed, now and then with another after it; where there
    is none, one for few words, which are seldom as many as the plan's."""
    if lines[-1].split(b" ")[0] != OWNERS_WORD:
        return [*lines, owners_line(random_owners(rng, rng.randint(0, 9)))]
    more = [lines[-1]] if rng.random() < 0.2 else []
    return [*lines[:-1], damaged_line(rng, lines[-1]), *more]


DAMAGES = (
    _change_byte, _change_digit, _insert_byte, _delete_byte, _truncate, _drop_last_feed, _append,
    _swap_lines, _repeat_line, _repeat_place, _repeat_place, _drop_line, _insert_line, _odd_field,
    _odd_field, _nearby_field, _nearby_field, _odd_modulus, _odd_sizes, _odd_value, _odd_value,
    _damage_owners, _damage_owners, _damage_owners, _damage_owners,
)


def damaged_text(rng, text):
    """One change, now and then two, so that the first must win."""
    for _ in range(rng.choice((1, 1, 1, 2))):
        text = rng.choice(DAMAGES)(rng, text) if text else text
    return text


def random_question(rng, plan):
    """A combination of rows, a unit question, or anything; sometimes a value
    of p or more."""
    p, m = plan.p, plan.m
    y = [0] * m
    style = rng.choice(("rows", "unit", "any", "too large"))
    if style == "rows":
        for i in rng.sample(range(plan.n), min(plan.n, 3)):
            weight = rng.randrange(p)
            for j, v in row(plan.rows, i).items():
                y[j] = (y[j] + weight * v) % p
    elif m and style == "unit":
        y[rng.randrange(m)] = 1
    elif m:
        y = [rng.randrange(p) for _ in range(m)]
        if style == "too large":
            y[rng.randrange(m)] = rng.choice((p, p + 1, 2**32 - 1))
    return tuple(y)


def question_text(rng, plan):
    return values_text(rng, random_question(rng, plan))


def values_text(rng, values):
    """Between spaces or line feeds, and now and then without a line feed at the end,
    with a field that is odd, one more or one fewer, or with a byte changed."""
    fields = [b"%d" % value for value in values]
    if fields and rng.random() < 0.3:
        place = rng.randrange(len(fields))
        fields[place : place + 1] = rng.choice(([], [b"0", b"0"], [rng.choice(ODD_FIELDS)]))
    text = rng.choice((b" ", b"\n")).join(fields) + rng.choice((b"", b"\n", b"\n", b"\n"))
    return rng.choice(DAMAGES[:5])(rng, text) if text and rng.random() < 0.2 else text
