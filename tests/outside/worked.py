"""The worked cases of document 01 with their results, letter by letter (document 01, "Report and cases").
Those of the structural pivots are worked by slip 9 of the change requests, those of owners by slip 4,
sums by slip 14, slot values by slip 6, settings by slip 7, their numbers by slip 8.

    PLAN_D        the text of plan D; FALLING_D and BY_COLUMN_D, the same plan in other orders
    OWNED_D       the same with a line of owners
    EIGHT_LEFT    the text of a plan with eight rows that have no structural pivot
    FACTORED      texts with the number of structural pivots and the factors
    EARLIER_D     plan D's factors as they were made before slip 9: they pass too
    OTHER_D       factors of plan D with other pivots, which pass as well
    REPORTS       texts with what the report program prints
    AFTER_D       what may follow the last line of plan D, with the refusal
    REFUSALS      texts with the refusal that the report program prints, those of AFTER_D among them
    LARGEST_VALUES   a plan modulo the largest modulus, with values near it
    LARGE_PRIMES, NO_LARGE_MODULI   moduli past the table of divisors, accepted and refused
    QUESTIONS     questions on plan D with what the question program prints
    ANSWERS       the same questions, the verdict, and x or z from its own factors and from OTHER_D
    SUMS          weights and questions on plan D, with what it prints for each and for their sum
    ASKED         texts with a question after the plan, and what it prints
    CUT           such texts; cut off after any of their bytes but the last they are refused
    WORDS         texts and slot values, with what it prints by its verb `words`
    WORDS_ASKED   texts with slot values after the plan, and what it prints so
    SETTINGS      texts with what it prints by its verb `settings`
    ODDS          texts by name, with how many settings give which slots, and questions which value
    EDITED        plan D's set with one number changed, and the refusal
    ROOMS         rooms for L and U on plan D, and the refusal, or None where they suffice
"""

from model.factors import Factors
from model.refusals import Refusal
from model.storage import store

PLAN_D = (
    b"7\n5 5 M\n1 1 2\n1 3 1\n2 2 3\n2 4 1\n3 1 4\n3 2 3\n3 3 2\n3 4 1\n4 2 1\n4 3 5\n5 5 3\n"
    b"0 0 0\n"
)
FALLING_D = (
    b"7\n5 5 M\n5 5 3\n4 3 5\n4 2 1\n3 4 1\n3 3 2\n3 2 3\n3 1 4\n2 4 1\n2 2 3\n1 3 1\n1 1 2\n"
    b"0 0 0\n"
)
BY_COLUMN_D = (
    b"7\n5 5 M\n1 1 2\n3 1 4\n2 2 3\n3 2 3\n4 2 1\n1 3 1\n3 3 2\n4 3 5\n2 4 1\n3 4 1\n5 5 3\n"
    b"0 0 0\n"
)
OWNED_D = PLAN_D + b"owners 1 1 2 2 0\n"
EIGHT_LEFT = (
    b"7\n10 7 M\n1 1 1\n1 2 1\n2 2 1\n2 3 1\n2 4 1\n2 5 1\n2 6 1\n2 7 1\n3 1 1\n3 3 6\n"
    b"3 5 6\n3 6 1\n3 7 6\n4 1 1\n4 4 6\n4 5 6\n4 6 6\n4 7 2\n5 1 1\n5 3 1\n5 4 1\n5 5 6\n"
    b"5 6 3\n5 7 5\n6 1 1\n6 3 6\n6 4 6\n6 5 6\n6 6 6\n6 7 6\n7 1 1\n7 4 6\n7 5 3\n7 6 6\n"
    b"7 7 6\n9 1 1\n9 3 6\n9 4 6\n9 5 6\n9 7 6\n10 1 1\n10 3 6\n10 4 6\n10 5 6\n10 6 6\n"
    b"10 7 4\n0 0 0\n"
)
REPORT_D = (
    b"modulus 7 slots 5 words 5 entries 11\n"
    b"rank 4 structural 4 L 6 U 7\n"
    b"open 5 owner 1\n"
    b"totals open 1 closed 4\n"
)
ALL_OPEN = (
    b"7\n2048 2048 M\n" + b"".join(b"%d %d 1\n" % (j, j) for j in range(1, 2049)) + b"0 0 0\n"
)
# Owners of three digits: 100 to 255, and again from 100 on.
LONG_OWNERS = [100 + j % 156 for j in range(2048)]


def _set(R, C, L, U):
    """The factors with these rows of L and U."""
    return Factors(R, C, store(L), store(U), len(U))


FACTORED = (
    # By leftmost column rows 0, 1 and 4. Row 2 leads to rows 0 and 1, and these
    # have entries in its other columns, 2 and 3. Row 3 leads to row 1 alone,
    # which has none in column 2: it is added. Row 0 leads to it, and it to row 1.
    (
        PLAN_D,
        4,
        _set(
            R=(0, 3, 1, 4, 2),
            C=(0, 2, 1, 4, 3),
            L=[{0: 2}, {1: 5}, {2: 3}, {3: 3}, {0: 4, 2: 3}],
            U=[{0: 1, 2: 4}, {1: 3, 2: 1}, {1: 1, 3: 5}, {4: 1}],
        ),
    ),
    # Rows 0 | 0 1 2 | 0 1 3: row 0 is the shortest. Row 1 may have column 1 or 2,
    # and takes 1; so row 2, which comes later, is left with 3. Row 2 leads to
    # both others and row 1 to row 0.
    (
        b"7\n3 4 M\n1 1 1\n2 1 1\n2 2 1\n2 3 1\n3 1 1\n3 2 1\n3 4 1\n0 0 0\n",
        3,
        _set(
            R=(2, 1, 0),
            C=(3, 1, 0, 2),
            L=[{0: 1}, {1: 1}, {2: 1}],
            U=[{0: 1, 1: 1, 3: 1}, {0: 1, 1: 1, 2: 1}, {0: 1}],
        ),
    ),
    # Rows 2 | 1 2 | 0, each alone with its leftmost column: no pivot is added,
    # and yet they are ordered anew. Row 1 leads to row 0. Rows 1 and 2 are free,
    # and 1 is lower; then rows 0 and 2 are, and 0 is lower. By column it would be
    # 2 1 0.
    (
        b"7\n3 3 M\n1 3 1\n2 2 1\n2 3 1\n3 1 1\n0 0 0\n",
        3,
        _set(
            R=(1, 0, 2),
            C=(1, 2, 0),
            L=[{0: 1}, {1: 1}, {2: 1}],
            U=[{1: 1, 2: 1}, {2: 1}, {0: 1}],
        ),
    ),
    # Rows 0 1 | 1 2 | 0 2: rows 0 and 1 by leftmost column. In column 2 row 2
    # would close a cycle of three: it leads to row 0, that to row 1, and row 1 has
    # an entry in column 2. So it is reduced: less row 0, plus row 1.
    (
        b"7\n3 3 M\n1 1 1\n1 2 1\n2 2 1\n2 3 1\n3 1 1\n3 3 1\n0 0 0\n",
        2,
        _set(
            R=(0, 1, 2),
            C=(0, 1, 2),
            L=[{0: 1}, {1: 1}, {0: 1, 1: 6, 2: 2}],
            U=[{0: 1, 1: 1}, {1: 1, 2: 1}, {2: 1}],
        ),
    ),
    # The same with one column more in row 2: column 2 would close a cycle,
    # column 3 does not. Row 2 leads to row 0, and comes first.
    (
        b"7\n3 4 M\n1 1 1\n1 2 1\n2 2 1\n2 3 1\n3 1 1\n3 3 1\n3 4 1\n0 0 0\n",
        3,
        _set(
            R=(2, 0, 1),
            C=(3, 0, 1, 2),
            L=[{0: 1}, {1: 1}, {2: 1}],
            U=[{0: 1, 2: 1, 3: 1}, {0: 1, 1: 1}, {1: 1, 2: 1}],
        ),
    ),
    # Rows 0 | 0 1 2 | 0 1 2: row 1 is added at column 1. In column 2 row 2 would
    # close a cycle with it. It is reduced: row 1 leaves 1 in column 2.
    (
        b"7\n3 3 M\n1 1 1\n2 1 1\n2 2 1\n2 3 1\n3 1 1\n3 2 1\n3 3 2\n0 0 0\n",
        2,
        _set(
            R=(1, 0, 2),
            C=(1, 0, 2),
            L=[{0: 1}, {1: 1}, {0: 1, 2: 1}],
            U=[{0: 1, 1: 1, 2: 1}, {0: 1}, {2: 1}],
        ),
    ),
    # Rows 2 3 4 | 1 2 | 0 1 | 0 3 | 0 4: rows 2, 1 and 0 by leftmost column. Row 2
    # leads to row 1 and that to row 0, which has entries in columns 3 and 4: there
    # rows 3 and 4 would close cycles of four. Both are reduced: less row 2, plus
    # row 1, less row 0. Row 3 then is 0 in column 3 and -1 in column 4; row 4 the
    # other way about.
    (
        b"7\n5 5 M\n1 3 1\n1 4 1\n1 5 1\n2 2 1\n2 3 1\n3 1 1\n3 2 1\n4 1 1\n4 4 1\n5 1 1\n"
        b"5 5 1\n0 0 0\n",
        3,
        _set(
            R=(2, 1, 0, 3, 4),
            C=(0, 1, 2, 4, 3),
            L=[{0: 1}, {1: 1}, {2: 1}, {0: 1, 1: 6, 2: 1, 3: 6}, {0: 1, 1: 6, 2: 1, 4: 6}],
            U=[{0: 1, 1: 1}, {1: 1, 2: 1}, {2: 1, 3: 1, 4: 1}, {4: 1}, {3: 1}],
        ),
    ),
    # Rows 0 1 | 1 2 3 4 5 6: row 0 leads to row 1, which has every column from 2 on.
    # Eight rows start at column 0 and are no structural pivots. Less row 0, plus row 1,
    # they are from column 2 on, by row: 0 1 0 2 0 | 1 0 0 0 3 | twice both | 0 | 1 0 4 0 0 |
    # an empty row | 0 0 0 1 0 | 0 0 0 0 5. The first has its pivot in column 3, the
    # second in column 2. Less the second, the fifth is 0 0 4 0 4.
    (
        EIGHT_LEFT,
        2,
        _set(
            R=(0, 1, 2, 3, 6, 8, 9, 4, 5, 7),
            C=(0, 1, 3, 2, 4, 5, 6),
            L=[
                {0: 1},
                {1: 1},
                {0: 1, 1: 6, 2: 1},
                {0: 1, 1: 6, 3: 1},
                {0: 1, 1: 6, 3: 1, 4: 4},
                {0: 1, 1: 6, 5: 1},
                {0: 1, 1: 6, 6: 5},
                {0: 1, 1: 6, 2: 2, 3: 2},
                {0: 1, 1: 6},
                {},
            ],
            U=[
                {0: 1, 1: 1},
                {1: 1, 2: 1, 3: 1, 4: 1, 5: 1, 6: 1},
                {3: 1, 5: 2},
                {2: 1, 6: 3},
                {4: 1, 6: 1},
                {5: 1},
                {6: 1},
            ],
        ),
    ),
)

EARLIER_D = _set(
    R=(0, 1, 4, 3, 2),
    C=(0, 1, 4, 2, 3),
    L=[{0: 2}, {1: 3}, {2: 3}, {1: 1, 3: 5}, {0: 4, 1: 3}],
    U=[{0: 1, 2: 4}, {1: 1, 3: 5}, {4: 1}, {2: 1, 3: 6}],
)
# Row 2, which is twice row 0 and row 1, is a pivot and row 1 is none; of the columns 1 is none.
OTHER_D = _set(
    R=(0, 2, 3, 4, 1),
    C=(0, 3, 2, 4, 1),
    L=[{0: 2}, {0: 4, 1: 1}, {2: 5}, {3: 3}, {1: 1}],
    U=[{0: 1, 2: 4}, {1: 3, 3: 1}, {1: 3, 2: 1}, {4: 1}],
)

REPORTS = (
    (PLAN_D, REPORT_D),
    (FALLING_D, REPORT_D),
    (BY_COLUMN_D, REPORT_D),
    (
        b"7\n0 0 M\n0 0 0\n",
        b"modulus 7 slots 0 words 0 entries 0\nrank 0 structural 0 L 0 U 0\n"
        b"totals open 0 closed 0\n",
    ),
    (
        b"7\n2 0 M\n0 0 0\n",
        b"modulus 7 slots 2 words 0 entries 0\nrank 0 structural 0 L 0 U 0\n"
        b"totals open 0 closed 0\n",
    ),
    (
        b"7\n0 1 M\n0 0 0\n",
        b"modulus 7 slots 0 words 1 entries 0\nrank 0 structural 0 L 0 U 0\n"
        b"totals open 0 closed 1\n",
    ),
    (
        b"7\n2 2 M\n0 0 0\n",
        b"modulus 7 slots 2 words 2 entries 0\nrank 0 structural 0 L 0 U 0\n"
        b"totals open 0 closed 2\n",
    ),
    # The one pivot word is closed: what is closed is not what is no pivot.
    (
        b"2\n2 3 M\n1 1 1\n1 2 1\n1 3 1\n2 1 1\n2 2 1\n2 3 1\n0 0 0\n",
        b"modulus 2 slots 2 words 3 entries 6\nrank 1 structural 1 L 2 U 3\n"
        b"totals open 0 closed 3\n",
    ),
    (
        b"65521\n1 1 M\n1 1 1\n0 0 0\n",
        b"modulus 65521 slots 1 words 1 entries 1\nrank 1 structural 1 L 1 U 1\nopen 1 owner 1\n"
        b"totals open 1 closed 0\n",
    ),
    (
        b"4294967291\n1 1 M\n1 1 -2147483648\n0 0 0\n",
        b"modulus 4294967291 slots 1 words 1 entries 1\nrank 1 structural 1 L 1 U 1\n"
        b"open 1 owner 1\ntotals open 1 closed 0\n",
    ),
    (
        b"2\n1 1 M\n1 1 1\n0 0 0\n",
        b"modulus 2 slots 1 words 1 entries 1\nrank 1 structural 1 L 1 U 1\nopen 1 owner 1\n"
        b"totals open 1 closed 0\n",
    ),
    (
        b"7\n1 2048 M\n1 2048 1\n0 0 0\n",
        b"modulus 7 slots 1 words 2048 entries 1\nrank 1 structural 1 L 1 U 1\nopen 2048 owner 1\n"
        b"totals open 1 closed 2047\n",
    ),
    # Every word is open.
    (
        ALL_OPEN,
        b"modulus 7 slots 2048 words 2048 entries 2048\nrank 2048 structural 2048 L 2048 U 2048\n"
        + b"".join(b"open %d owner 1\n" % j for j in range(1, 2049))
        + b"totals open 2048 closed 0\n",
    ),
    # The same with long owners: the longest report.
    (
        ALL_OPEN + b"owners" + b"".join(b" %d" % owner for owner in LONG_OWNERS) + b"\n",
        b"modulus 7 slots 2048 words 2048 entries 2048\nrank 2048 structural 2048 L 2048 U 2048\n"
        + b"".join(b"open %d owner %d\n" % found for found in enumerate(LONG_OWNERS, 1))
        + b"totals open 2048 closed 0\n",
    ),
    (
        b"7\n1 1 M\n1 1 2147483647\n0 0 0\n",
        b"modulus 7 slots 1 words 1 entries 1\nrank 1 structural 1 L 1 U 1\nopen 1 owner 1\n"
        b"totals open 1 closed 0\n",
    ),
    (
        b"7\n1 1 M\n1 1 14\n0 0 0\n",
        b"modulus 7 slots 1 words 1 entries 0\nrank 0 structural 0 L 0 U 0\n"
        b"totals open 0 closed 1\n",
    ),
    (
        b"7\n2 2 M\n2 1 1\n1 2 1\n0 0 0\n",
        b"modulus 7 slots 2 words 2 entries 2\nrank 2 structural 2 L 2 U 2\n"
        b"open 1 owner 1\nopen 2 owner 1\ntotals open 2 closed 0\n",
    ),
    (
        b"7\n2 2 M\n2 1 7\n1 2 1\n0 0 0\n",
        b"modulus 7 slots 2 words 2 entries 1\nrank 1 structural 1 L 1 U 1\nopen 2 owner 1\n"
        b"totals open 1 closed 1\n",
    ),
    # Owners go with the words, whatever the order of the triples; the open pad is printed.
    (OWNED_D, REPORT_D.replace(b"owner 1", b"owner 0")),
    (FALLING_D + b"owners 1 1 2 2 0\n", REPORT_D.replace(b"owner 1", b"owner 0")),
    (PLAN_D + b"owners 1 1 1 1 1\n", REPORT_D),
    (PLAN_D + b"owners 0 0 0 0 1\n", REPORT_D),
    (PLAN_D + b"owners 1 1 1 1 255\n", REPORT_D.replace(b"owner 1", b"owner 255")),
    (
        b"7\n2 2 M\n2 1 1\n1 2 1\n0 0 0\nowners 10 200\n",
        b"modulus 7 slots 2 words 2 entries 2\nrank 2 structural 2 L 2 U 2\n"
        b"open 1 owner 10\nopen 2 owner 200\ntotals open 2 closed 0\n",
    ),
    # No word: the bare word.
    (
        b"7\n0 0 M\n0 0 0\nowners\n",
        b"modulus 7 slots 0 words 0 entries 0\nrank 0 structural 0 L 0 U 0\n"
        b"totals open 0 closed 0\n",
    ),
    (
        b"7\n2 0 M\n0 0 0\nowners\n",
        b"modulus 7 slots 2 words 0 entries 0\nrank 0 structural 0 L 0 U 0\n"
        b"totals open 0 closed 0\n",
    ),
    (
        b"7\n0 1 M\n0 0 0\nowners 255\n",
        b"modulus 7 slots 0 words 1 entries 0\nrank 0 structural 0 L 0 U 0\n"
        b"totals open 0 closed 1\n",
    ),
)

# Of these rows two are structural pivots. By values near the largest modulus the third is
# reduced, and its second value is filled in; the fourth cancels.
LARGEST_VALUES = (
    b"4294967291\n4 4 M\n1 1 -1\n1 2 -2147483648\n2 2 -2\n2 3 2147483647\n2 4 -1\n3 1 -3\n3 3 -1\n"
    b"4 1 -2\n4 2 -5\n0 0 0\n"
)
# Moduli past the table of divisors: primes, and numbers that are none, or too large.
LARGE_PRIMES = (65_537, 65_539, 2_147_483_647, 4_294_967_279, 4_294_967_291)
NO_LARGE_MODULI = (
    65_522,
    257 * 257,
    257 * 263,
    65_521 * 65_521,
    65_521 * 65_537,
    *range(4_294_967_292, 4_294_967_297),
    2**32 + 2,
    4_294_967_311,  # a prime past the range
    9_999_999_999,
)

# Plan D has 14 lines: what follows them is line 15, and what follows that line 16.
AFTER_D = (
    # another line
    (b"\n", Refusal(3, 15)),
    (b"0 0 0\n", Refusal(3, 15)),
    (b"1 1 1\n", Refusal(3, 15)),
    (b"1 1 2 2 0\n", Refusal(3, 15)),
    (b"owner 1 1 2 2 0\n", Refusal(3, 15)),
    (b"Owners 1 1 2 2 0\n", Refusal(3, 15)),
    (b"ownersx 1 1 2 2 0\n", Refusal(3, 15)),
    (b"owners\t1 1 2 2 0\n", Refusal(3, 15)),
    (b"1 owners 1 1 2 2 0\n", Refusal(3, 15)),
    # fewer owners than words, and more
    (b"owners\n", Refusal(3, 15)),
    (b"owners 1 1 2 2\n", Refusal(3, 15)),
    (b"owners 1 1 2 2 0 1\n", Refusal(3, 15)),
    # spaces
    (b" owners 1 1 2 2 0\n", Refusal(3, 15)),
    (b"owners  1 1 2 2 0\n", Refusal(3, 15)),
    (b"owners 1 1  2 2 0\n", Refusal(3, 15)),
    (b"owners 1 1  2 2\n", Refusal(3, 15)),
    (b"owners 1 1 2 2 0 \n", Refusal(3, 15)),
    (b"owners 1 1 2 2 \n", Refusal(3, 15)),
    # the form of a number
    (b"owners 01 1 2 2 0\n", Refusal(3, 15)),
    (b"owners 1 1 2 2 00\n", Refusal(3, 15)),
    (b"owners 1 -1 2 2 0\n", Refusal(3, 15)),
    (b"owners 1 1 2 2 -0\n", Refusal(3, 15)),
    (b"owners 1 +1 2 2 0\n", Refusal(3, 15)),
    (b"owners 1 1 x 2 0\n", Refusal(3, 15)),
    (b"owners 1 1 2 2 0\r\n", Refusal(3, 15)),
    (b"owners 1 1 2 2 10000000000\n", Refusal(3, 15)),
    (b"owners 1 1 2 2 00000000001\n", Refusal(3, 15)),
    # an owner above 255
    (b"owners 1 1 2 2 256\n", Refusal(16, 15)),
    (b"owners 256 1 2 2 0\n", Refusal(16, 15)),
    (b"owners 1 1 9999999999 2 0\n", Refusal(16, 15)),
    (b"owners 1 1 2 2 4294967296\n", Refusal(16, 15)),
    (b"owners 1 1 2 2 4294967297\n", Refusal(16, 15)),
    # the whole line is judged by 3 first
    (b"owners 256 1 2 2 01\n", Refusal(3, 15)),
    (b"owners 256 1 2 2 10000000000\n", Refusal(3, 15)),
    (b"owners 256 1 2 2\n", Refusal(3, 15)),
    (b"owners 256 1 2 2 0 1\n", Refusal(3, 15)),
    (b"owners 1 1 2 2 0 256\n", Refusal(3, 15)),
    (b"owners 256 1 2 2 0 \n", Refusal(3, 15)),
    (b"owners 1 x 2 2 256\n", Refusal(3, 15)),
    # no line feed
    (b"o", Refusal(3, 15)),
    (b"owners", Refusal(3, 15)),
    (b"owners 1 1 2 2 0", Refusal(3, 15)),
    (b"owners 256 1 2 2 0", Refusal(3, 15)),
    # what follows the line comes after it
    (b"owners 1 1 2 2 0\n\n", Refusal(3, 16)),
    (b"owners 1 1 2 2 0\nx", Refusal(3, 16)),
    (b"owners 1 1 2 2 0\n0 0 0\n", Refusal(3, 16)),
    (b"owners 1 1 2 2 0\nowners 1 1 2 2 0\n", Refusal(3, 16)),
    (b"owners 1 1 2 2 0\nowners 1 1 2 2 256\n", Refusal(3, 16)),
    (b"owners 256 1 2 2 0\nx", Refusal(16, 15)),
    (b"owners 256 1 2 2 0\n\n", Refusal(16, 15)),
    (b"owners 256 1 2 2 0\nowners 1 1 2 2 0\n", Refusal(16, 15)),
    (b"owners 1 1 2 2\nowners 1 1 2 2 0\n", Refusal(3, 15)),
)

REFUSALS = (
    # the modulus
    (b"0\n0 0 M\n0 0 0\n", Refusal(1)),
    (b"1\n0 0 M\n0 0 0\n", Refusal(1)),
    (b"65520\n0 0 M\n0 0 0\n", Refusal(1)),
    (b"65522\n0 0 M\n0 0 0\n", Refusal(1)),
    (b"4294967292\n0 0 M\n0 0 0\n", Refusal(1)),
    (b"9999999999\n0 0 M\n0 0 0\n", Refusal(1)),
    (b"10000000000\n0 0 M\n0 0 0\n", Refusal(3, 1)),
    (b"07\n0 0 M\n0 0 0\n", Refusal(3, 1)),
    (b"-7\n0 0 M\n0 0 0\n", Refusal(3, 1)),
    (b"", Refusal(3, 1)),
    (b"7", Refusal(3, 1)),
    (b"4", Refusal(3, 1)),
    # the sizes
    (b"7\n", Refusal(3, 2)),
    (b"7\n2049 1 M\n0 0 0\n", Refusal(2)),
    (b"7\n1 2049 M\n0 0 0\n", Refusal(2)),
    (b"7\n1 1 m\n0 0 0\n", Refusal(3, 2)),
    (b"7\n1 1\n0 0 0\n", Refusal(3, 2)),
    (b"4\n1 1 m\n0 0 0\n", Refusal(1)),
    # the form of a line
    (b"7\n1 1 M\n", Refusal(3, 3)),
    (b"7\n1 1 M\n1 1 1\n", Refusal(3, 4)),
    (b"7\n1 1 M\n1 1 1\n0 0 0", Refusal(3, 4)),
    (b"7\n1 1 M\n1 1 1\n0 0 0\n\n", Refusal(3, 5)),
    (b"7\n1 1 M\n0 0 0\nx", Refusal(3, 4)),
    (b"7\n1 1 M\n1 1 +1\n0 0 0\n", Refusal(3, 3)),
    (b"7\n1 1 M\n1 1 -0\n0 0 0\n", Refusal(3, 3)),
    (b"7\n1 1 M\n0 0 -0\n", Refusal(3, 3)),
    (b"7\n1 1 M\n1 -1 1\n0 0 0\n", Refusal(3, 3)),
    (b"7\n1 1 M\n1  1 1\n0 0 0\n", Refusal(3, 3)),
    (b"7\n1 1 M\n1 1 1 \n0 0 0\n", Refusal(3, 3)),
    (b"7\r\n1 1 M\n0 0 0\n", Refusal(3, 1)),
    # places
    (PLAN_D.replace(b"2 4 1\n", b"2 6 1\n"), Refusal(4, 6)),
    (b"7\n1 1 M\n0 0 5\n0 0 0\n", Refusal(4, 3)),
    (b"7\n1 1 M\n0 1 0\n0 0 0\n", Refusal(4, 3)),
    (b"7\n1 1 M\n1 0 0\n0 0 0\n", Refusal(4, 3)),
    (b"7\n1 1 M\n9999999999 1 1\n0 0 0\n", Refusal(4, 3)),
    (b"7\n1 1 M\n2 1 9999999999\n0 0 0\n", Refusal(4, 3)),
    # places stated twice, in any order: the later line
    (b"7\n2 2 M\n1 1 1\n1 1 1\n0 0 0\n", Refusal(5, 4)),
    (b"7\n2 2 M\n1 2 7\n1 2 1\n0 0 0\n", Refusal(5, 4)),
    (b"7\n2 2 M\n1 2 1\n1 2 7\n0 0 0\n", Refusal(5, 4)),
    (b"7\n2 2 M\n1 2 7\n1 2 -7\n0 0 0\n", Refusal(5, 4)),
    (b"7\n2 2 M\n2 1 1\n1 2 1\n1 1 1\n2 1 1\n0 0 0\n", Refusal(5, 6)),
    (b"7\n2 2 M\n1 1 1\n1 2 1\n2 2 1\n1 1 1\n0 0 0\n", Refusal(5, 6)),
    (b"7\n2 2 M\n2 1 7\n1 2 1\n2 1 1\n0 0 0\n", Refusal(5, 5)),
    (b"7\n2 2 M\n2 1 1\n1 2 1\n2 1 7\n0 0 0\n", Refusal(5, 5)),
    (b"7\n2 2 M\n2 1 1\n1 2 1\n2 1 2147483648\n0 0 0\n", Refusal(5, 5)),
    (b"7\n2 2 M\n2 2 1\n2 2 1\n2 2 1\n1 1 1\n0 0 0\n", Refusal(5, 4)),
    # two places twice: the first line that repeats one, whatever its place
    (b"7\n2 2 M\n2 2 1\n1 1 1\n2 2 1\n1 1 1\n0 0 0\n", Refusal(5, 5)),
    (b"7\n2 2 M\n2 2 1\n1 1 1\n1 1 1\n2 2 1\n0 0 0\n", Refusal(5, 5)),
    # lines are judged in text order, whatever their places
    (b"7\n2 2 M\n1 2 1\n1 1 9999999999\n0 0 0\n", Refusal(6, 4)),
    (b"7\n2 2 M\n2 1 1\n1 1 2147483648\n2 1 1\n0 0 0\n", Refusal(6, 4)),
    (b"7\n2 2 M\n2 1 1\n1 3 1\n2 1 1\n0 0 0\n", Refusal(4, 4)),
    (b"7\n2 2 M\n2 1 1\n1 1 1\n2 1 1\n1 3 1\n0 0 0\n", Refusal(5, 5)),
    (b"7\n2 2 M\n2 1 1\n1 1 +1\n2 1 1\n0 0 0\n", Refusal(3, 4)),
    (b"7\n2 2 M\n2 1 1\n1 1 1\n2 1 1\nx\n", Refusal(5, 5)),
    (b"7\n2 2 M\n2 1 1\n1 1 1\n", Refusal(3, 5)),
    (b"7\n2 2 M\n2 1 1\n1 1 1\n0 0 0", Refusal(3, 5)),
    (b"7\n2 2 M\n2 1 1\n1 1 1\n0 0 0\n2 1 1\n", Refusal(3, 6)),
    (b"7\n2 2 M\n2 1 1\n1 1 1\n2 1 1", Refusal(3, 5)),
    # values
    (b"7\n1 1 M\n1 1 2147483648\n0 0 0\n", Refusal(6, 3)),
    (b"7\n1 1 M\n1 1 -2147483649\n0 0 0\n", Refusal(6, 3)),
    (b"7\n1 1 M\n1 1 10000000000\n0 0 0\n", Refusal(3, 3)),
    # owners, where there is a word and where there is none
    *((PLAN_D + after, refusal) for after, refusal in AFTER_D),
    (b"7\n0 0 M\n0 0 0\nowners \n", Refusal(3, 4)),
    (b"7\n0 0 M\n0 0 0\nowners 0\n", Refusal(3, 4)),
    (b"7\n0 0 M\n0 0 0\nowners 256\n", Refusal(3, 4)),
    (b"7\n0 0 M\n0 0 0\nowners", Refusal(3, 4)),
    (b"7\n0 0 M\n0 0 0\nowners\nowners\n", Refusal(3, 5)),
    # owners are judged after all of the plan, and stand nowhere else
    (PLAN_D.replace(b"2 4 1\n", b"2 6 1\n") + b"owners 256 1 2 2 0\n", Refusal(4, 6)),
    (b"7\n1 1 M\nowners 1\n0 0 0\n", Refusal(3, 3)),
    (b"7\nowners 1\n1 1 M\n0 0 0\n", Refusal(3, 2)),
    (b"7\n1 1 M\n1 1 1\nowners 1\n", Refusal(3, 4)),
)

QUESTIONS = (
    ((0, 0, 0, 0, 1), b"open 0 0 0 0 5\n"),
    ((0, 0, 1, 6, 0), b"open 0 6 0 3 0\n"),
    ((1, 0, 0, 0, 0), b"closed 3 2 1 1 0\n"),
)

# From OTHER_D, row 1 is row 2 less twice row 0: of x, 6 at row 1 is 6 at row 2 and -12, which is
# 2, at row 0. And z is 1 at column 1: a half of what it was, which is 4 times as much.
ANSWERS = (
    ((0, 0, 0, 0, 1), 1, (0, 0, 0, 0, 5), (0, 0, 0, 0, 5)),
    ((0, 0, 1, 6, 0), 1, (0, 6, 0, 3, 0), (2, 0, 6, 3, 0)),
    ((1, 0, 0, 0, 0), 0, (3, 2, 1, 1, 0), (5, 1, 4, 4, 0)),
)

SUMS = (
    # Two closed questions that add up to an open one.
    (
        *(1, (0, 0, 1, 0, 0), b"closed 3 2 1 1 0\n"),
        *(1, (0, 0, 0, 6, 0), b"closed 3 2 1 1 0\n"),
        b"open 0 6 0 3 0\n",
    ),
    # Two open ones: x adds up modulo 7.
    (
        *(3, (0, 0, 0, 0, 1), b"open 0 0 0 0 5\n"),
        *(2, (0, 0, 1, 6, 0), b"open 0 6 0 3 0\n"),
        b"open 0 5 0 6 1\n",
    ),
    # An open one and a closed one, whichever comes first: z stays.
    (
        *(3, (0, 0, 0, 0, 1), b"open 0 0 0 0 5\n"),
        *(2, (1, 0, 0, 0, 0), b"closed 3 2 1 1 0\n"),
        b"closed 3 2 1 1 0\n",
    ),
    (
        *(5, (1, 0, 0, 0, 0), b"closed 3 2 1 1 0\n"),
        *(1, (0, 0, 1, 6, 0), b"open 0 6 0 3 0\n"),
        b"closed 3 2 1 1 0\n",
    ),
)

ASKED = (
    (PLAN_D + b"0 0 0 0 1\n", b"open 0 0 0 0 5\n"),
    (OWNED_D + b"0 0 0 0 1\n", b"open 0 0 0 0 5\n"),
    (OWNED_D + b"0\n0\n1\n6\n0\n", b"open 0 6 0 3 0\n"),
    (OWNED_D + b"1 0 0 0 0\n", b"closed 3 2 1 1 0\n"),
    (OWNED_D + b"0 0\n1 6\n0\n", b"open 0 6 0 3 0\n"),
    (b"7\n0 0 M\n0 0 0\nowners\n", b"open\n"),
    (b"7\n0 1 M\n0 0 0\nowners 0\n1\n", b"closed 1\n"),
    # The line of owners is the plan's, whatever stands in it.
    (OWNED_D, b"refused 9 at 0\n"),
    (PLAN_D + b"owners 1 1 2 2 0", b"refused 3 at 15\n"),
    (PLAN_D + b"owners 1 1 2 2 0 0 0 0 0 1\n", b"refused 3 at 15\n"),
    (PLAN_D + b"owners 0 0 0 0\n0 0 0 0 1\n", b"refused 3 at 15\n"),
    (PLAN_D + b"owners\n0 0 0 0 1\n", b"refused 3 at 15\n"),
    (PLAN_D + b"owners", b"refused 3 at 15\n"),
    (PLAN_D + b"owners 1 1 2 2 256\n0 0 0 0 1\n", b"refused 16 at 15\n"),
    (PLAN_D + b"owners 256 1 2 2 01\n0 0 0 0 1\n", b"refused 3 at 15\n"),
    # The last line has no line feed: it is refused, after the plan and before the values.
    (PLAN_D + b"0 0 0 0 1", b"refused 3 at 15\n"),
    (PLAN_D + b"0", b"refused 3 at 15\n"),
    (PLAN_D + b"x 9", b"refused 3 at 15\n"),
    (PLAN_D + b" ", b"refused 3 at 15\n"),
    (PLAN_D + b"\n0", b"refused 3 at 16\n"),
    (OWNED_D + b"1 0 0 0 0", b"refused 3 at 16\n"),
    (OWNED_D + b"0\n0\n1\n6\n0", b"refused 3 at 20\n"),
    (OWNED_D + b"0 0\n1 6\n0", b"refused 3 at 18\n"),
    (OWNED_D + b"owners", b"refused 3 at 16\n"),
    (PLAN_D + b"owner", b"refused 3 at 15\n"),
    (PLAN_D + b"owners 1 1 2 2 256\n0 0 0 0 1", b"refused 16 at 15\n"),
    (PLAN_D + b"owners 1 1 2 2\n0 0 0 0 1", b"refused 3 at 15\n"),
    (PLAN_D.replace(b"2 4 1\n", b"2 6 1\n") + b"0 0 0 0 1", b"refused 4 at 6\n"),
    (PLAN_D.replace(b"7", b"8", 1) + b"0 0 0 0 1", b"refused 1 at 0\n"),
    (b"7\n0 0 M\n0 0 0\n0", b"refused 3 at 4\n"),
    (b"7\n0 0 M\n0 0 0\n", b"open\n"),
    (b"7\n0 0 M\n0 0 0\n\n", b"open\n"),
    (b"7\n0 0 M\n0 0 0", b"refused 3 at 3\n"),
    # Any other line is the question's, and so is a second one: six values, or five.
    (OWNED_D + b"owners 1 1 2 2 0\n", b"refused 9 at 0\n"),
    (OWNED_D + b"owners 1 1 2 2\n", b"refused 15 at 1\n"),
    (PLAN_D + b"ownersx 0 0 0 1\n", b"refused 15 at 1\n"),
    (PLAN_D + b"owners\t 0 0 0 1\n", b"refused 15 at 1\n"),
    (PLAN_D + b"0 owners 0 0 1\n", b"refused 15 at 2\n"),
    (PLAN_D + b"0 0 0 0 1\nowners 1 1 2 2 0\n", b"refused 9 at 0\n"),
)

# Of the first, cut within its last line, 1, 12, 123 or 1234 would be another question.
CUT = (
    b"65521\n1 1 M\n1 1 3\n0 0 0\n12345\n",
    b"13\n2 2 M\n2 1 -1\n1 2 12\n0 0 0\nowners 10 200\n11 12\n",
    b"13\n2 2 M\n2 1 -1\n1 2 12\n0 0 0\nowners 10 200\n11\n12\n",
)

NO_WORDS = b"7\n2 0 M\n0 0 0\n"
# Slots that hear one word: every two of them contradict each other unless they are the same.
ONE_WORD = b"7\n3 1 M\n1 1 1\n2 1 1\n3 1 1\n0 0 0\n"

WORDS = (
    # Of plan D slot 3 is twice slot 1 and slot 2, and word 4 is no pivot.
    (PLAN_D, (1, 2, 4, 3, 5), b"words 4 3 0 0 4\n"),
    (PLAN_D, (1, 2, 5, 3, 5), b"contradiction 5 6 1 0 0\n"),
    (PLAN_D, (0, 0, 0, 0, 0), b"words 0 0 0 0 0\n"),
    (PLAN_D, (0, 0, 0, 0, 1), b"words 0 0 0 0 5\n"),
    (PLAN_D, (1, 0, 0, 0, 0), b"contradiction 5 6 1 0 0\n"),
    (PLAN_D, (0, 0, 6, 0, 0), b"contradiction 5 6 1 0 0\n"),
    # What word 4 alone gives: less (3, 2, 1, 1, 0), which gives nothing, it is 0 there.
    (PLAN_D, (0, 1, 1, 0, 0), b"words 4 5 6 0 0\n"),
    # Slot 5 is 4 times slot 1, 3 times slot 2, and twice slots 3 and 4; slot 6 is slot 1 less
    # slot 2; slot 8 hears nothing.
    (EIGHT_LEFT, (0, 0, 0, 0, 1, 0, 0, 0, 0, 0), b"contradiction 3 4 5 5 1 0 0 0 0 0\n"),
    (EIGHT_LEFT, (0, 0, 0, 0, 1, 2, 0, 3, 0, 0), b"contradiction 3 4 5 5 1 0 0 0 0 0\n"),
    (EIGHT_LEFT, (1, 0, 0, 0, 4, 2, 0, 3, 0, 0), b"contradiction 6 1 0 0 0 1 0 0 0 0\n"),
    (EIGHT_LEFT, (1, 0, 0, 0, 4, 1, 0, 3, 0, 0), b"contradiction 0 0 0 0 0 0 0 1 0 0\n"),
    (ONE_WORD, (4, 4, 4), b"words 4\n"),
    (ONE_WORD, (1, 2, 3), b"contradiction 6 1 0\n"),
    (ONE_WORD, (1, 1, 3), b"contradiction 6 0 1\n"),
    # No word: a slot has nothing but 0.
    (NO_WORDS, (0, 0), b"words\n"),
    (NO_WORDS, (0, 2), b"contradiction 0 1\n"),
    (NO_WORDS, (3, 2), b"contradiction 1 0\n"),
    # Another number of values than slots, and values that are no residues.
    (PLAN_D, (1, 2, 4, 3), b"refused 9 at 0\n"),
    (PLAN_D, (1, 2, 4, 3, 5, 0), b"refused 9 at 0\n"),
    (PLAN_D, (7, 2, 4, 3), b"refused 9 at 0\n"),
    (PLAN_D, (7, 2, 4, 3, 5), b"refused 15 at 1\n"),
    (PLAN_D, (1, 2, 4, 9, 7), b"refused 15 at 4\n"),
    (PLAN_D, (1, 2, 4, 3, 2**32 + 5), b"refused 15 at 5\n"),
    (PLAN_D, (1, 2, 4, 3, 2**64 + 5), b"refused 15 at 5\n"),
    (ONE_WORD, (3,), b"refused 9 at 0\n"),
    (b"7\n0 3 M\n0 0 0\n", (0,), b"refused 9 at 0\n"),
)

WORDS_ASKED = (
    (PLAN_D + b"1 2 4 3 5\n", b"words 4 3 0 0 4\n"),
    (PLAN_D + b"1\n2\n5\n3\n5\n", b"contradiction 5 6 1 0 0\n"),
    (OWNED_D + b"1 2 4 3 5\n", b"words 4 3 0 0 4\n"),
    (PLAN_D + b"1\n2\n5\n3\n5", b"refused 3 at 19\n"),
    (OWNED_D + b"1 2 4 3 5", b"refused 3 at 16\n"),
    (PLAN_D + b"owners 1 1 2 2 256\n1 2 4 3 5", b"refused 16 at 15\n"),
    (OWNED_D + b"1 2 5 3 5\n", b"contradiction 5 6 1 0 0\n"),
    (b"7\n0 0 M\n0 0 0\n", b"words\n"),
    (b"7\n0 3 M\n0 0 0\n", b"words 0 0 0\n"),
    (b"7\n0 3 M\n0 0 0\nowners 1 0 2\n", b"words 0 0 0\n"),
    (b"7\n0 3 M\n0 0 0\n0\n", b"refused 9 at 0\n"),
    (NO_WORDS + b"0 0\n", b"words\n"),
    (NO_WORDS + b"owners\n0 2\n", b"contradiction 0 1\n"),
    (PLAN_D, b"refused 9 at 0\n"),
    (OWNED_D, b"refused 9 at 0\n"),
    (PLAN_D + b"1 2 4 3\n", b"refused 9 at 0\n"),
    (PLAN_D + b"1 2 4 3 5 \n", b"refused 9 at 0\n"),
    (PLAN_D + b"1 2 4 3 05\n", b"refused 15 at 5\n"),
    (PLAN_D + b"1 -2 4 3 5\n", b"refused 15 at 2\n"),
    (PLAN_D + b"1 2 4294967298 3 5\n", b"refused 15 at 3\n"),
    (PLAN_D + b"owners 1 1 2 2 0 1 2 4 3 5\n", b"refused 3 at 15\n"),
    (PLAN_D + b"owners 1 1 2 2 256\n1 2 4 3 5\n", b"refused 16 at 15\n"),
    # The verb does not stand in the text: five values, or six.
    (PLAN_D + b"words 2 4 3 5\n", b"refused 15 at 1\n"),
    (PLAN_D + b"words 1 2 4 3 5\n", b"refused 9 at 0\n"),
)

SETTINGS = (
    # Word 4 is the one that is no pivot. By slot 2 word 2 is -5 times it, so by slot 4 word 3 is
    # the same as it, and by slot 1 word 1 is -4 times it. By slot 5 word 5 is 0.
    (PLAN_D, b"free 1\nsetting 3 2 1 1 0\n"),
    (BY_COLUMN_D, b"free 1\nsetting 3 2 1 1 0\n"),
    (OWNED_D, b"free 1\nsetting 3 2 1 1 0\n"),
    # No values are taken: what follows the plan is malformed.
    (PLAN_D + b"0 0 0 0 1\n", b"refused 3 at 15\n"),
    (OWNED_D + b"0 0 0 0 1\n", b"refused 3 at 16\n"),
    (PLAN_D + b"settings\n", b"refused 3 at 15\n"),
    (NO_WORDS + b"0 0\n", b"refused 3 at 4\n"),
    (NO_WORDS + b"\n", b"refused 3 at 4\n"),
    # The pivot stands between the others; nothing hears word 1.
    (b"7\n1 3 M\n1 2 2\n1 3 1\n0 0 0\n", b"free 2\nsetting 1 0 0\nsetting 0 3 1\n"),
    (
        b"7\n2 4 M\n1 1 1\n1 3 2\n2 2 1\n2 3 3\n2 4 1\n0 0 0\n",
        b"free 2\nsetting 5 4 1 0\nsetting 0 6 0 1\n",
    ),
    # Words 1, 2 and 4 are the pivots.
    (
        b"7\n3 4 M\n1 1 1\n2 1 1\n2 2 1\n2 3 1\n3 1 1\n3 2 1\n3 4 1\n0 0 0\n",
        b"free 1\nsetting 0 6 1 1\n",
    ),
    # Two slots that are the same; modulo 2 a word is its own opposite.
    (
        b"2\n2 3 M\n1 1 1\n1 2 1\n1 3 1\n2 1 1\n2 2 1\n2 3 1\n0 0 0\n",
        b"free 2\nsetting 1 1 0\nsetting 1 0 1\n",
    ),
    # Modulo the largest: the opposite of a half, and -1.
    (
        b"4294967291\n1 3 M\n1 1 2\n1 2 1\n1 3 2\n0 0 0\n",
        b"free 2\nsetting 2147483645 1 0\nsetting 4294967290 0 1\n",
    ),
    # No slot, or none that hears a word: every word is free.
    (b"7\n0 2 M\n0 0 0\n", b"free 2\nsetting 1 0\nsetting 0 1\n"),
    (b"7\n0 2 M\n0 0 0\nowners 0 3\n", b"free 2\nsetting 1 0\nsetting 0 1\n"),
    (b"7\n2 2 M\n1 2 7\n0 0 0\n", b"free 2\nsetting 1 0\nsetting 0 1\n"),
    (b"7\n0 1 M\n0 0 0\n", b"free 1\nsetting 1\n"),
    # Every word is a pivot, or there is none.
    (b"7\n2 2 M\n2 1 1\n1 2 1\n0 0 0\n", b"free 0\n"),
    (ONE_WORD, b"free 0\n"),
    (EIGHT_LEFT, b"free 0\n"),
    (b"7\n0 0 M\n0 0 0\n", b"free 0\n"),
    (NO_WORDS, b"free 0\n"),
    (NO_WORDS + b"owners\n", b"free 0\n"),
    # The other refusals of reading.
    (b"", b"refused 3 at 1\n"),
    (PLAN_D[:-1], b"refused 3 at 14\n"),
    (PLAN_D.replace(b"7", b"8", 1), b"refused 1 at 0\n"),
    (b"7\n1 2049 M\n0 0 0\n", b"refused 2 at 0\n"),
    (PLAN_D.replace(b"2 4 1\n", b"2 6 1\n"), b"refused 4 at 6\n"),
    (b"7\n2 2 M\n1 2 7\n1 2 1\n0 0 0\n", b"refused 5 at 4\n"),
    (b"7\n1 1 M\n1 1 2147483648\n0 0 0\n", b"refused 6 at 3\n"),
    (PLAN_D + b"owners 1 1 2 2 256\n", b"refused 16 at 15\n"),
)

# How many lists of slots some setting gives, and how many settings give each of them; questions with
# the values that these settings give them: how many, and by how many settings each.
ODDS = {
    "plan D": (
        *(PLAN_D, 2_401, 7),
        *(((0, 0, 0, 0, 1), 1, 7), ((0, 0, 1, 6, 0), 1, 7), ((1, 0, 0, 0, 0), 7, 1)),
    ),
    # The one setting is the empty one, also modulo the largest.
    "no slots and no words": (b"7\n0 0 M\n0 0 0\n", 1, 1, ((), 1, 1)),
    "no words": (NO_WORDS, 1, 1, ((), 1, 1)),
    "no words, largest modulus": (b"4294967291\n2 0 M\n0 0 0\n", 1, 1, ((), 1, 1)),
    # Without slots one list, the empty one; slots that hear nothing are always 0.
    "no slots": (b"7\n0 2 M\n0 0 0\n", 1, 49, ((0, 0), 1, 49), ((1, 0), 7, 7), ((3, 4), 7, 7)),
    "no slots, modulo 2": (b"2\n0 2 M\n0 0 0\n", 1, 4, ((0, 0), 1, 4), ((1, 1), 2, 2)),
    "rank 0": (b"7\n2 2 M\n1 2 7\n0 0 0\n", 1, 49, ((0, 0), 1, 49), ((0, 1), 7, 7)),
    # The slots fix every word.
    "rank m": (b"7\n2 2 M\n2 1 1\n1 2 1\n0 0 0\n", 49, 1, ((0, 0), 1, 1), ((3, 4), 1, 1)),
    "rank m, more slots": (ONE_WORD, 7, 1, ((0,), 1, 1), ((5,), 1, 1)),
    "rank m, modulo 2": (b"2\n1 1 M\n1 1 1\n0 0 0\n", 2, 1, ((1,), 1, 1)),
    # Two slots that are the same: both 0 or both 1.
    "modulo 2": (
        *(b"2\n2 3 M\n1 1 1\n1 2 1\n1 3 1\n2 1 1\n2 2 1\n2 3 1\n0 0 0\n", 2, 4),
        *(((1, 1, 1), 1, 4), ((1, 0, 0), 2, 2), ((0, 1, 1), 2, 2)),
    ),
    # As many settings as are tried, and as many values: each by one setting alone.
    "most settings": (
        *(b"2\n1 12 M\n1 1 1\n1 12 1\n0 0 0\n", 2, 2_048),
        *(((1, *(0,) * 10, 1), 1, 2_048), ((1,) * 12, 2, 1_024), ((0, *(1,) * 10, 0), 2, 1_024)),
    ),
    "most values": (b"4093\n0 1 M\n0 0 0\n", 1, 4_093, ((0,), 1, 4_093), ((4_092,), 4_093, 1)),
}

# Which factor, the place in its list of values, the new value, the refusal.
EDITED = (
    ("L", 3, 4, Refusal(14, 3)),
    ("U", 0, 2, Refusal(13)),
)

ROOMS = (
    (6, 7, None),
    (4, 7, Refusal(7, 2)),
    (6, 6, Refusal(7, 4)),
)
