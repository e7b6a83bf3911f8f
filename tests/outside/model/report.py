"""The report program's output (document 01, "Report and cases").

    report       the output for a text
    report_lines the same where nothing is refused, else the refusal
    open_line    the line of an open word (document 02, slip 4)
    totals       its last line (document 02, slip 1)
    stages       reading, then factoring, with the rooms that the programs and the calls lend
    printed      lines as a program prints them
    refused      the one line of a refusal
"""

from functools import lru_cache

from .factors import factor
from .limits import GREATEST_ENTRIES
from .plan_text import read_plan
from .questions import open_words
from .refusals import QUESTION_VALUE, ROOM, Refusal


def report(text):
    """Sizes, rank line, open words and totals, or the one line of a refusal."""
    result = report_lines(text)
    return refused(result) if isinstance(result, Refusal) else result


@lru_cache(maxsize=128)  # as with reading
def report_lines(text):
    result = stages(text)
    if isinstance(result, Refusal):
        return result
    plan, (factors, structural) = result
    lower, upper = len(factors.L.columns), len(factors.U.columns)
    opened = open_words(plan, factors)
    return printed(
        f"modulus {plan.p} slots {plan.n} words {plan.m} entries {len(plan.rows.columns)}",
        f"rank {factors.r} structural {structural} L {lower} U {upper}",
        *(open_line(plan, column) for column in opened),
        totals(plan, factors, opened),
    )


def open_line(plan, column):
    """The word, and whose it is; a pad is nobody's, and its owner is 0."""
    return f"open {column + 1} owner {plan.owners[column]}"


def totals(plan, factors, opened):
    """How many words are open and how many are closed; both are counted."""
    closed = set(range(plan.m)) - set(opened)
    return f"totals open {len(opened)} closed {len(closed)}"


def stages(text):
    """The plan and what factoring returned, or the refusal of either."""
    plan = read_plan(text, GREATEST_ENTRIES)
    if isinstance(plan, Refusal):
        return plan
    factored = factor(plan, GREATEST_ENTRIES, GREATEST_ENTRIES)
    return factored if isinstance(factored, Refusal) else (plan, factored)


def printed(*lines):
    return "".join(line + "\n" for line in lines).encode()


def refused(refusal):
    """In print a row (7, by factoring alone: no text has too many entries) and the
    index of a value count from 1; a line does so already."""
    counted = refusal.detail + (refusal.number in (ROOM, QUESTION_VALUE))
    return printed(f"refused {refusal.number} at {counted}")
