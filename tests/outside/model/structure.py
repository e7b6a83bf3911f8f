"""The structural pivots (document 01, "Factors", pivot rule 1; slip 9 of the change requests).

A pivot is a row and a column. One pivot leads to another when its row has an
entry in the other's column; a cycle is a chain that comes back. Rows are
dictionaries from column to value; `pivots` has the row of each pivot column.

    leading      document 01's own choice: a row for each leftmost column
    led_to       the pivot rows to which a row leads
    reached      those to which it leads at once or through others
    selected     document 01's choice, and what can be added without a cycle
    ordered      pivot rows in their order
    structural   the whole rule
"""

from typing import NamedTuple

from .storage import row


class Pivot(NamedTuple):
    row: int
    column: int


def leading(rows):
    """For each leftmost column the row with fewest entries, then with the
    lowest number."""
    chosen = {}
    for i, cells in enumerate(rows):
        if cells:
            column = min(cells)
            candidate = (len(cells), i)
            chosen[column] = min(chosen.get(column, candidate), candidate)
    return {column: i for column, (_, i) in chosen.items()}


def led_to(rows, i, pivots):
    """The other pivot rows in whose columns row i has an entry."""
    return {pivots[column] for column in rows[i] if column in pivots} - {i}


def reached(rows, i, pivots):
    """The pivot rows to which row i leads, at once or through others: down
    every chain, from each row once."""
    found = set()
    to_visit = [i]
    while to_visit:
        new = led_to(rows, to_visit.pop(), pivots) - found
        found |= new
        to_visit += new
    return found


def selected(rows):
    """The rows without a pivot by number: each takes its lowest-numbered entry
    in an unused column whose choice closes no cycle, or none. To which pivots
    a row leads does not depend on its own column; so a choice closes a cycle
    exactly if one of the rows reached has an entry in that column."""
    pivots = leading(rows)
    taken = set(pivots.values())
    for i, cells in enumerate(rows):
        if i in taken:
            continue
        after = reached(rows, i, pivots)
        for column in sorted(cells):
            if column not in pivots and not any(column in rows[k] for k in after):
                pivots[column] = i
                break
    return pivots


def ordered(rows, pivots):
    """Always the lowest-numbered row to which no row still waiting leads."""
    before = {i: set() for i in pivots.values()}
    for i in before:
        for k in led_to(rows, i, pivots):
            before[k].add(i)
    waiting, order = sorted(before), []
    placed = set()
    while waiting:
        i = next(i for i in waiting if before[i] <= placed)
        waiting.remove(i)
        placed.add(i)
        order.append(i)
    return order


def structural(plan):
    """The structural pivots of a plan, in order."""
    rows = [row(plan.rows, i) for i in range(plan.n)]
    pivots = selected(rows)
    column_of = {i: column for column, i in pivots.items()}
    return [Pivot(i, column_of[i]) for i in ordered(rows, pivots)]
