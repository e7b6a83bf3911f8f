"""The model's ranks beside an independent library's, where one is installed.

The peers of the benchmark read many matrices from standard input and print
`rank seconds` for each (bench/peers/matrix.h).

    rank_differences   the plans on which a peer finds another rank
"""

import subprocess
from random import Random

from generate.left import plan_in_turn
from model.factors import factor
from model.storage import row
from sweeps import AMPLE

NOT_TAKEN = "-"


def _peer_form(plan):
    lines = [f"{plan.p} {plan.n} {plan.m} {len(plan.rows.columns)}"]
    for i in range(plan.n):
        lines += [f"{i} {j} {v}" for j, v in row(plan.rows, i).items()]
    return "\n".join(lines) + "\n"


def rank_differences(program, seed, count):
    """(index, our rank, the peer's rank) over the same random plans that the
    programs are compared on; large ones are left out, peers take them full, and
    so are those whose modulus the peer does not take."""
    plans = []
    for index in range(count):
        plan = plan_in_turn(Random(f"plan {seed} {index}"), index)
        if plan.n * plan.m <= 40_000:
            plans.append((index, plan))
    forms = "".join(_peer_form(plan) for _, plan in plans)
    done = subprocess.run([program, "1"], input=forms.encode(), capture_output=True, check=True)
    lines = done.stdout.decode().splitlines()
    for (index, plan), line in zip(plans, lines, strict=True):
        ours, theirs = factor(plan, AMPLE, AMPLE).factors.r, line.split()[0]
        if theirs not in (str(ours), NOT_TAKEN):
            yield index, ours, theirs
