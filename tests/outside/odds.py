"""Even odds by the programs: all settings of a plan, counted, beside the rank that the report program
prints and the verdicts of the question program (slip 8 of the change requests). The model has no
part in what is counted.

    has_even_groups, has_even_values, has_one_value   the three sentences
    bears_out        the second or the third, by the verdict
    worked_odds      the plans that are worked, with their questions
    fixed_odds       the same plans with more questions
    random_odds      a random tiny plan with its questions
    odds_lines       what the programs print for plans and questions
    verdict_counts   how many questions they call open, and how many closed
    odds_differences     lines that the numbers of settings do not bear out
"""

import re
from collections import Counter
from random import Random

from cases import Case
from compare import Difference
from generate.odds import Odds, all_questions, odds_of_plan, odds_plan
from model.enumeration import settings_by_slots, value_counts
from model.limits import GREATEST_ENTRIES
from model.plan_text import read_plan
from worked import ODDS

RANK = re.compile(rb"(?m)^rank ([0-9]{1,4}) ")
VERDICT = re.compile(rb"(open|closed)( [0-9]+)*\n")


def has_even_groups(plan, groups, rank):
    """Each has p to the power m - r settings. Both sides are multiplied by p to the
    power r: a wrong rank may pass m."""
    return all(len(group) * plan.p**rank == plan.p**plan.m for group in groups.values())


def has_even_values(plan, groups, rank, y):
    """In each group each of the p values is taken by p to the power m - r - 1
    settings; so where r is m, by none."""
    return all(
        len(counts) == plan.p
        and all(count * plan.p ** (rank + 1) == plan.p**plan.m for count in counts.values())
        for counts in value_counts(plan.p, groups, y).values()
    )


def has_one_value(plan, groups, y):
    return all(len(counts) == 1 for counts in value_counts(plan.p, groups, y).values())


def bears_out(plan, groups, rank, verdict, y):
    """Of a verdict that is none, no."""
    if verdict == "open":
        return has_one_value(plan, groups, y)
    return verdict == "closed" and has_even_values(plan, groups, rank, y)


def worked_odds():
    found = []
    for name, (text, _, _, *asked) in ODDS.items():
        plan, questions = read_plan(text, GREATEST_ENTRIES), tuple(y for y, _, _ in asked)
        found.append(Odds(plan, text, questions, f"odds: {name}"))
    return found


def fixed_odds(seed):
    rng = Random(f"odds {seed}")
    return [
        odds._replace(questions=(*dict.fromkeys(odds.questions + all_questions(rng, odds.plan)),))
        for odds in worked_odds()
    ]


def random_odds(seed, index):
    rng = Random(f"odds {seed} {index}")
    return odds_of_plan(rng, odds_plan(rng), f"seed {seed} odds {index}")


def _report_case(odds):
    return Case("report", odds.text, origin=odds.origin)


def _ask_case(odds, y):
    return Case("ask", odds.text, question=y, origin=odds.origin)


def _cases(odds):
    return [_report_case(odds), *(_ask_case(odds, y) for y in odds.questions)]


def odds_lines(several, programs):
    """By each program what it answers."""
    cases = [case for odds in several for case in _cases(odds)]
    lines = {}
    for program in programs:
        asked = [case for case in cases if case.call in program.calls]
        lines.update(zip(asked, program.results(asked)))
    return lines


def verdict_counts(lines):
    found = Counter(_verdict(line) for case, line in lines.items() if case.call == "ask")
    return found["open"], found["closed"]


def odds_differences(several, lines):
    """Wanted is what is counted. Where a report has another rank, or none, its
    questions are not looked at: what they tell depends on it."""
    for odds in several:
        groups = settings_by_slots(odds.plan)
        report = lines[_report_case(odds)]
        rank = _rank(report)
        if rank is None or not has_even_groups(odds.plan, groups, rank):
            yield _report_difference(odds, groups, rank, report)
            continue
        for y in odds.questions:
            line = lines[_ask_case(odds, y)]
            if not bears_out(odds.plan, groups, rank, _verdict(line), y):
                yield _ask_difference(odds, groups, rank, y, line)


def _report_difference(odds, groups, rank, report):
    sizes = sorted({len(settings) for settings in groups.values()})
    wanted = f"settings for each list of slots: {sizes}"
    found = report if rank is None else f"rank {rank}: {odds.plan.p}^{odds.plan.m - rank}"
    return Difference(_report_case(odds), wanted, found)


def _ask_difference(odds, groups, rank, y, line):
    """With the numbers of the first group."""
    plan = odds.plan
    slots, counts = next(iter(value_counts(plan.p, groups, y).items()))
    wanted = f"settings for each value where the slots are {slots}: {dict(counts)}"
    told = {"open": "one value", "closed": f"each value {plan.p}^{plan.m - rank - 1}"}
    verdict = _verdict(line)
    found = line if verdict is None else f"{verdict}, rank {rank}: {told[verdict]}"
    return Difference(_ask_case(odds, y), wanted, found)


def _rank(report):
    """None where nothing is printed as one; that of no plan has five digits."""
    found = isinstance(report, bytes) and RANK.search(report)
    return int(found[1]) if found else None


def _verdict(line):
    found = isinstance(line, bytes) and VERDICT.fullmatch(line)
    return found[1].decode() if found else None
