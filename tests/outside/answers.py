"""Cases of the C calls that report on a plan and answer a question about it.

    answer_case          a question as the call takes it
    report_cases         buffers for the report of a random plan
    answer_cases         questions on a random plan, from its own factors and from certificates
    tiny_answer_cases    questions on a tiny plan, from a foreign set and from its own
    limit_cases          one report and one answer for any text
    refused_certificates plan D's certificate, refused by each number
    worked_answer_cases  plan D: its questions, lengths, values and certificates
    no_room_sets         plans that are refused by 7, with sets from which they are answered
    no_room_cases        cases of both
    report_buffer_cases  every length of a buffer around the worked reports
    fixed_answer_cases   what every run compares
"""

from functools import lru_cache
from itertools import cycle, product
from random import Random

from cases import Case
from generate.certificates import is_small, one_broken, one_that_passes
from generate.edges import lower_edge, upper_edge
from generate.kernel import longest_setting
from generate.plans import EDGES, build, cancelling, dense, low_rank, sparse
from generate.questions import (
    Asked,
    all_lengths,
    any_asked,
    any_residues,
    rightly,
    too_large,
    wrong_lengths,
)
from generate.sets import foreign_set, with_value
from generate.sums import open_question
from generate.texts import damaged_text, plain_text, varied_text
from model.certificate import write
from model.factors import factor
from model.limits import GREATEST_ENTRIES, GREATEST_MODULUS
from model.plan_text import read_plan
from model.refusals import HEADER, PERMUTATION, RANK_BOUND, Refusal
from model.report import report_lines
from worked import (
    ALL_OPEN,
    EARLIER_D,
    EDITED,
    LARGEST_VALUES,
    OTHER_D,
    OWNED_D,
    PLAN_D,
    QUESTIONS,
    REPORTS,
)

NONE = b""  # no certificate
LARGEST_REPORT = 65_536  # bytes: a buffer that holds any report, and is longer than any
LONGER = 70_000
# At which of plan D's words a value is too large.
LARGE_PLACES = ((0,), (1,), (2,), (3,), (4,), (0, 4), (3, 4))


def answer_case(text, certificate, asked, origin):
    return Case(
        "plq_answer",
        text,
        question=asked.y,
        certificate=certificate,
        x_length=asked.x_length,
        z_length=asked.z_length,
        origin=origin,
    )


def _report_length(text):
    """Any, where there is none."""
    lines = report_lines(text)
    return 100 if isinstance(lines, Refusal) else len(lines)


def report_cases(rng, text, origin):
    """As long as the report or one byte shorter; any other; and a damaged text."""
    length = _report_length(text)
    others = (0, 1, length // 2, length + 1, length + rng.randint(2, 300), LARGEST_REPORT, LONGER)
    for size in (length - rng.randint(0, 1), rng.choice(others)):
        yield Case("plq_report", text, buffer_length=size, origin=origin)
    damaged = damaged_text(rng, text)
    yield Case("plq_report", damaged, buffer_length=rng.choice((0, 64, 4_096)), origin=origin)


def answer_cases(rng, plan, text, origin):
    """By own factors and by certificates that pass, by values that are too large, by
    wrong lengths and by broken certificates, two or three of these at once; and now and
    then with a damaged text."""
    factored = factor(plan, GREATEST_ENTRIES, GREATEST_ENTRIES)
    if isinstance(factored, Refusal):
        asked = [(NONE, any_asked(rng, plan)) for _ in range(3)]
        asked += [(rng.randbytes(40), any_asked(rng, plan)) for _ in range(2)]
    else:
        asked = list(_asked(rng, plan, factored.factors))
    for certificate, question in asked:
        yield answer_case(text, certificate, question, origin)
    if rng.random() < 0.5:
        certificate, _ = rng.choice(asked)
        damaged = damaged_text(rng, text)
        yield answer_case(damaged, certificate, any_asked(rng, plan), origin)


def _asked(rng, plan, factors):
    """Certificates and questions; fewer for a large plan, of which one set is handed over."""
    held = [one_that_passes(rng, plan, factors) for _ in range(2 if is_small(plan) else 1)]
    passes = [write(plan, one) for one in held]
    broken = [one_broken(rng, plan, one) for one in held]
    yield NONE, rightly(plan, any_residues(rng, plan))
    yield passes[0], rightly(plan, open_question(rng, plan))
    yield broken[0], rightly(plan, any_residues(rng, plan))
    yield rng.choice((NONE, passes[0])), rightly(plan, too_large(rng, plan))
    lengths = wrong_lengths(rng, plan, any_residues(rng, plan))
    yield rng.choice((NONE, passes[0], broken[0])), lengths
    for other in passes[1:]:
        yield other, rightly(plan, any_residues(rng, plan))
    for other in broken[1:]:
        yield other, any_asked(rng, plan)


def tiny_answer_cases(rng, plan, text, questions, origin):
    """In turn by a foreign set and by none."""
    certificates = cycle((write(plan, foreign_set(rng, plan)), NONE))
    for certificate, y in zip(certificates, questions):
        yield answer_case(text, certificate, rightly(plan, y), origin)


def limit_cases(text):
    """A report into the largest buffer, and the question of zeros; where the text is
    refused, a question whose lengths fit no plan, with bytes for a certificate and without."""
    yield Case("plq_report", text, buffer_length=LARGEST_REPORT, origin="worked or limit")
    plan = read_plan(text, GREATEST_ENTRIES)
    if isinstance(plan, Refusal):
        for certificate in (NONE, b"PLQ"):
            yield answer_case(text, certificate, Asked((0, 1), 1, 3), "worked or limit")
    else:
        yield answer_case(text, NONE, rightly(plan, (0,) * plan.m), "worked or limit")


def refused_certificates(plan, factors):
    """Plan D's with a byte more, with one row only, with a rank of 6, and as document 01
    edits them: one for each of 10 to 14, with the refusal."""
    two_more = factors.U._replace(starts=(0, 0, *factors.U.starts))
    return [
        (write(plan, factors) + b"\0", Refusal(HEADER)),
        (write(plan, factors._replace(R=(0,) * plan.n)), Refusal(PERMUTATION)),
        (write(plan, factors._replace(U=two_more, r=factors.r + 2)), Refusal(RANK_BOUND)),
        *((write(plan, with_value(factors, *edit)), refusal) for *edit, refusal in EDITED),
    ]


def worked_answer_cases(rng):
    """From no certificate, from the own one, from worked and random foreign ones and from
    broken ones: the worked questions, p at each place, every length around the right ones,
    with values that are too large and without; and every byte of the own certificate
    changed."""
    plan = read_plan(PLAN_D, GREATEST_ENTRIES)
    factors = factor(plan, GREATEST_ENTRIES, GREATEST_ENTRIES).factors
    own = write(plan, factors)
    foreign = [EARLIER_D, OTHER_D, *(foreign_set(rng, plan) for _ in range(4))]
    broken = [certificate for certificate, _ in refused_certificates(plan, factors)]
    questions = [y for y, _ in QUESTIONS]
    large = [tuple(plan.p * (j in places) for j in range(plan.m)) for places in LARGE_PLACES]
    asked = [rightly(plan, y) for y in (*questions, *large)]
    for text in (PLAN_D, OWNED_D):
        for certificate in (NONE, own, *(write(plan, held) for held in foreign), *broken):
            for question in asked:
                yield answer_case(text, certificate, question, "plan D")
    for certificate in (NONE, own, broken[0], broken[-1]):
        for y in (questions[0], questions[2], large[0]):
            for question in all_lengths(plan, y):
                yield answer_case(PLAN_D, certificate, question, "plan D lengths")
    for place in range(len(own)):
        changed = own[:place] + bytes([own[place] ^ rng.randint(1, 255)]) + own[place + 1 :]
        yield answer_case(PLAN_D, changed, rng.choice(asked), f"plan D byte {place}")


def _edge_cases(rng):
    """Small plans without slots or words, modulo 2 and modulo the largest: any questions,
    and every length around the right ones, which is often 0."""
    for p, n, m in EDGES:
        origin = f"answers {p} {n} {m}"
        plan = build(rng, dense, p, n, m)
        factors = factor(plan, GREATEST_ENTRIES, GREATEST_ENTRIES).factors
        text = varied_text(rng, plan)
        for certificate in (NONE, write(plan, factors), write(plan, foreign_set(rng, plan))):
            for question in all_lengths(plan, any_residues(rng, plan)):
                yield answer_case(text, certificate, question, origin)
            for _ in range(3):
                yield answer_case(text, certificate, any_asked(rng, plan), origin)
        for _ in range(4):
            broken = one_broken(rng, plan, factors)
            yield answer_case(text, broken, any_asked(rng, plan), origin)


def _largest_modulus_cases(rng):
    """Every question of 0, 1, p - 1 and p, from no certificate, an own one and a foreign
    one in turn."""
    plan = read_plan(LARGEST_VALUES, GREATEST_ENTRIES)
    own = factor(plan, GREATEST_ENTRIES, GREATEST_ENTRIES).factors
    certificates = cycle((NONE, write(plan, own), write(plan, foreign_set(rng, plan))))
    for certificate, y in zip(certificates, product((0, 1, plan.p - 1, plan.p), repeat=plan.m)):
        yield answer_case(LARGEST_VALUES, certificate, rightly(plan, y), "largest modulus")


def _medium_cases(rng):
    """More cells than the random plans have whose foreign sets are tried: questions from
    foreign sets, with dependent rows and closed words."""
    for p, kind in ((2, cancelling), (65_521, low_rank), (GREATEST_MODULUS, sparse)):
        plan = build(rng, kind, p, 50, 60)
        text, certificate = varied_text(rng, plan), write(plan, foreign_set(rng, plan))
        for make in (open_question, open_question, any_residues, any_residues):
            yield answer_case(text, certificate, rightly(plan, make(rng, plan)), "medium plans")


@lru_cache(maxsize=1)
def _large_sets():
    """Plans of as many words as there may be, all open or none, with their factors."""
    plans = (read_plan(ALL_OPEN, GREATEST_ENTRIES), longest_setting())
    return [(plan, factor(plan, GREATEST_ENTRIES, GREATEST_ENTRIES).factors) for plan in plans]


def _large_cases(rng):
    """The first word, the last, and a value that is too large at the last."""
    for plan, factors in _large_sets():
        text, zeros = plain_text(plan), (0,) * (plan.m - 1)
        for certificate in (NONE, write(plan, factors)):
            for y in ((1, *zeros), (*zeros, 1), (*zeros, plan.p), open_question(rng, plan)):
                yield answer_case(text, certificate, rightly(plan, y), "many words")


@lru_cache(maxsize=1)
def no_room_sets():
    """Plans that the engine cannot factor within its rooms, with sets that others made."""
    entries = GREATEST_ENTRIES + 1
    plans = (lower_edge(65_521, entries), upper_edge(7, entries))
    return [(plan, factor(plan, 2 * entries, 2 * entries).factors) for plan in plans]


def no_room_cases(rng):
    """7, whatever the lengths and the values, but an answer where a set is handed over."""
    for plan, factors in no_room_sets():
        last = len(factors.L.values) - 1
        changed = with_value(factors, "L", last, factors.L.values[last] % (plan.p - 1) + 1)
        text = plain_text(plan)
        questions = [make(rng, plan) for make in (open_question, any_residues, too_large)]
        asked = [rightly(plan, y) for y in questions]
        asked += [wrong_lengths(rng, plan, y) for y in (questions[0], questions[2])]
        for certificate in (NONE, write(plan, factors), write(plan, changed)):
            for question in asked:
                yield answer_case(text, certificate, question, "no room")
        for size in (0, 100, LARGEST_REPORT):
            yield Case("plq_report", text, buffer_length=size, origin="no room")


def report_buffer_cases():
    """For each worked report, the longest among them, every length around its own, no
    buffer, and more than any report needs."""
    for text, lines in REPORTS:
        length = len(lines)
        for size in (0, 1, length - 2, length - 1, length, length + 1, LARGEST_REPORT, LONGER):
            yield Case("plq_report", text, buffer_length=size, origin="report buffers")


def fixed_answer_cases(seed):
    rng = Random(f"answers {seed}")
    yield from worked_answer_cases(rng)
    yield from _edge_cases(rng)
    yield from _largest_modulus_cases(rng)
    yield from _medium_cases(rng)
    yield from _large_cases(rng)
    yield from no_room_cases(rng)
    yield from report_buffer_cases()
