"""Programs beside the model on worked, kept and random cases.

    plan_cases       all cases of one random plan
    tiny_cases       every question, all slot values and the settings on one tiny plan
    asked_cases      questions that follow a plan and its owners
    cut_cases        texts that are cut off after each of their bytes
    words_cases      the worked slot values
    settings_cases   the worked settings
    fixed_cases      worked cases, limits, sweeps and damages of plan D; those of the C calls that
                     report and answer stand in answers.py
    differences      the cases on which a program and the model differ
"""

from itertools import islice, product
from random import Random
from typing import Any, NamedTuple

from answers import (
    answer_cases,
    fixed_answer_cases,
    limit_cases,
    report_cases,
    tiny_answer_cases,
)
from cases import Case, expected
from generate.certificates import (
    SMALL,
    broken_certificates,
    bytes_changed,
    foreign_certificates,
    is_small,
    resized,
    words_replaced,
)
from generate.edges import edge_texts, lower_edge, upper_edge
from generate.kernel import is_short, longest_setting, mixed_plans, without_slots
from generate.left import plan_in_turn
from generate.plans import EDGES, build, dense, tiny_plan
from generate.sets import with_value
from generate.slots import every_slots, given_slots, longest_lines, slot_values
from generate.texts import (
    damaged_text,
    plain_text,
    question_text,
    random_question,
    values_text,
    varied_text,
)
from model.certificate import write
from model.factors import factor
from model.limits import GREATEST_ENTRIES
from model.plan_text import read_plan
from model.refusals import Refusal
from sweeps import EMPTY, buffer_cases, modulus_cases
from worked import (
    AFTER_D,
    ASKED,
    CUT,
    EARLIER_D,
    EDITED,
    FACTORED,
    LARGE_PRIMES,
    LARGEST_VALUES,
    NO_LARGE_MODULI,
    OWNED_D,
    PLAN_D,
    QUESTIONS,
    REFUSALS,
    REPORTS,
    SETTINGS,
    WORDS,
    WORDS_ASKED,
)

SAMPLE = 24  # bytes or numbers changed in one certificate
FEW = 6  # bytes changed where there are many entries to multiply
MODULI = 66_101  # every number below it is put as a modulus
ANY_CERTIFICATE = 300_000  # bytes, enough for the largest that can be made
ALL_FREE = 300  # words without slots, each with a setting of as many cells


class Difference(NamedTuple):
    case: Case
    wanted: Any
    found: Any


def differences(cases, programs):
    """Each program on the cases that it answers, in the order given."""
    for program in programs:
        answered = [case for case in cases if case.call in program.calls]
        for case, found in zip(answered, program.results(answered)):
            wanted = expected(case)
            if found != wanted:
                yield Difference(case, wanted, found)


def _printed_cases(rng, plan, text, origin):
    """The text and damaged copies of it through both programs."""
    yield Case("report", text, origin=origin)
    yield Case("ask", text, question=random_question(rng, plan), origin=origin)
    yield Case("ask", text + question_text(rng, plan), origin=origin)
    for _ in range(2):
        damaged = damaged_text(rng, text)
        yield Case("report", damaged, origin=origin)
        yield Case("make", damaged, buffer_length=rng.choice((0, 64, 4_096)), origin=origin)
        yield Case("check", damaged, certificate=rng.randbytes(40), origin=origin)
    if rng.random() < 0.25:
        yield Case("ask", damaged, question=random_question(rng, plan), origin=origin)
        yield Case("ask", damaged + question_text(rng, plan), origin=origin)


def _words_case(rng, text, h, origin):
    """Slot values as arguments, or after the plan."""
    if rng.random() < 0.7:
        return Case("words", text, question=h, origin=origin)
    return Case("words", text + values_text(rng, h), origin=origin)


def _words_cases(rng, plan, text, origin):
    """Slot values of every sort, and now and then with a damaged text."""
    for h in slot_values(rng, plan):
        yield _words_case(rng, text, h, origin)
    if rng.random() < 0.15:
        damaged = damaged_text(rng, text)
        yield _words_case(rng, damaged, given_slots(rng, plan), origin)


def _settings_cases(rng, text, origin):
    """For about a third of the texts, and now and then for a damaged one."""
    texts = [text] if rng.random() < 0.35 else []
    if rng.random() < 0.1:
        texts.append(damaged_text(rng, text))
    for asked in filter(is_short, texts):
        yield Case("settings", asked, origin=origin)


def _certificates(rng, plan, factors):
    """Certificates to be checked for a plan; fewer for a large one."""
    own = write(plan, factors)
    yield from resized(rng, own)
    yield from bytes_changed(rng, own, SAMPLE if len(plan.rows.columns) <= SMALL else FEW)
    if not is_small(plan):
        yield own
        return
    yield from foreign_certificates(rng, plan, factors, 2)
    yield from broken_certificates(rng, plan, factors, 6)
    yield from words_replaced(rng, plan, own, SAMPLE)


def _call_cases(rng, plan, text, origin):
    """Making with a buffer about long enough, checking all sorts."""
    factored = factor(plan, GREATEST_ENTRIES, GREATEST_ENTRIES)
    if isinstance(factored, Refusal):
        yield Case("make", text, buffer_length=4_096, origin=origin)
        return
    length = len(write(plan, factored.factors))
    for size in (length + rng.randint(-1, 2), length + rng.randint(0, 100)):
        yield Case("make", text, buffer_length=size, origin=origin)
    for certificate in _certificates(rng, plan, factored.factors):
        yield Case("check", text, certificate=certificate, origin=origin)


def plan_cases(seed, index):
    """All cases of the random plan with this index."""
    rng = Random(f"plan {seed} {index}")
    origin = f"seed {seed} plan {index}"
    plan = plan_in_turn(rng, index)
    text = varied_text(rng, plan)
    yield from _printed_cases(rng, plan, text, origin)
    yield from _call_cases(rng, plan, text, origin)
    yield from _words_cases(rng, plan, text, origin)
    yield from _settings_cases(rng, text, origin)
    yield from report_cases(rng, text, origin)
    yield from answer_cases(rng, plan, text, origin)


def tiny_cases(seed, index, most):
    """Up to `most` questions on a tiny plan, spread over all of them, by the program and by
    the C call, as many slot values, and its settings."""
    rng = Random(f"tiny {seed} {index}")
    origin = f"seed {seed} tiny {index}"
    plan = tiny_plan(rng)
    text = varied_text(rng, plan)
    every = list(product(range(plan.p), repeat=plan.m))
    questions = rng.sample(every, min(most, len(every)))
    for y in questions:
        yield Case("ask", text, question=y, origin=origin)
    for h in every_slots(rng, plan, most):
        yield Case("words", text, question=h, origin=origin)
    yield Case("settings", text, origin=origin)
    yield from tiny_answer_cases(rng, plan, text, questions, origin)


def _plan_d_cases():
    """Document 01's questions and the certificate that was made before slip 9, with
    owners and without; document 01's edits; then every byte of D's certificate
    changed in every way that one bit or all bits make."""
    plan = read_plan(PLAN_D, GREATEST_ENTRIES)
    factors = factor(plan, GREATEST_ENTRIES, GREATEST_ENTRIES).factors
    own = write(plan, factors)
    for text in (PLAN_D, OWNED_D):
        for y, _ in QUESTIONS:
            yield Case("ask", text, question=y, origin="plan D")
        for certificate in (own, write(plan, EARLIER_D)):
            yield Case("check", text, certificate=certificate, origin="plan D")
    yield from asked_cases()
    yield from cut_cases()
    yield from words_cases()
    yield from settings_cases()
    for which, place, value, _ in EDITED:
        edited = with_value(factors, which, place, value)
        yield Case("check", PLAN_D, certificate=write(plan, edited), origin="plan D edited")
    for place in range(len(own)):
        for change in (1, 2, 4, 8, 16, 32, 64, 128, 255):
            changed = own[:place] + bytes([own[place] ^ change]) + own[place + 1 :]
            yield Case("check", PLAN_D, certificate=changed, origin=f"plan D byte {place}")


def asked_cases():
    """Questions by text: the worked ones, and one after each line that may follow
    plan D."""
    for text, _ in ASKED:
        yield Case("ask", text, origin="question by text")
    for after, _ in AFTER_D:
        yield Case("ask", PLAN_D + after + b"0 0 0 0 1\n", origin="question by text")


def cut_cases():
    """By every verb, and by the report."""
    for text in CUT:
        for end in range(len(text) + 1):
            for call in ("report", "ask", "words", "settings"):
                yield Case(call, text[:end], origin=f"cut off after {end} bytes")


def words_cases():
    """As arguments, and after the plan."""
    for text, h, _ in WORDS:
        yield Case("words", text, question=h, origin="worked words")
    for text, _ in WORDS_ASKED:
        yield Case("words", text, origin="words by text")


def settings_cases():
    for text, _ in SETTINGS:
        yield Case("settings", text, origin="worked settings")


def _settings_edge_cases(rng):
    """The other worked plans; plan D and each line that may follow it, of which all is
    the plan's; small plans, with owners and damaged; plans with pivots among the other
    words; the longest line; no slots; and rooms that are too short."""
    texts = [text for text, _ in REPORTS] + [text for text, _, _ in FACTORED]
    texts += [LARGEST_VALUES, *(PLAN_D + after for after, _ in AFTER_D)]
    for p, n, m in EDGES:
        for _ in range(2):
            text = varied_text(rng, build(rng, dense, p, n, m))
            texts += [text, damaged_text(rng, text)]
    texts += [varied_text(rng, plan) for plan in mixed_plans(rng)]
    texts += map(plain_text, (longest_setting(), lower_edge(65_521, GREATEST_ENTRIES + 1)))
    for text in filter(is_short, texts):
        yield Case("settings", text, origin="settings")
    yield Case("settings", plain_text(without_slots(7, ALL_FREE)), origin="settings without slots")


def _words_edge_cases(rng):
    """Slot values of plan D with owners, and after each line that may follow it; on
    small plans; with the longest lines; and where the rooms are too short, which
    comes before another number of values."""
    for h in (h for text, h, _ in WORDS if text == PLAN_D):
        yield Case("words", OWNED_D, question=h, origin="words with owners")
    for after, _ in AFTER_D:
        yield Case("words", PLAN_D + after + b"1 2 4 3 5\n", origin="words by text")
    for p, n, m in EDGES:
        plan = build(rng, dense, p, n, m)
        yield from _words_cases(rng, plan, varied_text(rng, plan), f"words {p} {n} {m}")
    (plan, h), (other, values) = longest_lines(rng)
    after = b" ".join(b"%d" % value for value in values) + b"\n"
    yield Case("words", plain_text(plan), question=h, origin="longest line")
    yield Case("words", plain_text(other) + after, origin="longest line by text")
    plan = lower_edge(65_521, GREATEST_ENTRIES + 1)
    for values in (plan.n, plan.n - 1):
        yield Case("words", plain_text(plan), question=(0,) * values, origin="words, no room")


def _changed_values(factors, p):
    """The set with each of its values raised by 1 modulo p, one at a time."""
    for which in ("L", "U"):
        for place, value in enumerate(getattr(factors, which).values):
            yield with_value(factors, which, place, (value + 1) % p)


def _large_modulus_cases():
    """Moduli past the table of divisors, and a plan modulo the largest."""
    yield from modulus_cases(LARGE_PRIMES + NO_LARGE_MODULI)
    for p in LARGE_PRIMES + NO_LARGE_MODULI:
        yield Case("report", EMPTY % p, origin=f"modulus {p}")
    plan = read_plan(LARGEST_VALUES, GREATEST_ENTRIES)
    factors = factor(plan, GREATEST_ENTRIES, GREATEST_ENTRIES).factors
    yield Case("report", LARGEST_VALUES, origin="largest modulus")
    yield Case("make", LARGEST_VALUES, buffer_length=ANY_CERTIFICATE, origin="largest modulus")
    for held in (factors, *_changed_values(factors, plan.p)):
        yield Case("check", LARGEST_VALUES, certificate=write(plan, held), origin="largest modulus")
    for y in product((0, 1, plan.p - 1, plan.p), repeat=plan.m):
        yield Case("ask", LARGEST_VALUES, question=y, origin="largest modulus")
    for h in product((0, 1, plan.p - 1), repeat=plan.n):
        yield Case("words", LARGEST_VALUES, question=h, origin="largest modulus")


def _large_set_cases():
    """Sets with more entries than a plan may have: they are held only by
    their lists, so they pass."""
    for plan in (lower_edge(65_521, GREATEST_ENTRIES + 500), upper_edge(7, GREATEST_ENTRIES + 500)):
        factors = factor(plan, 2 * GREATEST_ENTRIES, 2 * GREATEST_ENTRIES).factors
        text = plain_text(plan)
        yield Case("check", text, certificate=write(plan, factors), origin="large set")
        last = factors.L.values[:-1] + (factors.L.values[-1] % (plan.p - 1) + 1,)
        changed = factors._replace(L=factors.L._replace(values=last))
        yield Case("check", text, certificate=write(plan, changed), origin="large set changed")


def fixed_cases(seed):
    """What every run compares, whatever its count."""
    texts = [text for text, _ in REPORTS + REFUSALS] + [text for text, _, _ in FACTORED]
    texts += edge_texts()
    for text in texts:
        yield Case("report", text, origin="worked or limit")
        yield Case("make", text, buffer_length=ANY_CERTIFICATE, origin="worked or limit")
        yield Case("check", text, certificate=b"", origin="worked or limit")
        yield from limit_cases(text)
    yield from _plan_d_cases()
    yield from _large_modulus_cases()
    yield from _large_set_cases()
    rng = Random(f"fixed {seed}")
    for p, n, m in ((7, 0, 0), (2, 3, 0), (65_521, 4, 5), (251, 9, 6)):
        text = plain_text(build(rng, dense, p, n, m))
        yield from buffer_cases(text, f"buffers {p} {n} {m}")
    yield from _words_edge_cases(rng)
    yield from _settings_edge_cases(rng)
    yield from fixed_answer_cases(seed)
    yield from modulus_cases(range(MODULI))


def in_groups(cases, size):
    """Lists of at most `size` cases."""
    iterator = iter(cases)
    while group := list(islice(iterator, size)):
        yield group
