"""Checking in the model: sets and certificates, own, foreign, mixed and damaged."""

import unittest
from random import Random

from generate import edges, sets, texts
from generate.certificates import resized
from model import enumeration
from model.calls import check_certificate as check_call
from model.calls import make_certificate as make_call
from model.certificate import OPENING, parse, write
from model.check import check_certificate, check_factors, judge
from model.limits import GREATEST_ENTRIES
from model.questions import answer, open_words
from model.refusals import Refusal
from model.storage import plan_of, plan_refusal
from samples import FACTORS, PLAN, factors_of, sets_that_pass, small_plans
from worked import PLAN_D


def passes_by_cells(plan, factors):
    """Document 01's sentences on a set, over full matrices."""
    R, C, L, U, r = factors
    p, n, m = plan.p, plan.n, plan.m
    if set(R) != set(range(n)) or set(C) != set(range(m)) or r > min(n, m):
        return False
    if Refusal(8) in (plan_refusal(plan_of(p, n, r, L)), plan_refusal(plan_of(p, r, m, U))):
        return False
    A = enumeration.full_rows(plan)
    L = enumeration.full_rows(plan_of(p, n, r, L))
    U = enumeration.full_rows(plan_of(p, r, m, U))
    return (
        all(L[i][k] == 0 for i in range(n) for k in range(r) if k > i)
        and all(L[k][k] != 0 for k in range(r))
        and all(U[k][C[k]] == 1 for k in range(r))
        and all(U[k][C[j]] == 0 for k in range(r) for j in range(k))
        and all(
            A[R[i]][j] == sum(L[i][k] * U[k][j] for k in range(r)) % p
            for i in range(n)
            for j in range(m)
        )
    )


class Checking(unittest.TestCase):
    def test_foreign_sets_pass(self):
        for rng, plan in small_plans("foreign", 150):
            for factors in sets_that_pass(rng, plan):
                self.assertIsNone(check_factors(plan, factors))
                self.assertIsNone(check_certificate(plan, write(plan, factors)))

    def test_passed_sets_agree_on_rank_and_verdicts(self):
        for rng, plan in small_plans("agreement", 100):
            passed = sets_that_pass(rng, plan)
            self.assertEqual(len({factors.r for factors in passed}), 1)
            self.assertEqual(len({tuple(open_words(plan, factors)) for factors in passed}), 1)
            y = [value % plan.p for value in texts.random_question(rng, plan)]
            self.assertEqual(len({answer(plan, factors, y).is_open for factors in passed}), 1)

    def test_mixed_inner_indexes_break_the_shape(self):
        for rng, plan in small_plans("mixed", 150):
            for factors in sets_that_pass(rng, plan):
                mixed = sets.mixed_set(rng, plan, factors)
                if mixed:
                    self.assertEqual(check_factors(plan, mixed), Refusal(13))

    def test_changed_product(self):
        for rng, plan in small_plans("product", 150):
            for factors in sets_that_pass(rng, plan):
                changed = sets.changed_product(rng, plan, factors)
                found = check_factors(plan, changed)
                self.assertEqual(found is None, changed == factors)
                self.assertTrue(found is None or found.number == 14)

    def test_passes_exactly_by_shape_and_product(self):
        for rng, plan in small_plans("damaged", 150):
            for factors in sets_that_pass(rng, plan):
                for changed in (
                    factors,
                    sets.reordered_set(rng, factors),
                    sets.damaged_set(rng, plan, factors),
                    sets.damaged_set(rng, plan, factors),
                ):
                    passed = judge(plan, changed) is None
                    self.assertEqual(passed, passes_by_cells(plan, changed), changed)

    def test_sets_larger_than_a_plan_pass(self):
        plan = edges.lower_edge(7, GREATEST_ENTRIES + 100)
        self.assertIsNone(check_factors(plan, factors_of(plan)))

    def test_order_of_refusals(self):
        broken = FACTORS._replace(R=(0, 0, 0, 0, 0), r=6)
        upper = FACTORS.U
        broken = broken._replace(U=upper._replace(starts=(0, 0, *upper.starts)))
        self.assertEqual(check_factors(PLAN, broken), Refusal(11))
        self.assertEqual(check_factors(PLAN, broken._replace(R=FACTORS.R)), Refusal(12))
        self.assertEqual(check_factors(PLAN, broken._replace(r=7)), Refusal(9))

    def test_lengths(self):
        lower, upper = FACTORS.L, FACTORS.U
        for changed in (
            FACTORS._replace(R=FACTORS.R[1:]),
            FACTORS._replace(C=(*FACTORS.C, 5)),
            FACTORS._replace(r=3),
            FACTORS._replace(L=lower._replace(starts=(*lower.starts, 7))),
            FACTORS._replace(L=lower._replace(values=lower.values[1:])),
            FACTORS._replace(U=upper._replace(columns=upper.columns[1:])),
        ):
            self.assertEqual(check_factors(PLAN, changed), Refusal(9))
        longer = lower._replace(columns=(*lower.columns, 0), values=(*lower.values, 1))
        self.assertEqual(check_factors(PLAN, FACTORS._replace(L=longer)), Refusal(13))


class Certificates(unittest.TestCase):
    def test_layout_of_plan_d(self):
        certificate = write(PLAN, FACTORS)
        self.assertEqual(certificate[:5], b"PLQ\1\0")
        numbers = [7, 5, 5, 4, 6, 7, *FACTORS.R, *FACTORS.C]
        opening = b"".join(number.to_bytes(4, "little") for number in numbers)
        self.assertEqual(certificate[5 : 5 + len(opening)], opening)
        self.assertEqual(len(certificate), 5 + 4 * (6 + 5 + 5 + 6 + 6 + 6 + 5 + 7 + 7))

    def test_what_is_written_reads_back(self):
        for rng, plan in small_plans("read back", 100):
            for factors in sets_that_pass(rng, plan):
                self.assertEqual(parse(plan, write(plan, factors)), factors)

    def test_header(self):
        certificate = write(PLAN, FACTORS)
        for other in resized(Random("resized"), certificate):
            self.assertEqual(check_certificate(PLAN, other), Refusal(10))
        for place in range(OPENING.size - 12):
            changed = bytearray(certificate)
            changed[place] ^= 1
            self.assertEqual(check_certificate(PLAN, bytes(changed)), Refusal(10), place)

    def test_set_and_certificate_are_judged_alike(self):
        for rng, plan in small_plans("alike", 100):
            damaged = sets.damaged_set(rng, plan, factors_of(plan))
            self.assertEqual(
                check_certificate(plan, write(plan, damaged)), check_factors(plan, damaged)
            )

    def test_calls(self):
        certificate = write(PLAN, FACTORS)
        length = len(certificate)
        self.assertEqual(make_call(PLAN_D, length), (0, certificate))
        self.assertEqual(make_call(PLAN_D, length + 3), (0, certificate + bytes(3)))
        self.assertEqual(make_call(PLAN_D, length - 1), (9, bytes(length - 1)))
        self.assertEqual(make_call(PLAN_D + b"\n", 8), (3 + 256 * 15, bytes(8)))
        self.assertEqual(check_call(PLAN_D, certificate), 0)
        self.assertEqual(check_call(PLAN_D, certificate + b"\0"), 10)


if __name__ == "__main__":
    unittest.main()
