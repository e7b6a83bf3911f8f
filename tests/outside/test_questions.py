"""Answers in the model, against enumeration and against document 01's description."""

import unittest
from itertools import product

from generate import sets, texts
from generate.plans import tiny_plan
from model import enumeration
from model.certificate import write
from model.questions import answer, answer_from_certificate, answer_from_factors, open_words
from model.refusals import Refusal
from samples import FACTORS, PLAN, factors_of, plans, sets_that_pass, small_plans


class Questions(unittest.TestCase):
    def test_answers_by_enumeration(self):
        """On tiny plans, by the engine's own set and by a foreign one."""
        for rng, plan in plans("enumeration", 90, tiny_plan):
            questions = list(product(range(plan.p), repeat=plan.m))
            for factors in (factors_of(plan), sets.foreign_set(rng, plan)):
                pivots = factors.R[: factors.r], factors.C[: factors.r]
                for y in rng.sample(questions, min(6, len(questions))):
                    wanted = enumeration.answer(plan, *pivots, y)
                    self.assertEqual(answer(plan, factors, y), wanted)

    def test_one_value_or_every_value(self):
        """Open: the slots fix y.s. Closed: every value is possible."""
        for rng, plan in plans("values", 60, tiny_plan):
            factors = factors_of(plan)
            y = [rng.randrange(plan.p) for _ in range(plan.m)]
            count = 1 if answer(plan, factors, y).is_open else plan.p
            for found in enumeration.values(plan, y).values():
                self.assertEqual(len(found), count)

    def test_answers_are_what_the_scope_describes(self):
        for rng, plan in small_plans("described", 150):
            rows = enumeration.full_rows(plan)
            for factors in sets_that_pass(rng, plan):
                y = tuple(value % plan.p for value in texts.random_question(rng, plan))
                is_open, x, z = answer(plan, factors, y)
                if is_open:
                    self.assertEqual(enumeration.times_rows(x, rows, plan.m, plan.p), y)
                    self.assertFalse(any(x[i] for i in factors.R[factors.r :]) or any(z))
                else:
                    self.assertFalse(any(enumeration.times_setting(rows, z, plan.p)) or any(x))
                    self.assertTrue(sum(a * b for a, b in zip(y, z)) % plan.p)
                    self.assertEqual(sum(z[j] for j in factors.C[factors.r :]), 1)

    def test_open_words_are_the_open_unit_questions(self):
        for _, plan in small_plans("units", 80):
            factors = factors_of(plan)
            units = [tuple(int(i == j) for i in range(plan.m)) for j in range(plan.m)]
            wanted = [j for j, y in enumerate(units) if answer(plan, factors, y).is_open]
            self.assertEqual(open_words(plan, factors), wanted)

    def test_refusals(self):
        certificate = write(PLAN, FACTORS)
        other = FACTORS._replace(R=(0, 1, 2, 3, 4))
        for y, number, detail in (((0, 7, 8, 0, 0), 15, 1), ((0, 0, 0, 0), 9, 0)):
            wanted = Refusal(number, detail)
            self.assertEqual(answer_from_factors(PLAN, FACTORS, y), wanted)
            self.assertEqual(answer_from_certificate(PLAN, certificate, y), wanted)
        self.assertEqual(answer_from_factors(PLAN, other, (9,) * 5), Refusal(14, 1))
        self.assertEqual(answer_from_certificate(PLAN, b"", (9,) * 5), Refusal(10))

    def test_stored_factors_and_certificate_answer_alike(self):
        for rng, plan in small_plans("forms", 80):
            for factors in sets_that_pass(rng, plan):
                y = texts.random_question(rng, plan)
                self.assertEqual(
                    answer_from_factors(plan, factors, y),
                    answer_from_certificate(plan, write(plan, factors), y),
                )


if __name__ == "__main__":
    unittest.main()
