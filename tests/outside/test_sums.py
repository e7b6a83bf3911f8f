"""Sums of questions in the model: slip 14's sentences, by every set that passes; and the sums of a run."""

import unittest
from itertools import chain, product
from random import Random

from generate.plans import EDGES, build, dense, tiny_plan
from generate.sets import foreign_set
from generate.sums import sums_of_plan
from model import enumeration
from model.certificate import write
from model.factors import Factors
from model.questions import answer, answer_from_certificate, answer_from_factors
from model.storage import Rows, plan_of, store
from model.sums import mixed, told
from samples import factors_of, plans, sets_that_pass, small_plans
from sums import fixed_sums, random_sums


def tall_plan():
    """Two slots that both hear the one word: each of them may be the pivot."""
    return plan_of(7, 2, 1, Rows((0, 1, 2), (0, 0), (1, 1)))


def small_sums(name, count):
    """Sums on random plans and on small dense ones of every edge."""
    for rng, plan in small_plans(name, count):
        yield rng, plan, sums_of_plan(rng, plan, name)
    for p, n, m in EDGES:
        rng = Random(f"{name} {p} {n} {m}")
        plan = build(rng, dense, p, n, m)
        yield rng, plan, sums_of_plan(rng, plan, name)


def verdicts(added):
    """Whether y, y′ and their sum are open."""
    factors = factors_of(added.plan)
    asked = (added.y, added.other, added.question)
    return tuple(answer(added.plan, factors, y).is_open for y in asked)


class Laws(unittest.TestCase):
    def test_one_set_of_any_maker(self):
        """The whole answer, by stored factors and by their certificate."""
        for rng, plan, sums in small_sums("laws", 60):
            for factors in sets_that_pass(rng, plan):
                certificate = write(plan, factors)
                for added in sums:
                    first, second = (answer(plan, factors, y) for y in (added.y, added.other))
                    wanted = told(plan, added.a, first, added.b, second)
                    if wanted:
                        for found in (
                            answer_from_factors(plan, factors, added.question),
                            answer_from_certificate(plan, certificate, added.question),
                        ):
                            self.assertEqual(found, wanted, added)

    def test_every_sum_on_tiny_plans(self):
        """By foreign sets; and by trying everything where x adds up."""
        for rng, plan in plans("every sum", 30, tiny_plan):
            factors = foreign_set(rng, plan)
            rows = enumeration.full_rows(plan)
            questions = list(product(range(plan.p), repeat=plan.m))
            answers = {y: answer(plan, factors, y) for y in questions}
            for y, other in ((rng.choice(questions), rng.choice(questions)) for _ in range(8)):
                for a, b in product(range(plan.p), repeat=2):
                    whole = mixed(plan.p, a, y, b, other)
                    wanted = told(plan, a, answers[y], b, answers[other])
                    self.assertIn(wanted, (None, answers[whole]))
                    if wanted and wanted.is_open:
                        made = enumeration.times_rows(wanted.x, rows, plan.m, plan.p)
                        self.assertEqual(made, whole)

    def test_two_closed_questions_tell_nothing(self):
        """They may add up to an open question or to a closed one."""
        plan = plan_of(7, 1, 2, Rows((0, 2), (0, 1), (1, 1)))
        factors = factors_of(plan)
        first, second, whole = (answer(plan, factors, y) for y in ((1, 0), (0, 1), (1, 1)))
        self.assertEqual([first.is_open, second.is_open, whole.is_open], [False, False, True])
        self.assertFalse(answer(plan, factors, (1, 2)).is_open)
        self.assertIsNone(told(plan, 1, first, 1, second))

    def test_answers_from_two_sets_do_not_add_up(self):
        plan = tall_plan()
        lower, upper = store([{0: 1}, {0: 1}]), store([{0: 1}])
        first, second = (Factors(R, (0,), lower, upper, 1) for R in ((0, 1), (1, 0)))
        found = answer_from_factors(plan, first, (1,)), answer_from_factors(plan, second, (1,))
        self.assertEqual([x for _, x, _ in found], [(1, 0), (0, 1)])
        added = told(plan, 1, found[0], 1, found[1])
        self.assertNotIn(added, [answer(plan, factors, (2,)) for factors in (first, second)])

    def test_a_question_and_its_opposite(self):
        """The zero question, with an x of zeros; modulo 2 the question twice."""
        for rng, plan, sums in small_sums("opposite", 40):
            opposite = [s for s in sums if s.y == s.other and (s.a + s.b) % plan.p == 0]
            self.assertTrue(opposite)
            for added in opposite:
                self.assertFalse(any(added.question))
                found = answer(plan, foreign_set(rng, plan), added.question)
                self.assertEqual(found, (True, (0,) * plan.n, (0,) * plan.m))


class Reaches(unittest.TestCase):
    """The sums of a run are of every sort."""

    @classmethod
    def setUpClass(cls):
        found = (random_sums("reach", index) for index in range(20))
        cls.sums = [*fixed_sums("reach"), *chain.from_iterable(found)]

    def assert_some(self, is_wanted, count=5):
        self.assertGreaterEqual(sum(map(bool, map(is_wanted, self.sums))), count)

    def test_verdicts(self):
        """Weights that are not 0: all that is possible of the three verdicts."""
        found = {verdicts(added) for added in self.sums if added.a and added.b}
        closed = {(True, False, False), (False, True, False)}
        either = {(False, False, True), (False, False, False)}
        self.assertEqual(found, {(True, True, True)} | closed | either)

    def test_weights(self):
        self.assert_some(lambda s: s.a == 0 < s.b)
        self.assert_some(lambda s: s.b == 0 < s.a)
        self.assert_some(lambda s: s.a == s.b == 1)
        self.assert_some(lambda s: 1 < s.a != s.b > 1)
        self.assert_some(lambda s: s.a == 0 and verdicts(s)[:2] == (False, True), 1)
        self.assert_some(lambda s: s.b == 0 and verdicts(s)[:2] == (True, False), 1)

    def test_sums_past_the_modulus(self):
        """In the question, and in x."""

        def passes(s, u, v):
            return any(s.a * i + s.b * j >= s.plan.p for i, j in zip(u, v))

        def x_passes(s):
            factors = factors_of(s.plan)
            return passes(s, *(answer(s.plan, factors, y).x for y in (s.y, s.other)))

        self.assert_some(lambda s: passes(s, s.y, s.other), 50)
        self.assert_some(x_passes, 50)

    def test_edges(self):
        self.assert_some(lambda s: s.plan.n == 0)
        self.assert_some(lambda s: s.plan.n == 0 < s.plan.m and any(s.question))
        self.assert_some(lambda s: s.plan.m == 0)
        self.assert_some(lambda s: s.plan.p == 2 and s.a == s.b == 1 and s.y == s.other, 2)
        self.assert_some(lambda s: s.plan.p == 4_294_967_291)


if __name__ == "__main__":
    unittest.main()
