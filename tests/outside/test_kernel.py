"""Settings without effect in the model: slip 7's sentences, by every set that passes, and by trying
everything; and the settings of a run."""

import unittest
from collections import Counter
from itertools import chain
from random import Random

from compare import ALL_FREE, fixed_cases, plan_cases, settings_cases, tiny_cases
from generate.kernel import MOST_CELLS, is_short, longest_setting, without_slots
from generate.plans import tiny_plan
from generate.sets import foreign_set
from generate.texts import plain_text
from model import enumeration
from model.ask import ask_settings
from model.certificate import write
from model.check import check_factors
from model.factors import Factors
from model.kernel import free_columns, settings, settings_from_certificate
from model.questions import answer
from model.refusals import Refusal
from model.report import stages
from model.storage import Rows, plan_of, store
from samples import (
    FACTORS,
    PLAN,
    factors_of,
    plans,
    plans_of_all_sorts,
    sets_that_pass,
    small_plans,
)


def unit(m, place):
    return tuple(int(j == place) for j in range(m))


def identity(m):
    return tuple(unit(m, j) for j in range(m))


def falling_tail(factors):
    """The same pivots; the words that are none in falling order."""
    tail = sorted(factors.C[factors.r :], reverse=True)
    return factors._replace(C=(*factors.C[: factors.r], *tail))


def in_order_of_c(plan, factors):
    """The wrong rule: the settings come as their words do in C."""
    by_word = dict(zip(free_columns(plan, factors), settings(plan, factors)))
    return tuple(by_word[j] for j in factors.C[factors.r :])


def same_pivot_words(factors, others):
    return sorted(factors.C[: factors.r]) == sorted(others.C[: others.r])


def same_pivot_slots(factors, others):
    return sorted(factors.R[: factors.r]) == sorted(others.R[: others.r])


def any_setting(rng, plan):
    return tuple(rng.randrange(plan.p) for _ in range(plan.m))


def less(p, s, t):
    return tuple((a - b) % p for a, b in zip(s, t, strict=True))


def slots_of(plan, s):
    return enumeration.times_setting(enumeration.full_rows(plan), s, plan.p)


def nearest_combination(plan, factors, found, d):
    """The only combination of the settings that has d's values at the non-pivot words:
    no other one can be d."""
    weights = [d[j] for j in free_columns(plan, factors)]
    return enumeration.times_rows(weights, found, plan.m, plan.p)


class Settings(unittest.TestCase):
    def test_settings_by_enumeration(self):
        """On tiny plans, by the engine's own set and by foreign ones."""
        for rng, plan in plans("settings enumeration", 120, tiny_plan):
            for factors in (factors_of(plan), foreign_set(rng, plan), foreign_set(rng, plan)):
                wanted = enumeration.free_settings(plan, factors.C[: factors.r])
                self.assertEqual(settings(plan, factors), wanted)

    def test_combinations_are_all_settings_without_effect(self):
        """Modulo 2 and 3, and each by one combination only."""
        for rng, plan in plans("settings combined", 120, tiny_plan):
            if plan.p > 3:
                continue
            for factors in sets_that_pass(rng, plan):
                found = settings(plan, factors)
                self.assertEqual(
                    enumeration.combined(plan, found), Counter(enumeration.silent(plan))
                )

    def test_settings_with_the_same_slots_modulo_2_and_3(self):
        """All of a tiny plan, two by two: their difference is a combination exactly
        if they give the same slots."""
        for rng, plan in plans("settings two by two", 30, tiny_plan):
            if plan.p > 3:
                continue
            found = enumeration.combined(plan, settings(plan, foreign_set(rng, plan)))
            every = list(enumeration.combinations(plan.p, plan.m))
            slots = {s: slots_of(plan, s) for s in every}
            for s in rng.sample(every, min(8, len(every))):
                for t in every:
                    self.assertEqual(slots[s] == slots[t], less(plan.p, s, t) in found)

    def test_settings_are_what_the_slip_describes(self):
        """m - r of them, of residues; 1 at its word, rising, 0 at the others that are
        no pivots, and no effect."""
        for rng, plan in plans_of_all_sorts("settings described", 150):
            for factors in sets_that_pass(rng, plan):
                found = settings(plan, factors)
                others = sorted(factors.C[factors.r :])
                self.assertEqual(len(found), plan.m - factors.r)
                for free, s in zip(others, found, strict=True):
                    self.assertEqual(len(s), plan.m)
                    self.assertTrue(all(0 <= value < plan.p for value in s))
                    self.assertEqual([j for j in others if s[j]], [free])
                    self.assertEqual(s[free], 1)
                    self.assertFalse(any(slots_of(plan, s)))

    def test_same_slots_exactly_if_the_difference_is_a_combination(self):
        """Of any two settings, of one and its sum with a combination, and of one and
        the same with one word changed."""
        alike = 0
        for rng, plan in plans_of_all_sorts("settings difference", 120):
            for factors in sets_that_pass(rng, plan):
                found = settings(plan, factors)
                s, t = any_setting(rng, plan), any_setting(rng, plan)
                moved = less(plan.p, s, nearest_combination(plan, factors, found, t))
                changed = less(plan.p, s, unit(plan.m, rng.randrange(plan.m))) if s else s
                for other in (t, moved, changed):
                    d = less(plan.p, s, other)
                    is_combination = nearest_combination(plan, factors, found, d) == d
                    same = slots_of(plan, s) == slots_of(plan, other)
                    self.assertEqual(same, is_combination)
                    alike += same
                self.assertEqual(slots_of(plan, s), slots_of(plan, moved))
        self.assertGreater(alike, 500)

    def test_settings_by_questions(self):
        """Each is the z of its word's own question, which is closed; that comes by U."""
        for rng, plan in plans_of_all_sorts("settings questions", 100):
            for factors in sets_that_pass(rng, plan):
                asked = [unit(plan.m, j) for j in free_columns(plan, factors)]
                found = [answer(plan, factors, y) for y in asked]
                self.assertFalse(any(answer.is_open for answer in found))
                self.assertEqual(settings(plan, factors), tuple(answer.z for answer in found))


class Order(unittest.TestCase):
    def test_words_that_fall_after_the_pivots(self):
        """The list is that of the own set, though C ends otherwise; in C's order it
        would be another."""
        differ = 0
        for rng, plan in plans_of_all_sorts("settings order", 150):
            own, foreign = factors_of(plan), foreign_set(rng, plan)
            for factors in (own, foreign):
                other = falling_tail(factors)
                self.assertIsNone(check_factors(plan, other))
                self.assertEqual(settings(plan, other), settings(plan, factors))
                differ += in_order_of_c(plan, other) != settings(plan, other)
        self.assertGreater(differ, 100)

    def test_in_the_own_set_words_rise(self):
        """So no program that answers from its own set can show the difference."""
        for _, plan in plans_of_all_sorts("settings order", 80):
            factors = factors_of(plan)
            self.assertEqual(in_order_of_c(plan, factors), settings(plan, factors))

    def test_sets_with_the_same_pivot_words_give_the_same(self):
        """By other pivot slots and in another order; and with other pivot words each
        setting of one is a combination of the other's."""
        alike = others = 0
        for rng, plan in plans_of_all_sorts("settings makers", 400):
            own = factors_of(plan)
            wanted = settings(plan, own)
            for factors in (falling_tail(f) for f in sets_that_pass(rng, plan)):
                found = settings(plan, factors)
                for s in rng.sample(found, min(len(found), 4)):
                    self.assertEqual(nearest_combination(plan, own, wanted, s), s)
                if same_pivot_words(own, factors):
                    self.assertEqual(found, wanted)
                    alike += bool(found) and not same_pivot_slots(own, factors)
                else:
                    others += found != wanted
        self.assertGreater(alike, 40)
        self.assertGreater(others, 100)

    def test_one_slot(self):
        """Of three words the last is the pivot, and the others come in falling order."""
        plan = plan_of(7, 1, 3, Rows((0, 2), (1, 2), (2, 1)))
        factors = Factors((0,), (2, 1, 0), store([{0: 1}]), plan.rows, 1)
        self.assertIsNone(check_factors(plan, factors))
        self.assertEqual(settings(plan, factors), ((1, 0, 0), (0, 1, 5)))
        self.assertEqual(in_order_of_c(plan, factors), ((0, 1, 5), (1, 0, 0)))
        self.assertEqual(settings(plan, factors_of(plan)), ((1, 0, 0), (0, 3, 1)))


class Edges(unittest.TestCase):
    def test_no_slots_and_slots_that_hear_nothing(self):
        """Every word is free, also where C falls."""
        for p, n, m in ((7, 0, 2), (7, 0, 0), (2, 0, 5), (7, 3, 2), (7, 2, 0)):
            plan = plan_of(p, n, m, store([{}] * n))
            for factors in (factors_of(plan), falling_tail(factors_of(plan))):
                self.assertEqual(settings(plan, factors), identity(m))

    def test_every_word_a_pivot(self):
        plan = plan_of(7, 3, 2, store([{1: 3}, {0: 1, 1: 1}, {0: 2}]))
        for factors in sets_that_pass(Random("all pivots"), plan):
            self.assertEqual(settings(plan, factors), ())
            self.assertEqual(settings_from_certificate(plan, write(plan, factors), 0), ())

    def test_longest_line(self):
        """Ten digits for every word but the last."""
        output = ask_settings(plain_text(longest_setting()))
        self.assertEqual(len(output), len("free 1\nsetting") + 2047 * 11 + 2 + 1)

    def test_short_texts(self):
        self.assertTrue(is_short(plain_text(without_slots(2, 200))))
        self.assertFalse(is_short(plain_text(without_slots(2, 201))))
        self.assertTrue(is_short(b"7\n"))


class Refusals(unittest.TestCase):
    def test_cells(self):
        """m times (m - r), no more and no fewer, and neither m nor m - r alone."""
        certificate = write(PLAN, FACTORS)
        self.assertEqual(settings_from_certificate(PLAN, certificate, 5), (3, 2, 1, 1, 0))
        for cells in (0, 1, 4, 6, 10, 20, 25, 2**32 + 5):
            self.assertEqual(settings_from_certificate(PLAN, certificate, cells), Refusal(9))

    def test_the_certificate_comes_first(self):
        """Its refusal, whether the cells are right or not."""
        certificate = write(PLAN, FACTORS)
        other = write(PLAN, FACTORS._replace(R=(0, 1, 2, 3, 4)))
        no_order = write(PLAN, FACTORS._replace(C=(0, 0, 1, 4, 3)))
        for plan, bytes_given, wanted in (
            (PLAN, b"", Refusal(10)),
            (PLAN, no_order, Refusal(11)),
            (PLAN, other, Refusal(14, 1)),
            (PLAN._replace(p=8), certificate, Refusal(1)),
            (PLAN._replace(p=11), certificate, Refusal(10)),
            (PLAN._replace(owners=(1,) * 4), certificate, Refusal(9)),
        ):
            for cells in (5, 0, 4, 6):
                self.assertEqual(settings_from_certificate(plan, bytes_given, cells), wanted)

    def test_settings_one_after_another(self):
        """By every set; with one cell fewer or more 9."""
        for rng, plan in small_plans("settings stored", 80):
            for factors in sets_that_pass(rng, plan):
                certificate = write(plan, factors)
                found = list(chain.from_iterable(settings(plan, factors)))
                stored = settings_from_certificate(plan, certificate, len(found))
                self.assertEqual(stored, tuple(found))
                for cells in (len(found) - 1, len(found) + 1):
                    refused = settings_from_certificate(plan, certificate, cells)
                    self.assertEqual(refused, Refusal(9))


class Reaches(unittest.TestCase):
    """The settings of a run are of every sort."""

    @classmethod
    def setUpClass(cls):
        """The plan, the factors and the settings of cases that are not refused."""
        cases = chain(
            fixed_cases("reach"),
            *(tiny_cases("reach", index, 8) for index in range(20)),
            *(plan_cases("reach", index) for index in range(60)),
        )
        cls.cases = [case for case in cases if case.call == "settings"]
        found = {case.text: stages(case.text) for case in cls.cases}
        cls.refused = [text for text, result in found.items() if isinstance(result, Refusal)]
        cls.given = [
            (plan, factored.factors, settings(plan, factored.factors))
            for plan, factored in (found[text] for text in found if text not in cls.refused)
        ]

    def assert_some(self, is_wanted, count):
        self.assertGreaterEqual(len([given for given in self.given if is_wanted(*given)]), count)

    def test_sizes(self):
        """No output is long, but for one without slots."""
        cells = sorted(plan.m * len(found) for plan, _, found in self.given)
        self.assertEqual(cells[-1], ALL_FREE**2)
        self.assertTrue(MOST_CELLS // 2 < cells[-2] <= MOST_CELLS)

    def test_free_words(self):
        """None, one, several, and these before pivots that are not 0."""
        self.assert_some(lambda plan, factors, found: plan.m and not found, 20)
        self.assert_some(lambda plan, factors, found: len(found) == 1, 15)
        self.assert_some(lambda plan, factors, found: len(found) > 1, 40)

        def before_pivots(plan, factors, found):
            pairs = zip(free_columns(plan, factors), found)
            return sum(any(s[free + 1 :]) for free, s in pairs) > 1

        self.assert_some(before_pivots, 4)

    def test_values(self):
        """0 at a pivot, and more than 1; modulo 2 and modulo the largest."""

        def has_zero(plan, factors, found):
            return any(not s[j] for s in found for j in factors.C[: factors.r])

        self.assert_some(has_zero, 20)
        self.assert_some(lambda plan, factors, found: any(max(s) > 1 for s in found), 30)
        for p in (2, 4_294_967_291):
            self.assert_some(lambda plan, factors, found: plan.p == p and found and factors.r, 5)

    def test_no_words_and_no_slots(self):
        """And slots that hear nothing."""
        self.assert_some(lambda plan, factors, found: plan.m == 0 < plan.n, 4)
        self.assert_some(lambda plan, factors, found: plan.n == 0 < plan.m, 6)
        self.assert_some(lambda plan, factors, found: plan.n and plan.m and not factors.r, 2)

    def test_owners_and_refusals(self):
        texts = {case.text for case in self.cases}
        self.assertGreater(sum(b"owners" in text for text in texts - {*self.refused}), 15)
        self.assertGreater(len(self.refused), 50)

    def test_worked_ones_are_among_them(self):
        self.assertLess(set(settings_cases()), set(self.cases))


if __name__ == "__main__":
    unittest.main()
