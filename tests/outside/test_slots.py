"""Slot values in the model: slip 6's sentences, by every set that passes, and by trying everything;
and the slot values of a run."""

import unittest
from itertools import chain
from random import Random

from compare import fixed_cases, plan_cases, tiny_cases, words_cases
from generate import sets
from generate.plans import build, dense, tiny_plan
from generate.slots import any_slots, every_slots, given_slots, longest_lines, one_changed
from generate.texts import plain_text
from model import enumeration
from model.ask import ask_words, ask_words_by_text, plan_end
from model.certificate import write
from model.check import check_factors
from model.factors import Factors, factor
from model.limits import GREATEST_ENTRIES
from model.plan_text import read_plan
from model.questions import answer
from model.refusals import Refusal
from model.slots import contradictions, slots_from_certificate, slots_from_factors, solve_slots
from model.storage import Rows, plan_of, store
from samples import (
    FACTORS,
    PLAN,
    factors_of,
    plans,
    plans_of_all_sorts,
    sets_that_pass,
    small_plans,
)


def pivots(factors):
    return factors.R[: factors.r], factors.C[: factors.r]


def dot(u, v, p):
    return sum(a * b for a, b in zip(u, v, strict=True)) % p


def several_slots(rng, plan):
    """Given by a setting, with one value changed, and any."""
    h = given_slots(rng, plan)
    return h, one_changed(rng, plan, h), any_slots(rng, plan)


def by_question(plan, factors, slot):
    """The w of a non-pivot slot through the question that has its coefficients:
    that is open, and its x is what the pivot slots make of it."""
    coefficients = enumeration.full_rows(plan)[slot]
    x = answer(plan, factors, coefficients).x
    return tuple((int(i == slot) - value) % plan.p for i, value in enumerate(x))


def lowest_position(factors, found):
    """The wrong rule: of the contradictions the first in the order of R."""
    return next(slot for slot in factors.R[factors.r :] if slot in found)


def one_word_plan():
    """Three slots that hear the one word; the last is the pivot, and the others
    come in falling order."""
    plan = plan_of(7, 3, 1, Rows((0, 1, 2, 3), (0, 0, 0), (1, 1, 1)))
    return plan, Factors((2, 1, 0), (0,), store([{0: 1}] * 3), store([{0: 1}]), 1)


class Solutions(unittest.TestCase):
    def test_solutions_by_enumeration(self):
        """On tiny plans, by the engine's own set and by foreign ones."""
        for rng, plan in plans("slots enumeration", 90, tiny_plan):
            for factors in (factors_of(plan), sets.foreign_set(rng, plan)):
                for h in every_slots(rng, plan, 6):
                    wanted = enumeration.slots(plan, *pivots(factors), h)
                    self.assertEqual(solve_slots(plan, factors, h), wanted)

    def test_all_slot_values_of_tiny_plans(self):
        """Modulo 2 and 3: as many are solved as slots that settings give."""
        for rng, plan in plans("all slots", 40, tiny_plan):
            if plan.p > 3:
                continue
            factors = sets.foreign_set(rng, plan)
            every = every_slots(rng, plan, plan.p**plan.n)
            found = {h: solve_slots(plan, factors, h) for h in every}
            for h, solution in found.items():
                wanted = enumeration.slots(plan, *pivots(factors), h)
                self.assertEqual(solution, wanted)
            solved = sum(solution.solved for solution in found.values())
            self.assertEqual(solved, plan.p**factors.r)

    def test_solutions_are_what_the_slip_describes(self):
        for rng, plan in plans_of_all_sorts("slots described", 120):
            for factors in sets_that_pass(rng, plan):
                for h in several_slots(rng, plan):
                    solution = solve_slots(plan, factors, h)
                    if solution.solved:
                        self.check_words(plan, factors, h, solution)
                    else:
                        self.check_contradiction(plan, factors, h, solution)

    def check_words(self, plan, factors, h, solution):
        """As = h, s is 0 at every non-pivot word, w is all zero."""
        rows = enumeration.full_rows(plan)
        self.assertEqual(enumeration.times_setting(rows, solution.s, plan.p), h)
        self.assertFalse(any(solution.s[j] for j in factors.C[factors.r :]))
        self.assertEqual(solution.w, (0,) * plan.n)
        self.assertTrue(all(0 <= value < plan.p for value in solution.s))

    def check_contradiction(self, plan, factors, h, solution):
        """wA = 0 and w.h is not 0, so that no s exists; w is 1 at one non-pivot
        slot and 0 at the others; and this works at no lower one."""
        rows = enumeration.full_rows(plan)
        self.assertFalse(any(enumeration.times_rows(solution.w, rows, plan.m, plan.p)))
        self.assertTrue(dot(solution.w, h, plan.p))
        others = sorted(factors.R[factors.r :])
        (slot,) = [i for i in others if solution.w[i]]
        self.assertEqual(solution.w, by_question(plan, factors, slot))
        self.assertEqual(solution.w[slot], 1)
        for lower in others[: others.index(slot)]:
            self.assertFalse(dot(by_question(plan, factors, lower), h, plan.p))
        self.assertEqual(solution.s, (0,) * plan.m)

    def test_what_a_setting_gives_is_solved(self):
        """By every set, and by each with a setting of its own."""
        for rng, plan in plans_of_all_sorts("slots given", 80):
            h = given_slots(rng, plan)
            for factors in sets_that_pass(rng, plan):
                self.assertTrue(solve_slots(plan, factors, h).solved)

    def test_the_verdict_is_that_of_any_set(self):
        for rng, plan in plans_of_all_sorts("slots verdict", 80):
            for h in several_slots(rng, plan):
                found = {solve_slots(plan, f, h).solved for f in sets_that_pass(rng, plan)}
                self.assertEqual(len(found), 1)


class LowestSlot(unittest.TestCase):
    def test_the_lowest_position_is_not_the_lowest_slot(self):
        """In foreign sets, whose dependent rows need not rise."""
        differ = 0
        for rng, plan in small_plans("slots positions", 150):
            for factors in sets_that_pass(rng, plan)[1:]:
                found = dict(contradictions(plan, factors, any_slots(rng, plan)))
                if found:
                    differ += lowest_position(factors, found) != min(found)
        self.assertGreater(differ, 60)

    def test_in_the_own_set_it_is(self):
        """So no program that answers from its own set can show the difference."""
        for rng, plan in small_plans("slots positions", 80):
            factors = factors_of(plan)
            found = dict(contradictions(plan, factors, any_slots(rng, plan)))
            if found:
                self.assertEqual(lowest_position(factors, found), min(found))

    def test_two_slots_contradict_the_pivot(self):
        """Slot 0, though slot 1 has the lower position; and slot 1 where slot 0
        agrees."""
        plan, factors = one_word_plan()
        self.assertIsNone(check_factors(plan, factors))
        self.assertEqual(solve_slots(plan, factors, (1, 2, 3)), (False, (0,), (1, 0, 6)))
        self.assertEqual(solve_slots(plan, factors, (3, 2, 3)), (False, (0,), (0, 1, 6)))
        self.assertEqual(solve_slots(plan, factors, (3, 3, 3)), (True, (3,), (0, 0, 0)))
        self.assertEqual(dict(contradictions(plan, factors, (1, 2, 3))).keys(), {0, 1})
        self.assertEqual(lowest_position(factors, {0, 1}), 1)
        self.assertEqual(solve_slots(plan, factors_of(plan), (1, 2, 3)).w, (6, 1, 0))


class Edges(unittest.TestCase):
    def test_no_words(self):
        """A slot that hears nothing has 0."""
        plan = plan_of(7, 2, 0, Rows((0, 0, 0), (), ()))
        falling = Factors((1, 0), (), plan.rows, Rows((0,), (), ()), 0)
        for factors in (factors_of(plan), falling):
            self.assertIsNone(check_factors(plan, factors))
            self.assertEqual(solve_slots(plan, factors, (0, 2)), (False, (), (0, 1)))
            self.assertEqual(solve_slots(plan, factors, (3, 2)), (False, (), (1, 0)))
            self.assertEqual(solve_slots(plan, factors, (0, 0)), (True, (), (0, 0)))

    def test_no_slots(self):
        for m in (0, 3):
            plan = plan_of(7, 0, m, Rows((0,), (), ()))
            factors = factors_of(plan)
            for found in (
                slots_from_factors(plan, factors, ()),
                slots_from_certificate(plan, write(plan, factors), ()),
            ):
                self.assertEqual(found, (True, (0,) * m, ()))

    def test_longest_lines(self):
        """Ten digits for every word, and for every slot but the last."""
        lines = [ask_words(plain_text(plan), h) for plan, h in longest_lines(Random("longest"))]
        self.assertEqual([len(line) for line in lines], [5 + 2048 * 11 + 1, 13 + 2047 * 11 + 2 + 1])


class Refusals(unittest.TestCase):
    def test_refusals(self):
        """9 before all, 15 after the check and at the first value."""
        certificate = write(PLAN, FACTORS)
        other = FACTORS._replace(R=(0, 1, 2, 3, 4))
        for h, number, detail in (
            ((0, 7, 8, 0, 0), 15, 1),
            ((0, 0, 0, 0, 2**32 - 1), 15, 4),
            ((0, 0, 0, 0), 9, 0),
            ((0, 0, 0, 0, 0, 0), 9, 0),
            ((9, 9, 9, 9), 9, 0),
        ):
            wanted = Refusal(number, detail)
            self.assertEqual(slots_from_factors(PLAN, FACTORS, h), wanted)
            self.assertEqual(slots_from_certificate(PLAN, certificate, h), wanted)
        self.assertEqual(slots_from_factors(PLAN, other, (9,) * 5), Refusal(14, 1))
        self.assertEqual(slots_from_factors(PLAN, other, (9,) * 4), Refusal(9))
        self.assertEqual(slots_from_certificate(PLAN, b"", (9,) * 5), Refusal(10))
        self.assertEqual(slots_from_certificate(PLAN, b"", (9,) * 4), Refusal(9))
        self.assertEqual(slots_from_factors(PLAN._replace(p=8), FACTORS, (9,) * 5), Refusal(1))

    def test_as_many_values_as_slots(self):
        """Not as many as words."""
        for n, m in ((2, 3), (3, 2)):
            plan = build(Random("values"), dense, 7, n, m)
            factors = factors_of(plan)
            self.assertEqual(slots_from_factors(plan, factors, (0,) * m), Refusal(9))
            self.assertTrue(slots_from_factors(plan, factors, (0,) * n).solved)

    def test_stored_factors_and_certificate_answer_alike(self):
        for rng, plan in small_plans("slots forms", 80):
            for factors in sets_that_pass(rng, plan):
                certificate = write(plan, factors)
                for h in several_slots(rng, plan):
                    found = slots_from_factors(plan, factors, h)
                    self.assertEqual(found, slots_from_certificate(plan, certificate, h))

    def test_what_is_printed_by_text(self):
        """The values after the plan are those given as arguments."""
        for rng, plan in plans_of_all_sorts("slots printed", 60):
            text = plain_text(plan)
            for h in several_slots(rng, plan):
                between = rng.choice((" ", "\n"))
                after = between.join(map(str, h)).encode() + b"\n" if h else b""
                self.assertEqual(ask_words_by_text(text + after), ask_words(text, h))


class Reaches(unittest.TestCase):
    """The slot values of a run are of every sort."""

    @classmethod
    def setUpClass(cls):
        """The plan, its factors and the slot values of cases that are not refused."""
        cases = chain(
            fixed_cases("reach"),
            *(tiny_cases("reach", index, 8) for index in range(20)),
            *(plan_cases("reach", index) for index in range(60)),
        )
        cls.cases = [case for case in cases if case.call == "words"]
        cls.given = [found for case in cls.cases if (found := cls.taken(case))]

    @staticmethod
    def taken(case):
        if not case.question:
            return None
        plan = read_plan(case.text, GREATEST_ENTRIES)
        factored = plan if isinstance(plan, Refusal) else factor(plan, 20_000, 20_000)
        if isinstance(factored, Refusal) or len(case.question) != plan.n:
            return None
        if max(case.question) >= plan.p:
            return None
        return plan, factored.factors, case.question

    def assert_some(self, is_wanted, count):
        self.assertGreaterEqual(sum(is_wanted(*found) for found in self.given), count)

    def test_verdicts(self):
        self.assert_some(lambda *given: solve_slots(*given).solved, 80)
        self.assert_some(lambda *given: not solve_slots(*given).solved, 80)

    def test_words_that_are_no_pivots(self):
        """Some are solved with a word that is not 0 and a word that is no pivot."""

        def is_wanted(plan, factors, h):
            return factors.r < plan.m and any(solve_slots(plan, factors, h).s)

        self.assert_some(is_wanted, 20)

    def test_contradictions_at_several_slots(self):
        """More than one slot that contradicts, and lower ones that do not."""

        def several(*given):
            return len(list(contradictions(*given))) > 1

        def lower_agree(plan, factors, h):
            found = [slot for slot, _ in contradictions(plan, factors, h)]
            return bool(found) and min(factors.R[factors.r :]) < found[0]

        self.assert_some(several, 20)
        self.assert_some(lower_agree, 20)

    def test_no_words_and_no_slots(self):
        self.assert_some(lambda plan, factors, h: plan.m == 0 and any(h), 2)
        self.assertTrue(any(case.text == b"7\n0 3 M\n0 0 0\n" for case in self.cases))

    def test_values_after_the_plan(self):
        """With owners and without."""
        after = [case for case in self.cases if plan_end(case.text) < len(case.text)]
        self.assertGreater(sum(b"owners" in case.text for case in after), 10)
        self.assertGreater(sum(b"owners" not in case.text for case in after), 10)

    def test_worked_ones_are_among_them(self):
        self.assertLess(set(words_cases()), set(self.cases))


if __name__ == "__main__":
    unittest.main()
