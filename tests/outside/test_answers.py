"""The C calls that report and answer, in the model; and those of a run, which are of every sort."""

import unittest
from collections import Counter
from itertools import chain, product

from answers import (
    LARGEST_REPORT,
    LONGER,
    NONE,
    fixed_answer_cases,
    limit_cases,
    no_room_sets,
    refused_certificates,
)
from cases import expected
from compare import plan_cases, tiny_cases
from generate.plans import tiny_plan
from generate.questions import (
    all_lengths,
    any_residues,
    rightly,
    too_large,
    wrong_lengths,
)
from generate.sets import damaged_set, foreign_set
from generate.texts import plain_text
from model import enumeration
from model.calls import Answered, answer, check_certificate, report
from model.certificate import parse, write
from model.factors import factor
from model.limits import GREATEST_ENTRIES
from model.plan_text import read_plan
from model.questions import answer as answer_by
from model.refusals import HEADER, LENGTH, QUESTION_VALUE, ROOM, Refusal, encoded
from model.report import report as printed_report
from samples import FACTORS, PLAN, factors_of, plans, sets_that_pass, small_plans
from worked import (
    ANSWERS,
    EARLIER_D,
    OTHER_D,
    OWNED_D,
    PLAN_D,
    QUESTIONS,
    REFUSALS,
    REPORTS,
)

OWN = write(PLAN, FACTORS)
ZEROS = (0,) * 5
# No plan's reading gives 7 or 9 to 15; 8 is no call's.
READING = {1, 2, 3, 4, 5, 6, 16}
CHECKING = {10, 11, 12, 13, 14}


class Reporting(unittest.TestCase):
    def test_worked_reports(self):
        """Into a buffer of their length, and longer; one byte less is 9."""
        for text, lines in REPORTS:
            length = len(lines)
            self.assertEqual(report(text, length), (0, lines))
            self.assertEqual(report(text, LARGEST_REPORT), (0, lines.ljust(LARGEST_REPORT, b"\0")))
            self.assertEqual(report(text, length - 1), (LENGTH, bytes(length - 1)))
            self.assertEqual(report(text, 0), (LENGTH, b""))

    def test_every_worked_report_is_shorter_than_the_largest(self):
        self.assertTrue(39_000 < max(len(lines) for _, lines in REPORTS) < LARGEST_REPORT)

    def test_reading_comes_before_the_buffer(self):
        for text, refusal in REFUSALS:
            for length in (0, 50):
                self.assertEqual(report(text, length), (encoded(refusal), bytes(length)))

    def test_factoring_comes_before_the_buffer(self):
        """The row counts from 0, and in print from 1."""
        for plan, _ in no_room_sets():
            text = plain_text(plan)
            refusal = factor(plan, GREATEST_ENTRIES, GREATEST_ENTRIES)
            self.assertEqual(refusal.number, ROOM)
            for length in (0, LARGEST_REPORT):
                self.assertEqual(report(text, length), (encoded(refusal), bytes(length)))
            self.assertEqual(printed_report(text), b"refused 7 at %d\n" % (refusal.detail + 1))


class Answering(unittest.TestCase):
    def assert_refused(self, refusal, text, certificate, asked):
        zeros = (0,) * asked.x_length, (0,) * asked.z_length
        found = answer(text, certificate, *asked)
        self.assertEqual(found, (encoded(refusal), 0, *zeros))

    def test_worked_answers(self):
        """From another set the same verdict, and its own x and z."""
        for y, verdict, own, other in ANSWERS:
            for certificate, value in (
                (NONE, own),
                (OWN, own),
                (write(PLAN, EARLIER_D), own),
                (write(PLAN, OTHER_D), other),
            ):
                x, z = (value, ZEROS) if verdict else (ZEROS, value)
                for text in (PLAN_D, OWNED_D):
                    found = answer(text, certificate, *rightly(PLAN, y))
                    self.assertEqual(found, Answered(0, verdict, x, z))

    def test_worked_answers_are_the_printed_ones(self):
        for (y, line), (question, verdict, own, _) in zip(QUESTIONS, ANSWERS, strict=True):
            word = b"open" if verdict else b"closed"
            self.assertEqual((y, line), (question, b"%b %d %d %d %d %d\n" % (word, *own)))

    def test_empty_plans(self):
        """Document 01's: no slots and no words; and one word that nobody hears."""
        self.assertEqual(answer(b"7\n0 0 M\n0 0 0\n", NONE, (), 0, 0), (0, 1, (), ()))
        self.assertEqual(answer(b"7\n0 1 M\n0 0 0\n", NONE, (1,), 0, 1), (0, 0, (), (1,)))

    def test_answers_by_enumeration(self):
        """On tiny plans, from none and from a foreign certificate."""
        for rng, plan in plans("answers", 60, tiny_plan):
            text = plain_text(plan)
            foreign = foreign_set(rng, plan)
            questions = list(product(range(plan.p), repeat=plan.m))
            for y in rng.sample(questions, min(5, len(questions))):
                for certificate, (R, C, _, _, r) in (
                    (NONE, factors_of(plan)),
                    (write(plan, foreign), foreign),
                ):
                    wanted = enumeration.answer(plan, R[:r], C[:r], y)
                    found = answer(text, certificate, *rightly(plan, y))
                    self.assertEqual(found, (0, *wanted))

    def test_sets_that_pass_give_one_verdict(self):
        for rng, plan in small_plans("verdict", 60):
            text, asked = plain_text(plan), rightly(plan, any_residues(rng, plan))
            certificates = [write(plan, held) for held in sets_that_pass(rng, plan)]
            found = [answer(text, certificate, *asked) for certificate in (NONE, *certificates)]
            self.assertEqual(len({(number, verdict) for number, verdict, _, _ in found}), 1)
            self.assertEqual(found[0], found[1])

    def test_every_wrong_length_is_refused(self):
        """And no right one, whatever else is wrong."""
        large = (7, *ZEROS[1:])
        for certificate, y, number in (
            (NONE, ZEROS, 0),
            (NONE, large, QUESTION_VALUE),
            (OWN, ZEROS, 0),
            (OWN, large, QUESTION_VALUE),
            (OWN[:-1], large, HEADER),
        ):
            for asked in all_lengths(PLAN, y):
                if asked == rightly(PLAN, y):
                    self.assertEqual(answer(PLAN_D, certificate, *asked).number, number)
                else:
                    self.assert_refused(Refusal(LENGTH), PLAN_D, certificate, asked)

    def test_reading_comes_first(self):
        for text, refusal in REFUSALS:
            for certificate in (NONE, OWN, b"x"):
                for asked in all_lengths(PLAN, (8,) * 5):
                    self.assert_refused(refusal, text, certificate, asked)

    def test_order_with_a_certificate(self):
        """9, then 10 to 14, then 15."""
        refused = refused_certificates(PLAN, FACTORS)
        self.assertEqual({refusal.number for _, refusal in refused}, CHECKING)
        for certificate, refusal in refused:
            for y in (ZEROS, (8,) * 5):
                self.assert_refused(refusal, PLAN_D, certificate, rightly(PLAN, y))
                self.assert_refused(Refusal(LENGTH), PLAN_D, certificate, rightly(PLAN, y[1:]))

    def test_the_first_value_that_is_too_large(self):
        for certificate in (NONE, OWN, write(PLAN, OTHER_D)):
            for place, value in product(range(5), (7, 8, 2**32 - 1)):
                y = (*ZEROS[:place], value, *(9,) * 5)[:5]
                refusal = Refusal(QUESTION_VALUE, place)
                self.assert_refused(refusal, PLAN_D, certificate, rightly(PLAN, y))
            self.assertEqual(answer(PLAN_D, certificate, *rightly(PLAN, (6,) * 5)).number, 0)

    def test_certificates_are_judged_as_by_the_check(self):
        for rng, plan in small_plans("judged", 60):
            text = plain_text(plan)
            for start in sets_that_pass(rng, plan):
                certificate = write(plan, damaged_set(rng, plan, start))
                number = check_certificate(text, certificate)
                asked = rightly(plan, any_residues(rng, plan))
                self.assertEqual(answer(text, certificate, *asked).number, number)

    def test_no_room(self):
        """7 comes before 9 and 15; with a certificate of any size nothing is factored."""
        for plan, held in no_room_sets():
            text = plain_text(plan)
            refusal = factor(plan, GREATEST_ENTRIES, GREATEST_ENTRIES)
            y = tuple(j % plan.p for j in range(plan.m))
            for question in (y, y[1:], (plan.p,) * plan.m):
                self.assert_refused(refusal, text, NONE, rightly(plan, question))
            is_open, x, z = answer_by(plan, held, y)
            found = answer(text, write(plan, held), *rightly(plan, y))
            self.assertEqual(found, (0, int(is_open), x, z))
            self.assert_refused(Refusal(LENGTH), text, write(plan, held), rightly(plan, y[1:]))


class Questions(unittest.TestCase):
    """What is generated is what it says."""

    def test_values(self):
        for rng, plan in small_plans("values", 80):
            self.assertTrue(all(value < plan.p for value in any_residues(rng, plan)))
            large = [value for value in too_large(rng, plan) if value >= plan.p]
            self.assertEqual(bool(large), plan.m > 0)
            self.assertTrue(all(value < 2**32 for value in large))

    def test_lengths(self):
        for rng, plan in small_plans("lengths", 80):
            y = any_residues(rng, plan)
            self.assertEqual(len(y), plan.m)
            asked = wrong_lengths(rng, plan, y)
            wanted = (plan.m, plan.n, plan.m)
            self.assertNotEqual((len(asked.y), *asked[1:]), wanted)
            self.assertTrue(min(asked[1:]) >= 0)
            self.assertEqual(all_lengths(plan, y).count(rightly(plan, y)), 1)


class Reaches(unittest.TestCase):
    """The cases of a run are of every sort."""

    @classmethod
    def setUpClass(cls):
        cases = chain(
            fixed_answer_cases("reach"),
            *(limit_cases(text) for text, _ in REFUSALS),
            *(tiny_cases("reach", index, 8) for index in range(10)),
            *(plan_cases("reach", index) for index in range(40)),
        )
        cls.found = {"plq_report": [], "plq_answer": []}
        for case in cases:
            if case.call in cls.found:
                cls.found[case.call].append((case, expected(case)))
        cls.answers = [
            (case, read_plan(case.text, GREATEST_ENTRIES), found)
            for case, found in cls.found["plq_answer"]
        ]
        cls.given = [answered for answered in cls.answers if answered[2].number == 0]

    def numbers(self, is_wanted):
        return {found.number % 256 for case, _, found in self.answers if is_wanted(case)}

    def assert_some(self, count, found):
        self.assertGreaterEqual(len(list(found)), count)

    def test_numbers(self):
        reported = {number % 256 for _, (number, _) in self.found["plq_report"]}
        self.assertEqual(reported, {0, 7, 9} | READING)
        without = self.numbers(lambda case: not case.certificate)
        self.assertEqual(without, {0, 7, 9, 15} | READING)
        with_one = self.numbers(lambda case: case.certificate)
        self.assertEqual(with_one, {0, 9, 15} | READING | CHECKING)

    def test_what_is_left(self):
        """After a refusal zeros, as many as were lent; else the one that is no answer is
        zero, and the other what document 01 says of it."""
        for case, plan, (number, verdict, x, z) in self.answers:
            self.assertEqual((len(x), len(z)), (case.x_length, case.z_length))
            self.assertFalse(any(z) if verdict else any(x))
            if number:
                self.assertFalse(verdict or any(z))
            elif plan.n * plan.m <= 400:
                rows = enumeration.full_rows(plan)
                if verdict:
                    self.assertEqual(enumeration.times_rows(x, rows, plan.m, plan.p), case.question)
                else:
                    self.assertFalse(any(enumeration.times_setting(rows, z, plan.p)))
                    self.assertTrue(sum(a * b for a, b in zip(case.question, z)) % plan.p)

    def test_sets(self):
        """Open and closed, from no certificate, from the engine's own and from foreign
        ones; and many of these with another x or z than the engine's."""
        counts = Counter()
        for case, plan, found in self.given:
            factored = factor(plan, GREATEST_ENTRIES, GREATEST_ENTRIES)
            sort = "none" if not case.certificate else "foreign"
            if case.certificate and not isinstance(factored, Refusal):
                held = parse(plan, case.certificate)
                if held == factored.factors:
                    sort = "own"
                else:
                    _, x, z = answer_by(plan, factored.factors, case.question)
                    counts["other", found.verdict] += (x, z) != (found.x, found.z)
            counts[sort, found.verdict] += 1
        for sort in product(("none", "own", "foreign", "other"), (0, 1)):
            self.assertGreaterEqual(counts[sort], 10, (sort, counts))

    def test_answered_though_there_is_no_room(self):
        self.assert_some(
            4,
            (
                case
                for case, plan, _ in self.given
                if isinstance(factor(plan, GREATEST_ENTRIES, GREATEST_ENTRIES), Refusal)
            ),
        )

    def test_questions(self):
        """One word, zeros, all words; and a value that is too large at the first place, at
        the last, and first of several."""
        for verdict in (0, 1):
            asked = [case.question for case, _, found in self.given if found.verdict == verdict]
            asked = [sorted(y) for y in asked if len(y) > 1]
            self.assert_some(20, (y for y in asked if y[-2:] == [0, 1]))
            self.assert_some(20, (y for y in asked if y[0] > 0))
        self.assert_some(20, (y for y in asked if y[-1] == 0))
        large = [
            (found.number // 256, case.question, plan)
            for case, plan, found in self.answers
            if found.number % 256 == QUESTION_VALUE and plan.m > 1
        ]
        self.assert_some(20, (place for place, _, _ in large if place == 0))
        self.assert_some(20, (place for place, _, plan in large if place == plan.m - 1))
        several = (y for place, y, plan in large if sum(value >= plan.p for value in y) > 1)
        self.assert_some(20, several)
        self.assert_some(10, (place for place, y, plan in large if y[place] == plan.p))

    def test_lengths(self):
        """Each of the three alone, shorter and longer, with a certificate and without;
        and x and z exchanged."""
        sorts = Counter()
        for case, plan, found in self.answers:
            if found.number != LENGTH:
                continue
            by = (len(case.question) - plan.m, case.x_length - plan.n, case.z_length - plan.m)
            if by.count(0) == 2:
                at = next(place for place in range(3) if by[place])
                sorts[at, by[at] > 0, bool(case.certificate)] += 1
            exchanged = (case.x_length, case.z_length) == (plan.m, plan.n)
            sorts["exchanged"] += exchanged and plan.n != plan.m
        for sort in product(range(3), (False, True), (False, True)):
            self.assertGreaterEqual(sorts[sort], 5, sort)
        self.assertGreaterEqual(sorts["exchanged"], 5)

    def test_refused_by_reading_with_lengths_of_no_plan(self):
        self.assert_some(
            20,
            (
                case
                for case, _, found in self.answers
                if found.number % 256 in READING and len(case.question) != case.z_length
            ),
        )

    def test_buffers(self):
        """As long as the report, one byte shorter, none, and the longest; with a report and
        with a refusal by the text."""
        lengths = Counter()
        for case, (number, left) in self.found["plq_report"]:
            size = case.buffer_length
            if number in (0, LENGTH):
                lengths["given", size - len(printed_report(case.text))] += 1
            lengths[number in (0, LENGTH), size] += 1
        for sort in (("given", 0), ("given", -1), ("given", 1), (True, 0), (False, 0)):
            self.assertGreaterEqual(lengths[sort], 10, sort)
        for sort in ((True, LARGEST_REPORT), (True, LONGER), (False, LARGEST_REPORT)):
            self.assertGreaterEqual(lengths[sort], 10, sort)

    def test_every_part_is_empty_in_some_case(self):
        """For each of them NULL is handed over, also where the call is not refused."""
        for part in ("certificate", "question", "x_length", "z_length"):
            self.assert_some(10, (case for case, _, _ in self.given if not getattr(case, part)))
        one_empty = (case for case, _, _ in self.given if case.x_length and not case.z_length)
        self.assert_some(2, one_empty)
        for call in self.found:
            self.assert_some(1, (case for case, _ in self.found[call] if not case.text))


if __name__ == "__main__":
    unittest.main()
