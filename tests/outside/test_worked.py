"""The model against document 01's worked cases (document 01, "Report and cases")."""

import unittest
from pathlib import Path

from cases import expected
from compare import MODULI
from generate.sets import with_value
from model.ask import ask, ask_by_text, ask_settings, ask_words, ask_words_by_text
from model.certificate import write
from model.check import check_certificate
from model.factors import factor
from model.kernel import settings
from model.plan_text import read_plan
from model.questions import answer
from model.refusals import DONE, NOT_PRIME, Refusal
from model.report import refused, report
from model.slots import solve_slots
from model.sums import mixed
from samples import FACTORS, PLAN, factors_of
from sweeps import AMPLE, modulus_cases, sieve
from worked import (
    ASKED,
    CUT,
    EARLIER_D,
    EDITED,
    FACTORED,
    LARGE_PRIMES,
    NO_LARGE_MODULI,
    OWNED_D,
    PLAN_D,
    QUESTIONS,
    REFUSALS,
    REPORTS,
    ROOMS,
    SETTINGS,
    SUMS,
    WORDS,
    WORDS_ASKED,
)

EXAMPLES = Path(__file__).resolve().parents[2] / "examples"


class WorkedCases(unittest.TestCase):
    """Document 01's own numbers."""

    def test_reports(self):
        for text, output in REPORTS:
            self.assertEqual(report(text), output, text)

    def test_refusals(self):
        for text, refusal in REFUSALS:
            self.assertEqual(read_plan(text, AMPLE), refusal, text)
            self.assertEqual(report(text), refused(refusal), text)

    def test_factors(self):
        for text, structural, factors in FACTORED:
            found = factor(read_plan(text, AMPLE), AMPLE, AMPLE)
            self.assertEqual(found, (factors, structural), text)

    def test_certificates_of_plan_d(self):
        """The one that is made now, and the one that was made before slip 9."""
        for factors, length, name in ((FACTORS, 217, "D"), (EARLIER_D, 225, "D-earlier")):
            certificate = write(PLAN, factors)
            self.assertEqual(len(certificate), length)
            self.assertEqual((EXAMPLES / f"{name}.plq").read_bytes(), certificate)
            self.assertIsNone(check_certificate(PLAN, certificate))

    def test_questions(self):
        for y, output in QUESTIONS:
            self.assertEqual(ask(PLAN_D, y), output)
            self.assertEqual(ask(OWNED_D, y), output)
            self.assertEqual(answer(PLAN, EARLIER_D, y), answer(PLAN, FACTORS, y))

    def test_sums(self):
        for a, y, line, b, other, other_line, sum_line in SUMS:
            lines = [ask(PLAN_D, asked) for asked in (y, other, mixed(7, a, y, b, other))]
            self.assertEqual(lines, [line, other_line, sum_line])

    def test_questions_by_text(self):
        for text, output in ASKED:
            self.assertEqual(ask_by_text(text), output, text)

    def test_texts_that_are_cut_off(self):
        """Each is refused; by 3 at its last line where that has no line feed, and in
        plan D too, where owners may follow it."""
        for text in (*CUT, OWNED_D + b"0 0 1 6 0\n"):
            self.assertFalse(ask_by_text(text).startswith(b"refused"), text)
            for end in range(len(text)):
                cut = text[:end]
                for output in (ask_by_text(cut), ask_words_by_text(cut)):
                    self.assertTrue(output.startswith(b"refused "), cut)
                    if cut and not cut.endswith(b"\n"):
                        self.assertEqual(output, b"refused 3 at %d\n" % (cut.count(b"\n") + 1))

    def test_words(self):
        for text, h, output in WORDS:
            self.assertEqual(ask_words(text, h), output, (text, h))

    def test_words_of_plan_d(self):
        """Owners alter nothing, nor does the set that was made before slip 9: it has
        the same pivot slots and words."""
        for text, h, output in WORDS:
            if text == PLAN_D:
                self.assertEqual(ask_words(OWNED_D, h), output)
            if text == PLAN_D and not output.startswith(b"refused"):
                self.assertEqual(solve_slots(PLAN, EARLIER_D, h), solve_slots(PLAN, FACTORS, h))

    def test_words_by_text(self):
        for text, output in WORDS_ASKED:
            self.assertEqual(ask_words_by_text(text), output, text)

    def test_settings(self):
        for text, output in SETTINGS:
            self.assertEqual(ask_settings(text), output, text)

    def test_settings_of_plan_d(self):
        """By the set that was made before slip 9 too; it is the z of the closed questions."""
        for factors in (FACTORS, EARLIER_D):
            self.assertEqual(settings(PLAN, factors), ((3, 2, 1, 1, 0),))
            self.assertEqual(answer(PLAN, factors, (1, 0, 0, 0, 0)).z, (3, 2, 1, 1, 0))

    def test_empty_questions(self):
        none, word = (read_plan(b"7\n0 %d M\n0 0 0\n" % m, 0) for m in (0, 1))
        self.assertEqual(answer(none, factors_of(none), ()), (True, (), ()))
        self.assertEqual(answer(word, factors_of(word), (1,)), (False, (), (1,)))

    def test_edited_certificates(self):
        for which, place, value, refusal in EDITED:
            edited = with_value(FACTORS, which, place, value)
            self.assertEqual(check_certificate(PLAN, write(PLAN, edited)), refusal)

    def test_rooms(self):
        for lower, upper, refusal in ROOMS:
            self.assertEqual(factor(PLAN, lower, upper), refusal or (FACTORS, 4))

    def test_moduli(self):
        results = [expected(case)[0] for case in modulus_cases(range(MODULI))]
        accepted = [p for p, result in enumerate(results) if result == DONE]
        self.assertEqual(accepted, sieve(MODULI))
        self.assertEqual(sum(p <= 65_521 for p in accepted), 6_542)
        self.assertEqual(set(results), {DONE, NOT_PRIME})

    def test_large_moduli(self):
        for moduli, number in ((LARGE_PRIMES, DONE), (NO_LARGE_MODULI, NOT_PRIME)):
            for case in modulus_cases(moduli):
                self.assertEqual(expected(case)[0], number, case.text)


if __name__ == "__main__":
    unittest.main()
