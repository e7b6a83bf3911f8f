"""The comparison itself: it is content with right programs and notices wrong ones."""

import shutil
import subprocess
import sys
import tempfile
import unittest
from itertools import chain, islice
from pathlib import Path
from random import Random

from answers import (
    answer_cases,
    limit_cases,
    no_room_cases,
    report_buffer_cases,
    report_cases,
    worked_answer_cases,
)
from cases import Case, expected, keep, load
from compare import (
    ANY_CERTIFICATE,
    differences,
    fixed_cases,
    in_groups,
    plan_cases,
    settings_cases,
    tiny_cases,
    words_cases,
)
from generate.edges import edge_texts, left_edges, owned_text_of_length
from generate.left import BLOCK
from generate.texts import plain_text, varied_text
from model.limits import GREATEST_TEXT
from model.refusals import REPEATED
from odds import odds_differences, odds_lines, worked_odds
from programs import FILLER, Ask, Calls, Crash, Report, compile_driver
from samples import PLAN, small_plans
from standin import DEFECTS
from sums import found_lines, law_differences, model_differences, random_sums, worked_sums
from sweeps import EMPTY, modulus_cases
from worked import (
    AFTER_D,
    ASKED,
    FACTORED,
    LARGE_PRIMES,
    NO_LARGE_MODULI,
    OWNED_D,
    PLAN_D,
    QUESTIONS,
    REFUSALS,
)

HERE = Path(__file__).parent
HEADER = HERE.parents[1] / "include"
# Makes nothing of what it is lent, and leaves lengths there; refuses texts that open with x,
# steps outside of what it is lent where they open with y, and changes what it may only read
# where they open with w. Where they open with v it takes NULL for something else.
STUB_SOURCE = """
#include "plq.h"
static int opens(const uint8_t *text, size_t n, char with) { return n && text[0] == with; }
uint64_t plq_make_certificate(const uint8_t *text, size_t n, uint8_t *c, size_t m) {
    for (size_t i = 0; i < m; i++) c[i] = (uint8_t)m;
    if (opens(text, n, 'y')) c[m] = 0;
    return opens(text, n, 'x') ? 3 + 256 * 70000 : 0;
}
uint64_t plq_check_certificate(const uint8_t *text, size_t n, const uint8_t *c, size_t m) {
    if (opens(text, n, 'z')) __builtin_trap();
    if (opens(text, n, 'w')) ((uint8_t *)c)[m - 1] ^= 1;
    return n + m + (m ? c[0] : 0) + (n ? text[n - 1] : 0);
}
uint64_t plq_report(const uint8_t *text, size_t n, uint8_t *b, size_t m) {
    if (m) b[m - 1] = (uint8_t)m;
    if (opens(text, n, 'y')) b[-1] = 0;
    return opens(text, n, 'x') ? 9 : opens(text, n, 'v') && !b;
}
uint64_t plq_answer(const uint8_t *text, size_t n, const uint8_t *c, size_t m,
                    const uint32_t *y, size_t k, uint32_t *x, size_t a, uint32_t *z, size_t b,
                    uint8_t *verdict) {
    if (opens(text, n, 'w')) ((uint32_t *)y)[k - 1] += 1;
    if (opens(text, n, 'y')) z[b] = 0;
    if (opens(text, n, 'v') && !y) x[0] = 1;
    if (a) x[a - 1] = k ? y[k - 1] : 7;
    if (b) z[0] = (uint32_t)(m ? c[m - 1] : 8);
    if (!opens(text, n, 'x')) *verdict = (uint8_t)(a + b);
    return ((uintptr_t)x | (uintptr_t)z | (uintptr_t)y) % 4;
}
"""


class Settings(Ask):
    """The question program by its verb `settings` alone."""

    calls = ("settings",)


class ReportCall(Calls):
    """The C call that reports alone."""

    calls = ("plq_report",)


class AnswerCall(Calls):
    """The C call that answers alone."""

    calls = ("plq_answer",)


# By name the programs, and of which stand-in they are.
KINDS = {
    "report": (Report, "report"),
    "ask": (Ask, "ask"),
    "settings": (Settings, "ask"),
    "calls": (Calls, "calls"),
    "plq_report": (ReportCall, "calls"),
    "plq_answer": (AnswerCall, "calls"),
}


def standin(program, *defect):
    kind, name = KINDS[program]
    return kind([sys.executable, str(HERE / "standin.py"), name, *defect])


# The programs that must show each defect.
SHOWN_BY = {
    "passes_all": ("calls",),
    "passes_own_bytes_only": ("calls", "plq_answer"),
    "compares_stored_entries_only": ("calls",),
    "structural_pivots_only": ("calls", "report", "ask"),
    "stored_rows_left_out": ("calls", "report"),
    "block_in_pivot_order": ("calls",),
    "block_row_not_replaced": ("calls", "report"),
    "block_too_large": ("calls", "report"),
    "lower_columns_of_the_block": ("calls", "report"),
    "orders_by_column": ("calls", "report"),
    "sees_cycles_of_two_only": ("calls", "report"),
    "no_storage": ("calls", "report", "ask"),
    "storage_one_too_short": ("calls", "report"),
    "closed_always": ("report", "ask", "plq_answer"),
    "same_x_always": ("report", "ask"),
    "words_one_by_one": ("ask",),
    "answers_from_two_sets": ("ask",),
    "z_adds_up": ("ask",),
    "contradiction_always": ("ask",),
    "pivot_slots_only": ("ask",),
    "lower_diagonal_of_one": ("ask",),
    "other_word_set": ("ask",),
    "highest_slot": ("ask",),
    "opposite_contradiction": ("ask",),
    "as_many_values_as_words": ("ask",),
    "verb_forgotten_after_the_plan": ("ask",),
    "settings_of_the_pivots": ("settings",),
    "settings_falling": ("settings",),
    "one_setting_missing": ("settings",),
    "free_words_alone": ("settings",),
    "opposite_settings": ("settings",),
    "opposite_pivots": ("settings",),
    "opposite_of_zero_is_p": ("settings",),
    "rest_of_the_text_left_out": ("settings",),
    "blank_factors": ("calls",),
    "rank_made_up": ("report",),
    "rank_one_too_large": ("report",),
    "rank_one_too_small": ("report",),
    "totals_by_pivots": ("report",),
    "totals_on_a_refusal": ("report",),
    "refuses_all": ("calls", "report", "ask"),
    "no_division_by_251": ("calls",),
    "no_divisors_past_256": ("calls", "report"),
    "no_moduli_past_65521": ("calls", "report"),
    "reads_another_plan": ("calls", "report", "ask"),
    "wants_rising_triples": ("calls", "report", "ask"),
    "names_the_earlier_line": ("calls", "report"),
    "repeats_a_zero": ("calls", "report"),
    "unstated_owners_are_pads": ("report",),
    "first_owner_always": ("report", "plq_report"),
    "open_pads_left_out": ("report",),
    "pads_left_out_of_the_plan": ("calls", "report", "ask"),
    "owners_modulo_256": ("calls", "report", "ask"),
    "owners_judged_one_by_one": ("calls", "report", "ask"),
    "rest_before_large_owners": ("calls", "report"),
    "owners_past_the_limit": ("calls", "report"),
    "owners_asked": ("ask",),
    "takes_cut_values": ("ask",),
    "cut_values_before_the_plan": ("ask",),
    "leaves_refused_output": ("calls",),
    "verdict_exchanged": ("plq_answer",),
    "verdict_left_on_a_refusal": ("plq_answer",),
    "x_left_on_a_refusal": ("plq_answer",),
    "z_left_where_open": ("plq_answer",),
    "own_factors_always": ("plq_answer",),
    "factors_beside_a_certificate": ("plq_answer",),
    "no_certificate_is_a_wrong_one": ("plq_answer",),
    "certificate_not_checked": ("plq_answer",),
    "lengths_before_reading": ("plq_answer",),
    "lengths_before_factoring": ("plq_answer",),
    "lengths_after_the_certificate": ("plq_answer",),
    "values_before_the_certificate": ("plq_answer",),
    "values_from_one": ("plq_answer",),
    "last_large_value": ("plq_answer",),
    "p_is_a_residue": ("plq_answer",),
    "x_of_any_length": ("plq_answer",),
    "z_of_any_length": ("plq_answer",),
    "first_in_column_order": ("plq_answer",),
    "rows_from_one": ("plq_report", "plq_answer"),
    "report_not_padded": ("plq_report",),
    "exact_buffer_refused": ("plq_report",),
    "report_cut": ("plq_report",),
    "refusal_in_the_buffer": ("plq_report",),
    "buffer_before_reading": ("plq_report",),
}


# The plans whose settings are counted, and the defects that the numbers show in each of them.
COUNTED = ("odds: plan D", "odds: modulo 2")
COUNTING_SHOWS = {
    "report": ("rank_made_up", "rank_one_too_large", "rank_one_too_small", "refuses_all"),
    "ask": ("closed_always", "same_x_always", "words_one_by_one", "refuses_all"),
}


def block_cases():
    """Plans modulo 2 that leave 32 or 33 rows and columns."""
    for left, plan in left_edges():
        if plan.p == 2 and min(left) >= BLOCK:
            yield Case("report", plain_text(plan))
            yield Case("make", plain_text(plan), buffer_length=ANY_CERTIFICATE)


def owner_cases():
    """Plan D with owners, some of them too large, questions after it, and a text
    that is too long by its owners."""
    large = [PLAN_D + after for after, _ in AFTER_D if after.startswith(b"owners 256 1 2 2 0")]
    for text in (OWNED_D, *large, owned_text_of_length(GREATEST_TEXT + 1)):
        yield Case("report", text)
        yield Case("make", text, buffer_length=600)
    for text, _ in ASKED:
        yield Case("ask", text)


def given_cases():
    """Plan D and the other plans whose factors are worked, plan D in other words,
    slot values, plan D with owners, settings, plans at the edge of the block, repeated
    places, plans at the edge of the rooms, some moduli, and random plans."""
    texts = [text for text, _, _ in FACTORED]
    texts += [varied_text(Random(f"varied {index}"), PLAN) for index in range(3)]
    for text in texts:
        yield Case("report", text)
        yield Case("make", text, buffer_length=600)
    for y, _ in QUESTIONS:
        yield Case("ask", PLAN_D, question=y)
        yield Case("ask", texts[-1], question=y)
    yield from words_cases()
    yield from owner_cases()
    yield from settings_cases()
    yield from block_cases()
    for text in (text for text, refusal in REFUSALS if refusal.number == REPEATED):
        yield Case("report", text)
        yield Case("check", text)
    for text in islice(edge_texts(), 4):
        yield Case("report", text)
        yield Case("make", text, buffer_length=ANY_CERTIFICATE)
    yield from modulus_cases((*range(62_980, 63_020), *LARGE_PRIMES, *NO_LARGE_MODULI))
    for p in LARGE_PRIMES + NO_LARGE_MODULI:
        yield Case("report", EMPTY % p)
    yield from chain.from_iterable(plan_cases("noticed", index) for index in range(25))


CALLED = ("plq_report", "plq_answer")


def called_cases():
    """For the C calls that report and answer: plan D, small plans, damaged texts, buffers,
    and one plan without room, in any order."""
    rng = Random("called")
    cases = rng.sample(list(worked_answer_cases(rng)), 40)
    for random, plan in small_plans("called", 20):
        text = varied_text(random, plan)
        cases += [*answer_cases(random, plan, text, "called")]
        cases += [*report_cases(random, text, "called")]
    cases += chain.from_iterable(limit_cases(text) for text, _ in REFUSALS[::20])
    cases += islice(report_buffer_cases(), 16)
    cases += islice(no_room_cases(rng), 18)
    return rng.sample(cases, len(cases))


def notices(cases, program):
    """Whether a difference is found, by few cases at a time: most are found by
    the first."""
    return any(any(differences(group, [program])) for group in in_groups(cases, 40))


class Notices(unittest.TestCase):
    def test_right_programs_show_no_difference(self):
        cases = [case for index in range(4) for case in plan_cases("right", index)]
        cases += tiny_cases("right", 0, 3)
        programs = [standin("report"), standin("ask"), standin("calls")]
        self.assertEqual(list(differences(cases, programs)), [])

    def test_every_defect_is_noticed(self):
        self.assertEqual(set(SHOWN_BY), set(DEFECTS))
        given = [case for case in given_cases() if case.call not in CALLED]
        called = called_cases()
        for defect, programs in SHOWN_BY.items():
            for program in programs:
                cases = called if program in CALLED else given
                with self.subTest(defect=defect, program=program):
                    self.assertTrue(notices(cases, standin(program, defect)))

    def test_calls_show_no_difference_on_the_same_cases(self):
        """So that what a wrong stand-in shows is its defect."""
        self.assertEqual(list(differences(called_cases(), [standin("calls")])), [])

    def test_sums_show_what_does_not_add_up(self):
        """By the program's own answers, without the model's, on plan D and on two
        plans with dependent rows and closed words; the right program shows no
        difference."""
        several = [worked_sums(), random_sums("noticed", 0), random_sums("noticed", 8)]
        for sums in several:
            for defect in ("answers_from_two_sets", "z_adds_up"):
                lines = found_lines(sums, standin("ask", defect))
                self.assertTrue(any(law_differences(sums, lines)), (defect, sums[0].origin))
        for sums in several[:2]:
            lines = found_lines(sums, standin("ask"))
            self.assertEqual([*model_differences(lines), *law_differences(sums, lines)], [])

    def test_sums_take_any_line(self):
        """A line that is no answer is a difference from the model alone."""
        sums = worked_sums()
        right = {case: expected(case) for case in found_lines(sums, standin("ask"))}
        for line in (b"", b"open\n", b"closed 1\n", b"open 1 x\n", Crash("signal 6")):
            lines = dict.fromkeys(right, line)
            self.assertEqual(len(list(model_differences(lines))), len(right))
            self.assertEqual(list(law_differences(sums, lines)), [])

    def test_counting_shows_wrong_ranks_and_verdicts(self):
        """By all settings of plan D and of two slots that are the same, without the
        model; in each of the two, and with the other program right. The right
        programs show no difference."""
        several = [odds for odds in worked_odds() if odds.origin in COUNTED]
        right = odds_lines(several, [standin("report"), standin("ask")])
        self.assertEqual(list(odds_differences(several, right)), [])
        for program, defects in COUNTING_SHOWS.items():
            for defect in defects:
                lines = {**right, **odds_lines(several, [standin(program, defect)])}
                for odds in several:
                    found = [case.call for case, _, _ in odds_differences([odds], lines)]
                    self.assertIn(program, found, (defect, odds.origin))

    def test_small_plans_show_another_order_and_longer_cycles(self):
        """The worked plans without plan D."""
        cases = [Case("make", text, buffer_length=600) for text, _, _ in FACTORED[1:]]
        for defect in ("orders_by_column", "sees_cycles_of_two_only"):
            self.assertTrue(any(differences(cases, [standin("calls", defect)])), defect)


class Reaches(unittest.TestCase):
    """The cases reach every number that the programs can return, and the calls but for
    those of test_answers.py."""

    @classmethod
    def setUpClass(cls):
        calls = (*Report.calls, *Ask.calls, "make", "check")
        cls.results = {call: [] for call in calls}
        cases = chain(fixed_cases("reach"), *(plan_cases("reach", i) for i in range(30)))
        for case in cases:
            if case.call in calls:
                cls.results[case.call].append(expected(case))

    def test_numbers_of_the_calls(self):
        numbers = {number % 256 for number, _ in self.results["make"] + self.results["check"]}
        self.assertEqual(numbers, {*range(15), 16} - {8})

    def test_lines_of_the_programs(self):
        printed = self.results["report"] + self.results["ask"]
        refusals = [b"refused %d at " % number for number in (1, 2, 3, 4, 5, 6, 7, 15, 16)]
        for opening in (*refusals, b"modulus", b"open", b"closed"):
            self.assertTrue(any(line.startswith(opening) for line in printed), opening)

    def test_lines_of_the_words(self):
        refusals = [b"refused %d at " % number for number in (3, 7, 9, 15, 16)]
        for opening in (*refusals, b"words", b"contradiction"):
            found = [line for line in self.results["words"] if line.startswith(opening)]
            self.assertTrue(found, opening)

    def test_lines_of_the_settings(self):
        refusals = [b"refused %d at " % number for number in (1, 2, 3, 4, 5, 6, 7, 16)]
        for opening in (*refusals, b"free 0\n", b"free 1\n", b"free 300\n"):
            found = [line for line in self.results["settings"] if line.startswith(opening)]
            self.assertTrue(found, opening)

    def test_a_seed_gives_the_same_cases(self):
        self.assertEqual(*(list(plan_cases("same", 3)) for _ in range(2)))


class Files(unittest.TestCase):
    def test_a_kept_case_is_the_same_when_loaded(self):
        with tempfile.TemporaryDirectory() as folder:
            for case in (*plan_cases("kept", 0), Case("report", bytes(range(256)))):
                self.assertEqual(load(keep(case, Path(folder))), case)

    def test_groups(self):
        self.assertEqual(list(in_groups(range(5), 2)), [[0, 1], [2, 3], [4]])


@unittest.skipUnless(shutil.which("cc"), "no C compiler")
class Driver(unittest.TestCase):
    """driver.c with the header and a library of a few lines."""

    @classmethod
    def setUpClass(cls):
        cls.folder = tempfile.TemporaryDirectory()
        place = Path(cls.folder.name)
        (place / "stub.c").write_text(STUB_SOURCE)
        compiler = ["cc", "-Wall", "-Wextra", "-Werror", "-I", HEADER]
        subprocess.run([*compiler, "-c", "stub.c", "-o", "stub.o"], cwd=place, check=True)
        cls.driver = Calls(compile_driver(place / "stub.o", HEADER, place))

    @classmethod
    def tearDownClass(cls):
        cls.folder.cleanup()

    def results(self, *cases):
        return list(self.driver.results(cases))

    def assert_crash(self, case, word):
        (found,) = self.results(case)
        self.assertIsInstance(found, Crash)
        self.assertIn(word, found.reason)

    def test_results_in_order(self):
        found = self.results(
            Case("make", b"ab", buffer_length=3),
            Case("make", b"x", buffer_length=0),
            Case("check", b"abc", certificate=b"\x10\x00"),
            Case("check", b"", certificate=b""),
            Case("plq_report", b"ab", buffer_length=3),
            Case("plq_report", b"x", buffer_length=0),
        )
        wanted = [
            (0, b"\3\3\3"),
            (3 + 256 * 70_000, b""),
            (3 + 2 + 16 + ord("c"), b""),
            (0, b""),
            (0, FILLER * 2 + b"\3"),
            (9, b""),
        ]
        self.assertEqual(found, wanted)

    def test_answers(self):
        """Every cell, the untouched ones as they were; cells of 32 bits at addresses that
        suit them; empty parts."""
        other = int.from_bytes(FILLER * 4, "little")
        question = {"question": (1, 2**32 - 2), "certificate": b"\1\2"}
        found = self.results(
            Case("plq_answer", b"a", **question, x_length=3, z_length=2),
            Case("plq_answer", b"x", **question, x_length=1, z_length=1),
            Case("plq_answer", b"", x_length=2, z_length=1),
            Case("plq_answer", b"a"),
        )
        wanted = [
            (0, 5, (other, other, 2**32 - 2), (2, other)),
            (0, FILLER[0], (2**32 - 2,), (2,)),
            (0, 3, (other, 7), (8,)),
            (0, 0, (), ()),
        ]
        self.assertEqual(found, wanted)

    def test_steps_outside_are_reported(self):
        self.assert_crash(Case("make", b"y", buffer_length=3), "not lent")
        self.assert_crash(Case("plq_report", b"y", buffer_length=3), "not lent")
        self.assert_crash(Case("plq_answer", b"y", x_length=1, z_length=2), "not lent")

    def test_changes_of_what_is_only_read_are_reported(self):
        self.assert_crash(Case("check", b"w", certificate=b"ab"), "not lent")
        self.assert_crash(Case("plq_answer", b"w", question=(1, 2)), "not lent")

    def test_null_for_what_is_empty(self):
        self.assert_crash(Case("plq_report", b"v"), "NULL")
        self.assert_crash(Case("plq_answer", b"v", x_length=2, z_length=1), "NULL")

    def test_a_crash_costs_one_case(self):
        found = self.results(
            Case("check", b"a"), Case("check", b"z"), Case("make", b"a", buffer_length=1)
        )
        self.assertEqual(found[0], (1 + ord("a"), b""))
        self.assertIsInstance(found[1], Crash)
        self.assertEqual(found[2], (0, b"\1"))

    def test_many_batches(self):
        lengths = [i % 7 for i in range(1_000)]
        found = self.results(*(Case("check", bytes(length)) for length in lengths))
        self.assertEqual([number for number, _ in found], lengths)

    def test_wrong_results_are_differences(self):
        case = Case("make", PLAN_D, buffer_length=400)
        (found,) = differences([case], [self.driver])
        self.assertEqual(found.wanted, expected(case))
        self.assertNotIn(FILLER, found.found[1])


if __name__ == "__main__":
    unittest.main()
