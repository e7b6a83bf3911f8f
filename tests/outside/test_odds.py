"""Even odds in the model: slip 8's sentences, by every set that passes, with all settings counted; wrong
ranks and verdicts are noticed; and the plans and questions of a run."""

import re
import unittest
from collections import Counter
from itertools import chain

from cases import expected
from generate.odds import MODULI, all_questions, most_words, odds_plan
from generate.plans import tiny_plan
from model import enumeration
from model.certificate import parse, write
from model.enumeration import MOST_SETTINGS, settings_by_slots, value_counts
from model.plan_text import read_plan
from model.questions import answer, open_words
from odds import (
    bears_out,
    fixed_odds,
    has_even_groups,
    has_even_values,
    odds_differences,
    odds_lines,
    random_odds,
    verdict_counts,
    worked_odds,
)
from programs import Crash
from samples import FACTORS, PLAN, factors_of, plans, sets_that_pass
from sweeps import AMPLE
from worked import EARLIER_D, ODDS, PLAN_D


class Model:
    """Both programs, made of the model."""

    calls = ("report", "ask")

    def results(self, cases):
        return map(expected, cases)


def verdict(plan, factors, y):
    return "open" if answer(plan, factors, y).is_open else "closed"


def other(verdict):
    return "closed" if verdict == "open" else "open"


def with_rank(report, change):
    """The report with another rank, and right but for this."""
    return re.sub(
        rb"(?m)^rank ([0-9]+)", lambda found: b"rank %d" % (int(found[1]) + change), report
    )


def with_other_verdict(line):
    return b"closed\n" if line.startswith(b"open") else b"open\n"


def sampled_plans(name, count):
    """Plans as a run has them, and as the other tests have them."""
    yield from plans(name, count, odds_plan)
    yield from plans(name, count, tiny_plan)


class Sentences(unittest.TestCase):
    def test_groups_hold_every_setting_once(self):
        for _, plan in sampled_plans("odds groups", 30):
            groups = settings_by_slots(plan)
            every = Counter(chain.from_iterable(groups.values()))
            self.assertEqual(every, Counter(enumeration.combinations(plan.p, plan.m)))
            rows = enumeration.full_rows(plan)
            for slots, settings in groups.items():
                for s in settings:
                    self.assertEqual(enumeration.times_setting(rows, s, plan.p), slots)

    def test_values_are_of_every_setting(self):
        """Each of a group gives the question one value, a residue."""
        for rng, plan in sampled_plans("odds values", 30):
            groups = settings_by_slots(plan)
            for y in all_questions(rng, plan):
                counted = value_counts(plan.p, groups, y)
                self.assertEqual(counted.keys(), groups.keys())
                for slots, counts in counted.items():
                    self.assertEqual(sum(counts.values()), len(groups[slots]))
                    self.assertTrue(all(0 <= value < plan.p for value in counts))

    def test_sets_of_any_maker(self):
        """As certificates: the rank, and the verdicts on questions of every sort."""
        counted = Counter()
        for rng, plan in sampled_plans("odds sets", 50):
            groups = settings_by_slots(plan)
            questions = all_questions(rng, plan)
            for factors in sets_that_pass(rng, plan)[::2]:
                held = parse(plan, write(plan, factors))
                self.assertTrue(has_even_groups(plan, groups, held.r))
                for y in questions:
                    told = verdict(plan, held, y)
                    self.assertTrue(bears_out(plan, groups, held.r, told, y), (plan, y))
                    counted[told] += 1
        self.assertGreater(counted["open"], 500)
        self.assertGreater(counted["closed"], 500)

    def test_every_question(self):
        """On plans of at most a hundred settings, thus of at most as many questions."""
        for _, plan in plans("odds questions", 60, tiny_plan):
            if plan.p**plan.m > 100:
                continue
            groups, factors = settings_by_slots(plan), factors_of(plan)
            for y in enumeration.combinations(plan.p, plan.m):
                told = verdict(plan, factors, y)
                self.assertTrue(bears_out(plan, groups, factors.r, told, y), (plan, y))

    def test_as_many_groups_as_the_rank_tells(self):
        """p to the power r; the rank is that of the rows, by trying everything."""
        for _, plan in plans("odds rank", 40, tiny_plan):
            found = len(settings_by_slots(plan))
            self.assertEqual(found, plan.p ** enumeration.rank(plan))

    def test_wrong_ranks_are_noticed(self):
        """By the groups, and by every closed question."""
        for rng, plan in sampled_plans("odds wrong ranks", 50):
            groups, factors = settings_by_slots(plan), factors_of(plan)
            questions = all_questions(rng, plan)
            closed = [y for y in questions if not answer(plan, factors, y).is_open]
            for rank in {factors.r + 1, max(factors.r, 1) - 1} - {factors.r}:
                self.assertFalse(has_even_groups(plan, groups, rank))
                for y in closed:
                    self.assertFalse(has_even_values(plan, groups, rank, y))

    def test_wrong_verdicts_are_noticed(self):
        for rng, plan in sampled_plans("odds wrong verdicts", 50):
            groups, factors = settings_by_slots(plan), factors_of(plan)
            for y in all_questions(rng, plan):
                told = other(verdict(plan, factors, y))
                self.assertFalse(bears_out(plan, groups, factors.r, told, y), (plan, y))

    def test_one_setting_in_another_group_is_noticed(self):
        """Though the number of groups and of settings stays."""
        groups = settings_by_slots(PLAN)
        first, second, *_ = groups
        moved = {**groups, first: groups[first][1:], second: [groups[first][0], *groups[second]]}
        self.assertTrue(has_even_groups(PLAN, groups, 4))
        self.assertFalse(has_even_groups(PLAN, moved, 4))
        self.assertTrue(has_even_values(PLAN, groups, 4, (1, 0, 0, 0, 0)))
        self.assertFalse(has_even_values(PLAN, moved, 4, (1, 0, 0, 0, 0)))


class Named(unittest.TestCase):
    """The worked plans, among them every edge."""

    def test_numbers_by_hand(self):
        for odds, (text, lists, size, *asked) in zip(worked_odds(), ODDS.values(), strict=True):
            groups = settings_by_slots(odds.plan)
            self.assertEqual(Counter(map(len, groups.values())), {size: lists}, odds.origin)
            for y, values, settings in asked:
                for counts in value_counts(odds.plan.p, groups, y).values():
                    self.assertEqual(Counter(counts.values()), {settings: values}, (text, y))

    def test_numbers_by_rank_and_verdict(self):
        for odds, (_, _, _, *asked) in zip(worked_odds(), ODDS.values(), strict=True):
            groups, factors = settings_by_slots(odds.plan), factors_of(odds.plan)
            self.assertTrue(has_even_groups(odds.plan, groups, factors.r), odds.origin)
            for y, values, _ in asked:
                told = verdict(odds.plan, factors, y)
                self.assertEqual(told, "open" if values == 1 else "closed")
                self.assertTrue(bears_out(odds.plan, groups, factors.r, told, y))

    def test_limit(self):
        """All but plan D are within it, and one reaches it."""
        tried = {odds.text: odds.plan.p**odds.plan.m for odds in worked_odds()}
        self.assertEqual(tried.pop(PLAN_D), 16_807)
        self.assertEqual(max(tried.values()), MOST_SETTINGS)
        for p in MODULI:
            self.assertTrue(p ** most_words(p) <= MOST_SETTINGS < p ** (most_words(p) + 1))

    def test_plan_d_by_an_earlier_set(self):
        groups = settings_by_slots(PLAN)
        for factors in (FACTORS, EARLIER_D):
            self.assertTrue(has_even_groups(PLAN, groups, factors.r))
            for y, values, _ in ODDS["plan D"][3:]:
                is_open = answer(PLAN, factors, y).is_open
                self.assertEqual(is_open, values == 1)

    def test_without_words(self):
        """The empty setting alone, and the empty question: its value is 0."""
        for name in ("no slots and no words", "no words", "no words, largest modulus"):
            (odds,) = [odds for odds in worked_odds() if odds.origin == f"odds: {name}"]
            groups = settings_by_slots(odds.plan)
            self.assertEqual(groups, {(0,) * odds.plan.n: [()]})
            self.assertEqual(value_counts(odds.plan.p, groups, ()), {(0,) * odds.plan.n: {0: 1}})
            self.assertFalse(has_even_values(odds.plan, groups, 0, ()))

    def test_where_the_slots_fix_every_word_no_question_is_closed(self):
        """Not even by a power of p that is taken for 1."""
        for _, plan in sampled_plans("odds fixed", 60):
            groups, factors = settings_by_slots(plan), factors_of(plan)
            if factors.r < plan.m:
                continue
            for y in list(enumeration.combinations(plan.p, plan.m))[:20]:
                self.assertTrue(answer(plan, factors, y).is_open)
                self.assertFalse(has_even_values(plan, groups, factors.r, y))


class Lines(unittest.TestCase):
    """What the programs print beside what is counted: the worked plans, and some others."""

    @classmethod
    def setUpClass(cls):
        cls.several = [*worked_odds()[1:], *(random_odds("lines", index) for index in range(8))]
        cls.right = odds_lines(cls.several, [Model()])

    def changed(self, call, change):
        """The cases of the call, and those found where their lines are changed."""
        lines = {
            case: change(line) if case.call == call else line for case, line in self.right.items()
        }
        cases = {case for case in lines if case.call == call}
        return cases, [difference.case for difference in odds_differences(self.several, lines)]

    def test_right_lines(self):
        self.assertEqual(list(odds_differences(self.several, self.right)), [])

    def test_wrong_ranks(self):
        """Found in every report, and only there."""
        for change in (-1, 1, 2, 40):
            reports, found = self.changed("report", lambda line: with_rank(line, change))
            self.assertEqual(Counter(found), Counter(reports))

    def test_wrong_verdicts(self):
        """Found in every question, and only there."""
        questions, found = self.changed("ask", with_other_verdict)
        self.assertEqual(Counter(found), Counter(questions))

    def test_one_verdict_for_all(self):
        opened, closed = verdict_counts(self.right)
        for line, wrong in ((b"open\n", closed), (b"closed\n", opened)):
            _, found = self.changed("ask", lambda _, line=line: line)
            self.assertEqual(len(found), wrong)

    def test_any_line(self):
        """One that tells nothing is a difference."""
        for line in (b"", b"rank\n", b"refused 3 at 1\n", b"rank 10000 of\n", Crash("signal 6")):
            for call in ("report", "ask"):
                cases, found = self.changed(call, lambda _, line=line: line)
                self.assertEqual(Counter(found), Counter(cases))

    def test_numbers_that_are_shown(self):
        """Of two slots that are the same, by a rank that is too large and by wrong verdicts."""
        (odds,) = [odds for odds in worked_odds() if odds.origin == "odds: modulo 2"]
        right = odds_lines([odds], [Model()])

        def shown(old, new):
            lines = {case: line.replace(old, new) for case, line in right.items()}
            found = odds_differences([odds], lines)
            return [(case.call, wanted, found) for case, wanted, found in found]

        sizes = "settings for each list of slots: [4]"
        self.assertEqual(shown(b"rank 1", b"rank 2"), [("report", sizes, "rank 2: 2^1")])
        counted = "settings for each value where the slots are (0, 0): "
        self.assertEqual(
            shown(b"open 1 0", b"closed 1 1 0"),
            [("ask", counted + "{0: 4}", "closed, rank 1: each value 2^1")],
        )
        self.assertEqual(
            shown(b"closed 1 1 0", b"open 1 0"),
            [("ask", counted + "{0: 2, 1: 2}", "open, rank 1: one value")] * 2,
        )


class Reaches(unittest.TestCase):
    """The plans and questions of a run are of every sort."""

    @classmethod
    def setUpClass(cls):
        cls.random = [random_odds("reach", index) for index in range(114)]
        cls.several = [*fixed_odds("reach"), *cls.random]
        cls.ranks = {odds: factors_of(odds.plan).r for odds in cls.several}

    def assert_some(self, is_wanted, count):
        found = [odds for odds in self.several if is_wanted(odds.plan, self.ranks[odds])]
        self.assertGreaterEqual(len(found), count)

    def verdicts(self, odds):
        factors = factors_of(odds.plan)
        return {y: answer(odds.plan, factors, y).is_open for y in odds.questions}

    def test_plans(self):
        self.assert_some(lambda plan, r: plan.m == 0, 5)
        self.assert_some(lambda plan, r: plan.n == 0 < plan.m, 10)
        self.assert_some(lambda plan, r: r == 0 < plan.m and plan.n, 5)
        self.assert_some(lambda plan, r: r == plan.m > 1, 10)
        self.assert_some(lambda plan, r: r == plan.n > 1, 10)
        self.assert_some(lambda plan, r: 0 < r < plan.m - 1 and r < plan.n, 10)
        self.assert_some(lambda plan, r: r == plan.m - 1, 10)
        self.assert_some(lambda plan, r: plan.p == 2 and 0 < r < plan.m, 10)
        self.assert_some(lambda plan, r: plan.p > 2 and 0 < r < plan.m, 20)
        self.assert_some(lambda plan, r: plan.p > 7 and plan.m, 10)

    def test_sizes(self):
        """Some near the limit, none past it but plan D."""
        tried = sorted(odds.plan.p**odds.plan.m for odds in self.several)
        self.assertEqual(tried[-1], 16_807)
        self.assertLessEqual(tried[-2], MOST_SETTINGS)
        self.assertGreater(sum(number > MOST_SETTINGS // 4 for number in tried), 20)

    def test_questions(self):
        """Open and closed ones; every word's own, zeros, and what the slots hear."""
        opened, closed = verdict_counts(odds_lines(self.several, [Model()]))
        self.assertGreater(opened, 200)
        self.assertGreater(closed, 200)
        for odds in self.several:
            units = {tuple(int(i == j) for i in range(odds.plan.m)) for j in range(odds.plan.m)}
            self.assertLessEqual({(0,) * odds.plan.m, *units}, set(odds.questions))
            rows = map(tuple, enumeration.full_rows(odds.plan))
            self.assertTrue(odds.plan.n == 0 or any(row in odds.questions for row in rows))

    def test_open_questions_of_closed_words(self):
        """Several words, none of them open."""

        def is_sum(odds, y):
            opened = open_words(odds.plan, factors_of(odds.plan))
            return any(y) and not any(y[j] for j in opened)

        found = [
            odds
            for odds in self.several
            if any(is_open and is_sum(odds, y) for y, is_open in self.verdicts(odds).items())
        ]
        self.assertGreater(len(found), 20)

    def test_a_closed_question_unless_the_slots_fix_every_word(self):
        for odds in self.several:
            has_closed = not all(self.verdicts(odds).values())
            self.assertEqual(has_closed, self.ranks[odds] < odds.plan.m)

    def test_texts(self):
        """They state the plan, with owners or without."""
        for odds in self.several:
            self.assertEqual(read_plan(odds.text, AMPLE), odds.plan)
        owned = sum(b"owners" in odds.text for odds in self.random)
        self.assertTrue(20 < owned < len(self.random) - 20)

    def test_a_seed_gives_the_same(self):
        self.assertEqual(*(random_odds("same", 3) for _ in range(2)))
        self.assertEqual(*(fixed_odds("same") for _ in range(2)))


if __name__ == "__main__":
    unittest.main()
