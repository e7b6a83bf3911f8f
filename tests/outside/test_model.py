"""Reading and factoring in the model: variations, enumeration, every room and owners."""

import re
import unittest
from itertools import combinations, product

from generate import edges, sets, texts
from generate.plans import tiny_plan
from model import enumeration, structure
from model.ask import ask
from model.calls import check_certificate as check_call
from model.calls import make_certificate as make_call
from model.certificate import write
from model.check import check_certificate, check_factors
from model.factors import factor
from model.limits import GREATEST_ENTRIES, GREATEST_VALUE
from model.plan_text import read_plan
from model.questions import open_words
from model.refusals import Refusal
from model.report import report
from model.storage import Plan, Rows, plan_of, plan_refusal, row
from samples import FACTORS, PLAN, factors_of, plans, small_plans
from sweeps import AMPLE, reading_differences, room_differences


class Reading(unittest.TestCase):
    def test_every_variation_states_the_plan(self):
        for rng, plan in plans("variations", 150):
            self.assertEqual(read_plan(texts.plain_text(plan), AMPLE), plan)
            self.assertEqual(read_plan(texts.varied_text(rng, plan), AMPLE), plan)

    def test_every_order_states_the_plan(self):
        for rng, plan in plans("orders", 60):
            for order in texts.ORDERS.values():
                triples = order(rng, texts.triples_of(plan))
                self.assertCountEqual(triples, texts.triples_of(plan))
                self.assertEqual(read_plan(texts.plain_text(plan, triples), AMPLE), plan)

    def test_every_room(self):
        for rng, plan in small_plans("reading rooms", 60):
            for order in texts.ORDERS.values():
                text = texts.plain_text(plan, order(rng, texts.triples_of(plan)))
                self.assertFalse(list(reading_differences(read_plan, text)))

    def test_a_place_is_stated_once(self):
        """Wherever the two lines stand, whatever their values and the room."""
        for first, later in combinations(range(5), 2):
            for values in product((1, 7), (1, 7, GREATEST_VALUE + 1)):
                triples = [(2, 2, 1), (1, 2, 1), (2, 1, 1)]
                for at, value in zip((first, later), values):
                    triples.insert(at, (1, 1, value))
                text = texts.stated(7, 2, 2, triples)
                stored = [at for at in range(later) if triples[at][2] % 7]
                for room in range(5):
                    number, at = (7, stored[room]) if room < len(stored) else (5, later)
                    self.assertEqual(read_plan(text, room), Refusal(number, at + 3), (text, room))

    def test_a_value_that_reduces_to_zero_needs_no_room(self):
        text = b"7\n1 2 M\n1 1 -14\n1 2 5\n0 0 0\n"
        self.assertEqual(read_plan(text, 0), Refusal(7, 4))
        self.assertEqual(read_plan(text, 1), plan_of(7, 1, 2, Rows((0, 1), (1,), (5,))))

    def test_room_comes_in_text_order(self):
        text = b"7\n1 3 M\n1 1 1\n1 2 1\n1 3 x\n"
        self.assertEqual(read_plan(text, 1), Refusal(7, 4))
        self.assertEqual(read_plan(text, 2), Refusal(3, 5))
        text = b"7\n1 3 M\n1 3 1\n1 2 7\n1 1 1\n1 3 1\n"
        self.assertEqual(read_plan(text, 1), Refusal(7, 5))
        self.assertEqual(read_plan(text, 2), Refusal(5, 6))

    def test_length(self):
        for length, falls in product((65_535, 65_536, 65_537), (False, True)):
            text = edges.text_of_length(length, falls)
            self.assertEqual(len(text), length)
            found = read_plan(text, 0)
            self.assertEqual(found == Refusal(2), length > 65_536)
            self.assertIsInstance(found, Refusal if length > 65_536 else Plan)

    def test_the_most_lines(self):
        self.assertEqual(edges.most_lines().count(b"\n"), 2 + 10_921)
        self.assertEqual(read_plan(edges.most_lines(), 0), Refusal(7, 3))
        self.assertEqual(read_plan(edges.most_lines(), 1), Refusal(5, 4))

    def test_no_text_reaches_the_entry_limit(self):
        self.assertLess(65_536 // len("1 1 1\n"), GREATEST_ENTRIES)


class Owners(unittest.TestCase):
    """The owners of words against slip 4's sentences."""

    def test_about_half_of_the_texts_state_them(self):
        varied = [(plan, texts.varied_text(rng, plan)) for rng, plan in plans("stated", 400)]
        found = [plan.owners for plan, text in varied if b"\nowners" in text]
        self.assertTrue(160 < len(found) < 240, len(found))
        self.assertGreater(sum(set(owners) == {1} for owners in found), 20)
        self.assertGreater(sum({0, 255} <= set(owners) for owners in found), 20)
        self.assertIn((), found)

    def test_every_number(self):
        """A number is taken as it is printed; above 255 it is 16."""
        fields = [bytes(field) for size in range(5) for field in product(b"0125 -", repeat=size)]
        for field in (*fields, b"4294967296", b"9999999999", b"10000000000"):
            is_printed = field.isdigit() and field == b"%d" % int(field) and len(field) <= 10
            found = read_plan(b"7\n0 1 M\n0 0 0\nowners %s\n" % field, 0)
            if not is_printed:
                self.assertEqual(found, Refusal(3, 4), field)
            elif int(field) > 255:
                self.assertEqual(found, Refusal(16, 4), field)
            else:
                self.assertEqual(found.owners, (int(field),))

    def test_they_alter_nothing_but_their_lines(self):
        for rng, plan in small_plans("altered", 100):
            others = plan._replace(owners=tuple(rng.choices(range(256), k=plan.m)))
            self.assertEqual(factor(plan, AMPLE, AMPLE), factor(others, AMPLE, AMPLE))
            y = texts.random_question(rng, plan)
            certificate = write(plan, sets.damaged_set(rng, plan, factors_of(plan)))
            for call in (
                lambda text: make_call(text, 4_096),
                lambda text: check_call(text, certificate),
                lambda text: ask(text, y),
                lambda text: re.sub(rb" owner [0-9]+\n", b"\n", report(text)),
            ):
                self.assertEqual(*(call(texts.plain_text(one)) for one in (plan, others)))

    def test_open_words_have_their_own(self):
        for _, plan in small_plans("own words", 100):
            found = re.findall(rb"open ([0-9]+) owner ([0-9]+)\n", report(texts.plain_text(plan)))
            wanted = [(j + 1, plan.owners[j]) for j in open_words(plan, factors_of(plan))]
            self.assertEqual([tuple(map(int, line)) for line in found], wanted)

    def test_the_line_counts_towards_the_length(self):
        for length in (65_535, 65_536, 65_537):
            text = edges.owned_text_of_length(length)
            self.assertEqual(len(text), length)
            self.assertLess(text.index(b"owners"), 60_000)
            self.assertEqual(read_plan(text, 0) == Refusal(2), length > 65_536)

    def test_as_many_as_words(self):
        found = [read_plan(text, 1) for text in edges.owner_counts()]
        accepted = [plan.owners for plan in found if isinstance(plan, Plan)]
        self.assertEqual(accepted, [(), (255,) * 2_048])
        self.assertEqual(sum(found.count(Refusal(3, line)) for line in (4, 5)), 3)


class Structure(unittest.TestCase):
    """The structural pivots against slip 9's sentences. Whether pivots have a
    cycle is found in another way than the model finds it."""

    def plans(self):
        for _, plan in small_plans("pivots", 300):
            yield [row(plan.rows, i) for i in range(plan.n)], structure.structural(plan)

    def has_cycle(self, rows, pivots):
        """Pivots that lead nowhere are taken away until none is left, or until
        each leads to another."""
        left = dict(pivots)
        while left:
            ends = [c for c, i in left.items() if not (rows[i].keys() & left.keys()) - {c}]
            if not ends:
                return True
            for column in ends:
                del left[column]
        return False

    def test_choice(self):
        """Every row by number, and of its unused columns the first that closes
        no cycle."""
        for rows, found in self.plans():
            pivots = structure.leading(rows)
            self.assertFalse(self.has_cycle(rows, pivots))
            for i in sorted(set(range(len(rows))) - set(pivots.values())):
                fit = (
                    column
                    for column in sorted(rows[i].keys() - pivots.keys())
                    if not self.has_cycle(rows, {**pivots, column: i})
                )
                column = next(fit, None)
                if column is not None:
                    pivots[column] = i
            self.assertEqual({pivot.column: pivot.row for pivot in found}, pivots)

    def test_no_other_could_be_added(self):
        for rows, found in self.plans():
            pivots = {pivot.column: pivot.row for pivot in found}
            for i in set(range(len(rows))) - set(pivots.values()):
                for column in rows[i].keys() - pivots.keys():
                    self.assertTrue(self.has_cycle(rows, {**pivots, column: i}))

    def test_order(self):
        for rows, found in self.plans():
            for k, pivot in enumerate(found):
                waiting = found[k:]
                free = [
                    other
                    for other in waiting
                    if not any(other.column in rows[q.row] for q in waiting if q != other)
                ]
                self.assertEqual(pivot.row, min(other.row for other in free))

    def test_the_plans_need_the_rule(self):
        """Some have pivots that are added, cycles of three and more, and an
        order that neither the columns nor the rows give."""
        added = longer = by_neither = 0
        for rows, found in self.plans():
            leading = structure.leading(rows)
            pivots = {pivot.column: pivot.row for pivot in found}
            added += len(found) > len(leading)
            for i in set(range(len(rows))) - set(pivots.values()):
                direct = structure.led_to(rows, i, pivots)
                for column in rows[i].keys() - pivots.keys():
                    longer += not any(column in rows[k] for k in direct)
            by_neither += found != sorted(found) and found != sorted(found, key=lambda q: q.column)
        self.assertGreater(min(added, longer, by_neither), 10)


class Factoring(unittest.TestCase):
    def test_own_set_passes(self):
        for _, plan in plans("own", 200):
            self.assertIsNone(check_factors(plan, factors_of(plan)))

    def test_rank_by_enumeration(self):
        for _, plan in plans("ranks", 120, tiny_plan):
            self.assertEqual(factors_of(plan).r, enumeration.rank(plan))

    def test_every_room(self):
        for _, plan in small_plans("rooms", 40):
            self.assertFalse(list(room_differences(factor, plan)))

    def test_entries_at_the_edge(self):
        for entries in (GREATEST_ENTRIES, GREATEST_ENTRIES + 1):
            lower = factors_of(edges.lower_edge(65_521, entries))
            upper = factors_of(edges.upper_edge(7, entries))
            self.assertEqual(len(lower.L.columns), entries)
            self.assertEqual(len(upper.U.columns), entries)

    def test_structural_rows_keep_their_entries(self):
        for _, plan in small_plans("structural", 100):
            factored = factor(plan, AMPLE, AMPLE)
            for k, (i, column) in enumerate(structure.structural(plan)):
                self.assertEqual((factored.factors.R[k], factored.factors.C[k]), (i, column))
                self.assertEqual(row(factored.factors.L, k), {k: row(plan.rows, i)[column]})
                self.assertEqual(row(factored.factors.U, k).keys(), row(plan.rows, i).keys())

    def test_stored_plans(self):
        self.assertIsNone(plan_refusal(PLAN))
        good = PLAN.rows
        for plan, number in (
            (PLAN._replace(n=4), 9),
            (PLAN._replace(rows=good._replace(values=good.values[1:])), 9),
            (PLAN._replace(owners=PLAN.owners[1:]), 9),
            (PLAN._replace(m=4), 9),
            (PLAN._replace(p=8, owners=()), 9),
            (PLAN._replace(p=8), 1),
            (PLAN._replace(m=2_049, owners=(0,) * 2_049), 2),
            (PLAN._replace(m=4, owners=(0,) * 4), 8),
            (PLAN._replace(p=3), 8),
            (PLAN._replace(rows=good._replace(starts=(1, *good.starts[1:]))), 8),
            (PLAN._replace(rows=good._replace(starts=(*good.starts[:-1], 10))), 8),
            (PLAN._replace(rows=good._replace(columns=(2, 0, *good.columns[2:]))), 8),
            (PLAN._replace(rows=good._replace(values=(0, *good.values[1:]))), 8),
        ):
            self.assertEqual(plan_refusal(plan), Refusal(number))
            self.assertEqual(check_certificate(plan, write(PLAN, FACTORS)), Refusal(number))


if __name__ == "__main__":
    unittest.main()
