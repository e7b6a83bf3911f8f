"""Plans by what their structural pivots leave: none may stay on one side of the block."""

import unittest
from importlib.util import module_from_spec, spec_from_file_location
from itertools import product
from pathlib import Path
from random import Random

from generate.edges import left_edges, left_lower_edge, lower_edge
from generate.left import ANY, BLOCK, SIDES, Left, Side, left, leaving, plan_in_turn, side
from generate.plans import dense
from model.factors import factor
from model.limits import GREATEST_ENTRIES, GREATEST_MODULUS
from model.refusals import ROOM, Refusal
from model.storage import plan_of, store
from samples import factors_of
from sweeps import AMPLE, room_differences

BENCH_PLANS = Path(__file__).resolve().parents[2] / "bench" / "plans.py"
WITHIN = Side(False, False)


def pivots_left(plan):
    """The pivots that are found among the rows that are left."""
    factored = factor(plan, AMPLE, AMPLE)
    return factored.factors.r - factored.structural


class Turns(unittest.TestCase):
    """The plans that every run compares, by what they leave."""

    @classmethod
    def setUpClass(cls):
        cls.plans = [plan_in_turn(Random(f"turns {index}"), index) for index in range(200)]

    def promised(self, wanted):
        """The plans that promise this side."""
        return self.plans[SIDES.index(wanted) :: len(SIDES)]

    def test_every_promise_is_kept(self):
        for wanted in set(SIDES) - {ANY}:
            for plan in self.promised(wanted):
                self.assertEqual(side(plan), wanted)

    def test_shares(self):
        """One of ten on each side; and of all plans half within the block."""
        sides = list(map(side, self.plans))
        for wanted in product((False, True), repeat=2):
            self.assertEqual(SIDES.count(wanted), len(SIDES) // 10)
            self.assertGreaterEqual(sides.count(wanted), len(sides) // 10)
        self.assertGreater(sides.count(WITHIN), len(sides) // 2)

    def test_there_is_much_to_reduce(self):
        """On each side many plans have pivots among the rows that are left, and
        some rows of these have none; some plans have no such pivot at all."""
        for wanted in set(SIDES) - {ANY}:
            plans = self.promised(wanted)
            found = list(map(pivots_left, plans))
            self.assertGreater(sum(pivots > 3 for pivots in found), len(plans) // 3)
            dependent = [left(plan).rows > pivots for plan, pivots in zip(plans, found)]
            self.assertGreater(sum(dependent), len(plans) // 4)
            self.assertIn(0, found)

    def test_pivots_left_are_not_in_order(self):
        """So that an order of columns other than the rising one would show."""
        for wanted in set(SIDES) - {ANY}:
            unordered = 0
            for plan in self.promised(wanted):
                factors, structural = factor(plan, AMPLE, AMPLE)
                found = factors.C[structural : factors.r]
                unordered += list(found) != sorted(found)
            self.assertGreater(unordered, 3)


class Edges(unittest.TestCase):
    def test_every_edge_leaves_what_it_says(self):
        for wanted, plan in left_edges():
            self.assertEqual(left(plan), wanted)

    def test_edges_around_the_block(self):
        """With each modulus and at each corner the rows left are of full rank in
        some plan, and all dependent in another."""
        ranks = {}
        for wanted, plan in left_edges():
            ranks.setdefault((plan.p, *wanted), set()).add(pivots_left(plan))
        for p, rows, columns in product((2, GREATEST_MODULUS), *[(BLOCK, BLOCK + 1)] * 2):
            self.assertLessEqual({0, min(rows, columns)}, ranks[p, rows, columns])
        for p, columns in product((2, GREATEST_MODULUS), range(BLOCK + 2)):
            self.assertEqual(ranks[p, 0, columns], {0})
        for p, rows in product((2, GREATEST_MODULUS), (1, BLOCK, BLOCK + 1)):
            self.assertEqual(ranks[p, rows, 0], {0})

    def test_entries_at_the_edge(self):
        """7 comes at the last row that is left."""
        for rows, width in ((8, 8), (BLOCK, BLOCK), (BLOCK + 1, BLOCK), (BLOCK, BLOCK + 1)):
            plan = left_lower_edge(7, GREATEST_ENTRIES + 1, rows, width)
            self.assertEqual(left(plan), Left(rows, width))
            self.assertEqual(len(factors_of(plan).L.columns), GREATEST_ENTRIES + 1)
            last = max(set(range(plan.n)) - set(factors_of(plan).R[: plan.n - rows]))
            refused = factor(plan, GREATEST_ENTRIES, GREATEST_ENTRIES)
            self.assertEqual(refused, Refusal(ROOM, last))

    def test_chains_leave_rows_on_both_sides(self):
        for chain, rows in ((1_800, 8), (490, BLOCK), (480, BLOCK + 1)):
            plan = lower_edge(GREATEST_MODULUS, GREATEST_ENTRIES, chain)
            self.assertEqual(left(plan), Left(rows, 0))

    def test_every_room_with_eight_rows_left(self):
        for p in (2, 7, GREATEST_MODULUS):
            rng = Random(f"eight {p}")
            for width in (0, 5, 8, 11):
                plan = leaving(rng, p, dense(rng, p, 8, width), width, chain=4, pads=2)
                self.assertEqual(left(plan), Left(8, width))
                self.assertFalse(list(room_differences(factor, plan)))


class Benchmark(unittest.TestCase):
    def test_dense_end_fits_the_block(self):
        """Else its times would say nothing of the block."""
        spec = spec_from_file_location("bench_plans", BENCH_PLANS)
        bench = module_from_spec(spec)
        spec.loader.exec_module(bench)
        dense_ends = [plan for plan in bench.all_plans() if plan.name.startswith("dense end")]
        found = [left(plan_of(one.p, one.n, one.m, store(one.rows))) for one in dense_ends]
        self.assertEqual(found, [Left(28, 28), Left(30, 30)])


if __name__ == "__main__":
    unittest.main()
