"""The picture: what it shows is the plan and its factors as the model has them, cell by cell."""

import re
import unittest
from collections import Counter
from itertools import product
from random import Random
from xml.etree import ElementTree

from generate.texts import stated
from kit import D_EARLIER, ROOT, Scratch, plan_d, plq
from model import certificate as certificates
from model.factors import factor
from model.limits import GREATEST_ENTRIES
from model.plan_text import read_plan
from model.questions import open_words
from model.storage import row
from plans import BenchPlan, filling, random_sparse, text

D = plan_d.read_bytes()
SVG = "{http://www.w3.org/2000/svg}"
KINDS = {"e": "entry", "s": "structural", "p": "pivot", "b": "bare"}
RUN = re.compile(r"M(\d+) (\d+)h(\d+)")
TRANSLATE = re.compile(r"translate\((\S+) (\S+)\)")
# Its legend has four lines.
FOUR_LINES = (
    b"7\n4 6 M\n1 1 3\n1 3 6\n1 5 6\n1 6 1\n2 2 3\n2 3 6\n2 5 4\n2 6 3\n"
    b"3 4 5\n3 5 6\n4 1 5\n4 4 5\n4 5 1\n4 6 3\n0 0 0\n"
)


def drawn_fine(group):
    """Squares of at least 12 pixels, each with its words: place, kind and words."""
    for rect in group.iter(SVG + "rect"):
        title = rect.find(SVG + "title")
        if title is not None:
            side = float(rect.get("width")) / 0.88
            place = tuple(round(float(rect.get(name)) / side) for name in "yx")
            yield place, (KINDS[rect.get("class")], title.text)


def drawn_coarse(group):
    """Lines along the rows; with cells of 1.7 pixels or more they have their cells' length."""
    for path in group.findall(f"{SVG}g/{SVG}path"):
        for column, line, length in RUN.findall(path.get("d")):
            for j in range(int(column), int(column) + int(length)):
                yield (int(line), j), (KINDS[path.get("class")[0]], None)


def text_of(item):
    return item.find(f"{SVG}text[@class='k']")


class Shown:
    """A picture, read back: of each panel the cells, by place, and the counts of the legend."""

    def __init__(self, svg):
        self.root = ElementTree.fromstring(svg)
        groups = self.root.findall(f"{SVG}g[{SVG}text]")
        panels = [group for group in groups if group.find(f"{SVG}text[@class='h']") is not None]
        self.panels = [dict(drawn_fine(group)) or dict(drawn_coarse(group)) for group in panels]
        self.items = [group for group in groups if group.find(f"{SVG}text[@class='k']") is not None]
        counts = [text_of(item).text.rsplit(": ", 1) for item in self.items]
        self.legend = {words: int(count) for words, count in counts}


def cells_of(rows, count):
    """The cells of stored rows with their values."""
    return {(i, j): value for i in range(count) for j, value in row(rows, i).items()}


def expected(plan, factors, structural):
    """The cells of the four panels by the model; `structural` is None where nobody knows."""
    R, C, L, U, r = factors
    slot_at, word_at = {slot: i for i, slot in enumerate(R)}, {word: j for j, word in enumerate(C)}

    def kind(i, j):
        if i != j or i >= r:
            return "entry"
        return "structural" if structural is not None and i < structural else "pivot"

    stands = {}
    for (i, j), value in cells_of(plan.rows, plan.n).items():
        stands[i, j] = (kind(slot_at[i], word_at[j]), f"slot {i + 1}, word {j + 1}: {value}")
    for i, j in zip(R[:r], C[:r]):
        stands.setdefault((i, j), ("bare", f"slot {i + 1}, word {j + 1}: no entry"))
    ordered = {(slot_at[i], word_at[j]): cell for (i, j), cell in stands.items()}
    lower, upper = {}, {}
    for (i, k), value in cells_of(L, plan.n).items():
        lower[i, k] = (kind(i, k), f"slot {R[i] + 1}, pivot {k + 1}: {value}")
    for (k, j), value in cells_of(U, r).items():
        upper[k, word_at[j]] = (kind(k, word_at[j]), f"pivot {k + 1}, word {j + 1}: {value}")
    return [stands, ordered, lower, upper]


def expected_legend(plan, factors, structural, ordered):
    r = factors.r
    counts = {
        "entry of the plan, counting pivots": len(plan.rows.columns),
        "dependent slot": plan.n - r,
        "open word": len(open_words(plan, factors)),
    }
    if structural is None:
        counts["pivot"] = r
    else:
        counts["structural pivot, found without arithmetic"] = structural
        counts["other pivot"] = r - structural
    bare = Counter(kind for kind, _ in ordered.values())["bare"]
    return counts | ({"of these where the plan has no entry": bare} if bare else {})


class Cells(Scratch):
    def assertShows(self, stating, fine, certificate=None):
        plan = read_plan(stating, GREATEST_ENTRIES)
        factors, structural = factor(plan, GREATEST_ENTRIES, GREATEST_ENTRIES)
        given = ()
        if certificate is not None:
            given = (self.path("given.plq", certificate),)
            own, factors = factors, certificates.parse(plan, certificate)
            structural = structural if factors == own else None
        ended = plq("picture", "-", *given, stdin=stating)
        self.assertEnds(ended, 0, said="")
        shown, wanted = Shown(ended.output), expected(plan, factors, structural)
        legend = expected_legend(plan, factors, structural, wanted[1])
        self.assertEqual(shown.legend, legend)
        for found, cells in zip(shown.panels, wanted, strict=True):
            without_words = {place: (kind, None) for place, (kind, _) in cells.items()}
            self.assertEqual(found, cells if fine else without_words)

    def test_small_plans(self):
        self.assertShows(D, fine=True)
        self.assertShows(D, fine=True, certificate=plq("make", plan_d, "-").output)
        self.assertShows(D, fine=True, certificate=D_EARLIER.read_bytes())
        triples = [(3, 3, 14), (2, 2, -15), (1, 1, 7), (1, 3, 2_147_483_647)]
        self.assertShows(stated(7, 3, 3, triples, (0, 255, 3)), fine=True)

    def test_random_plans(self):
        """Of up to 36 rows and columns each cell is drawn, of up to 250 they are lines."""
        rng = Random("picture")
        for size in (9, 20, 36, 37, 120, 250):
            places = {(rng.randint(1, size), rng.randint(1, size)) for _ in range(2 * size)}
            triples = [(i, j, rng.randrange(1, 251)) for i, j in sorted(places)]
            self.assertShows(stated(251, size, size, triples), fine=size <= 36)

    def test_words_say_whose_they_are(self):
        ended = plq("picture", "-", stdin=D + b"owners 1 1 2 2 0\n")
        labels = Shown(ended.output).root.iter(SVG + "text")
        titles = [label.find(SVG + "title") for label in labels]
        said = Counter(title.text for title in titles if title is not None)
        owners = ("1, closed", "1, closed", "2, closed", "2, closed", "0, open")
        wanted = {f"word {j}, owner {owner}": 3 for j, owner in enumerate(owners, 1)}
        self.assertEqual(said, wanted)

    def test_the_picture_of_plan_d_is_stored(self):
        self.assertDone((ROOT / "docs" / "D.svg").read_bytes(), "picture", plan_d)


EVERY_THIRD = range(1, 2_049, 3)
SHAPES = {
    "empty": (0, 0, []),
    "no slots": (0, 5, []),
    "no words": (5, 0, []),
    "no entries": (3, 4, []),
    "one": (1, 1, [(1, 1, 1)]),
    "one slot": (1, 2_048, [(1, j, 1) for j in EVERY_THIRD]),
    "one word": (2_048, 1, [(i, 1, 1) for i in EVERY_THIRD]),
    "wide": (40, 900, [(i, 20 * i, 1) for i in range(1, 41)]),
    "no entries, large": (2_048, 2_048, []),
    "diagonal": (2_048, 2_048, [(i, i, 1) for i in range(1, 2_049)]),
    "every third": (2_048, 2_048, [(1, j, 1) for j in EVERY_THIRD]),
}


class Files(Scratch):
    """Well formed, below a megabyte, with words and without scripts."""

    def assertLegendFits(self, shown):
        """Every item with its sign and its words, of 6.6 pixels a letter; how many lines."""
        width, height = (float(shown.root.get(name)) for name in ("width", "height"))
        self.assertEqual(shown.root.get("viewBox"), f"0 0 {width:.0f} {height:.0f}")
        lines = set()
        for item in shown.items:
            x, y = map(float, TRANSLATE.fullmatch(item.get("transform")).groups())
            words = text_of(item)
            end = x + float(words.get("x")) + 6.6 * len(words.text)
            self.assertTrue(0 <= x and end <= width and 13 <= y <= height - 12, (x, y, end))
            lines.add(y)
        self.assertLessEqual(height - max(lines), 40)
        return len(lines)

    def assertPicture(self, stating):
        ended = plq("picture", "-", stdin=stating)
        self.assertEnds(ended, 0, said="")
        self.assertLess(len(ended.output), 1_000_000)
        shown = Shown(ended.output)
        self.assertEqual([child.tag for child in shown.root][:2], [SVG + "title", SVG + "desc"])
        self.assertEqual(len(shown.panels), 4)
        self.assertLegendFits(shown)
        self.assertNotRegex(ended.output, rb"-0(\.0+)?(?![.\d])")
        for element in shown.root.iter():
            self.assertNotIn("script", element.tag)
            self.assertFalse([key for key in element.keys() if re.match("on|.*href", key)])

    def test_shapes(self):
        for name, (n, m, triples) in SHAPES.items():
            with self.subTest(shape=name):
                self.assertPicture(stated(7, n, m, triples))

    def test_the_legend_has_room(self):
        """Also where it has more lines than usual; of 1 to 13 slots and words."""
        four = Shown(plq("picture", "-", stdin=FOUR_LINES).output)
        self.assertEqual(self.assertLegendFits(four), 4)
        rng, lines = Random("legend"), Counter()
        for n, m in product(range(1, 14), repeat=2):
            places = [(i, j) for i in range(1, n + 1) for j in range(1, m + 1)]
            chosen = sorted(rng.sample(places, -(-len(places) // 2)))
            stating = stated(7, n, m, [(i, j, rng.randrange(1, 7)) for i, j in chosen])
            with self.subTest(plan=stating):
                ended = plq("picture", "-", stdin=stating)
                self.assertEnds(ended, 0, said="")
                lines[self.assertLegendFits(Shown(ended.output))] += 1
        self.assertGreater(len(lines), 1)

    def test_large_plans(self):
        """2,048 by 2,048, and a plan whose L and U fill."""
        for builder, p, size in ((random_sparse, 2, 2_048), (filling, 7, 280)):
            n, m, rows = builder(Random("picture"), p, size)
            self.assertPicture(text(BenchPlan("", p, n, m, rows)))


if __name__ == "__main__":
    unittest.main()
