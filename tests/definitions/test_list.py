"""The lister on small trees: what is reached and what is not, and what its check refuses."""

import subprocess
import sys
import tempfile
import unittest
from pathlib import Path

from antt import Unreadable
from listing import Listing
from reach import Tree

HERE = Path(__file__).resolve().parent
PAGE = "# A page\n\n<!-- definitions: begin -->\n<!-- definitions: end -->\n\nThe end.\n"
CRATES = """# Layers.
base:
calls: base
plq: calls base
plq_c staticlib: plq base
report_lib:
ask_lib:
report: report_lib io
ask: ask_lib io
theorems: base
"""
LAWS = """
-- Laws. A comment names Inner's `need`.
use Rattle.std.specs.Prelude.{ℕ, ◌+◌, ◌≡◌}

infixr 20 ◌▷◌
abbrev pub ◌▷◌ : ℕ → ℕ → ℕ
0 ▷ b = b
a ▷ b = a

unfoldable pub twice : ℕ → ℕ
twice n =
    n + n

pub data Tree : Type 0 where
  leaf : Tree
  node : Tree → Tree → Tree

module _ (t : Tree) where
  pub record Good (n : ℕ) : Type 0 where
    pub same : twice n ≡ n

pub record ◌≈⟨◌⟩◌ (x p y : ℕ) : Type 0 where
  pub same : x ≡ y

abbrev pub alone : ℕ
alone = 0
"""
FACTS = """
abbrev pub Hidden : ℕ
Hidden = 0

pub fact : Hidden ≡ 0
fact = refl
"""
CALLS = """
// A call.
ghost use Rattle.base.specs.Laws.{twice};
ghost use Rattle.base.specs.Inner.{need};
use base::Kind;

fn inner(n: u32) -> u32
    requires { need }
    ensures { result ≡ n }
{
    n
}

pub fn call(
    n: u32, // requires { need }
) -> u32
    requires { n ≡ n }
    ensures same { result ≡ result }
    ensures doubled { result ≡ twice n }
{
    inner(n)
}
"""
FILES = {
    "base/specs/Lib.antt": "pub mod Laws\npub mod Inner\n",
    "base/specs/Laws.antt": LAWS,
    "base/specs/Inner.antt": "abbrev pub need : ℕ\nneed = 0\n",
    "base/proofs/Facts.antt": FACTS,
    "base/src/lib.rt": "pub enum Kind {\n    One,\n    Two(u32),\n}\n",
    "calls/src/lib.rt": CALLS,
    "plq/src/lib.rt": "pub use calls::call as first_call;\n",
    "plq_c/src/lib.rt": "",
    "report_lib/src/lib.rt": "pub fn report() {\n}\n",
    "ask_lib/src/lib.rt": "pub fn ask() {\n}\n",
    "ask_words/src/lib.rt": "pub fn words() {\n}\n",
    "ask_settings/src/lib.rt": "pub fn begin() {\n}\n\npub fn setting_line() {\n}\n",
    "report/src/main.rt": "fn main() {\n}\n",
    "ask/src/main.rt": "fn main() {\n}\n",
    "theorems/proofs/Demand.antt": "",
}


def theorems(text):
    return {"theorems/proofs/Demand.antt": text}


def law(names, statement):
    """One theorem, which uses names of the crate `base`."""
    return theorems(f"use Rattle.base.{names}\n\npub law : {statement}\nlaw = refl\n")


class ListTest(unittest.TestCase):
    def tree(self, files):
        """The files above, some with another text."""
        folder = tempfile.TemporaryDirectory()
        self.addCleanup(folder.cleanup)
        root = Path(folder.name)
        (root / "crates.txt").write_text(CRATES)
        (root / "page.md").write_text(PAGE)
        for name, text in {**FILES, **files}.items():
            path = root / "crates" / name
            path.parent.mkdir(parents=True, exist_ok=True)
            path.write_text(text, encoding="utf-8")
        return root

    def listing(self, files):
        return Listing(Tree(self.tree(files)))

    def command(self, root, *arguments):
        command = [sys.executable, str(HERE / "list"), "--root", str(root), *arguments]
        done = subprocess.run(command, stdout=subprocess.PIPE, encoding="utf-8")
        return done.returncode, done.stdout


class ReachedTest(ListTest):
    def reaches(self, files, *names):
        """Whether these definitions are reached and no other."""
        reached = {place.name for place in self.listing(files).reached if place.part == "specs"}
        self.assertEqual(reached, set(names))

    def test_contract_of_a_public_call(self):
        """And not that of an inner function, nor what a comment names."""
        self.reaches({}, "twice")

    def test_exported_call(self):
        source = CALLS.replace("pub fn", '#[unsafe(no_mangle)]\npub extern "C" fn')
        for clause in ("result ≡ twice n", "result ≡ alone"):
            exported = source.replace("result ≡ twice n", clause).replace("{twice}", "{twice, alone}")
            self.reaches({"plq/src/lib.rt": "", "plq_c/src/lib.rt": exported}, clause.split()[2])

    def test_call_of_the_library(self):
        """Its own public ones, beside those that it passes on."""
        source = CALLS.replace("twice n", "alone").replace("{twice}", "{alone}")
        self.reaches({"plq/src/lib.rt": FILES["plq/src/lib.rt"] + source}, "twice", "alone")

    def test_calls_passed_on_together(self):
        more = CALLS + "\npub fn other() -> u32\n    ensures { result ≡ alone }\n{\n    0\n}\n"
        more = more.replace("{twice}", "{twice, alone}")
        library = "pub use calls::{\n    call,\n    other as another,\n};\n"
        self.reaches({"calls/src/lib.rt": more, "plq/src/lib.rt": library}, "twice", "alone")

    def test_call_passed_on_twice(self):
        passing = FILES["report_lib/src/lib.rt"] + "pub use calls::call;\n"
        library = "pub use report_lib::call;\n"
        self.reaches({"plq/src/lib.rt": library, "report_lib/src/lib.rt": passing}, "twice")

    def test_program(self):
        source = "fn f()\n    requires { alone }\n{\n}\n"
        source = "ghost use Rattle.base.specs.Laws.{alone};\n" + source
        self.reaches({"ask/src/main.rt": source}, "twice", "alone")

    def test_statement_and_not_its_proof(self):
        text = """
use Rattle.base.specs.Laws.{alone, leaf}
use Rattle.base.specs.Inner.{need}

lemma : need ≡ 0
lemma = refl

pub law : (n : ℕ)
    → alone ≡ n
unfolding need
law n = lemma leaf
  where
    other : need ≡ 0
    other = refl
"""
        self.reaches(theorems(text), "twice", "alone")

    def test_operator(self):
        self.reaches(law("specs.Laws.{◌▷◌}", "(a b : ℕ) → (a ▷ b) ≡ b"), "twice", "◌▷◌")

    def test_operator_of_several_parts(self):
        self.reaches(law("specs.Laws.{◌≈⟨◌⟩◌}", "(a p : ℕ) → a ≈⟨ p ⟩ a"), "twice", "◌≈⟨◌⟩◌")

    def test_parameters_of_a_module(self):
        text = """
use Rattle.base.specs.Laws.{Good, alone}

module _ (n : ℕ) (z : n ≡ alone) where
  module _ (m : ℕ) where
    pub law : n ≡ n
    law = refl
"""
        self.reaches(theorems(text), "twice", "alone")

    def test_definition_in_a_module(self):
        self.reaches(law("specs.Laws.{Good as Fine}", "Fine 0 0"), "twice", "Good", "Tree")

    def test_constructor(self):
        self.reaches(law("specs.Laws.{node}", "node ≡ node"), "twice", "Tree")

    def test_module_under_another_name(self):
        self.reaches(law("specs.Laws as laws", "laws.alone ≡ 0"), "twice", "alone")

    def test_definition_passed_on(self):
        inner = "unfoldable pub use Rattle.base.specs.Laws.{alone}\n"
        files = law("specs.Inner.{alone}", "alone ≡ 0")
        self.reaches({"base/specs/Inner.antt": inner, **files}, "twice", "alone")

    def test_field(self):
        self.reaches(law("specs.Laws.{alone}", "(s : S) → s.alone ≡ 0"), "twice")

    def test_kit(self):
        text = "use Rattle.io.specs.Counts.{C}\n\npub law : C\nlaw = refl\n"
        self.reaches(theorems(text), "twice")


class ListedTest(ListTest):
    def types(self, files):
        return [f"{place.path()} {place.name}" for place in self.listing(files).types("base")]

    def test_types(self):
        """One that a definition speaks of, and one that only its field has."""
        laws = "use Rattle.base.specs.declared.more.Pair.{Pair}\n\n"
        laws += "abbrev pub twice : Pair → ℕ\ntwice n = 0\n"
        more = "use crate::Kind;\n\npub struct Pair {\n    pub kind: Kind,\n}\n"
        files = {"base/src/more.rt": more, "base/specs/Laws.antt": laws}
        self.assertEqual(self.types(files), ["base/src/lib Kind", "base/src/more Pair"])

    def test_type_by_the_module_of_its_file(self):
        laws = "use Rattle.base.specs.declared.more\n\n"
        laws += "abbrev pub twice : more.Pair.Pair → ℕ\ntwice n = 0\n"
        more = "pub struct Pair {\n    pub low: u32,\n}\n"
        files = {"base/src/more.rt": more, "base/specs/Laws.antt": laws}
        self.assertEqual(self.types(files), ["base/src/more Pair"])

    def test_type_of_a_call(self):
        calls = CALLS.replace("\n) -> u32", "\n) -> Kind")
        self.assertEqual(self.types({"calls/src/lib.rt": calls}), ["base/src/lib Kind"])
        self.assertEqual(self.types({}), [])

    def test_type_of_a_module_of_the_crate(self):
        source = FILES["base/src/lib.rt"].replace("Two(u32)", "Two(Pair)")
        more = "pub struct Pair {\n    pub low: u32,\n}\n"
        calls = CALLS.replace("\n) -> u32", "\n) -> Kind")
        files = {"calls/src/lib.rt": calls, "base/src/more.rt": more}
        files["base/src/lib.rt"] = "use more::Pair;\n\n" + source
        self.assertEqual(self.types(files), ["base/src/lib Kind", "base/src/more Pair"])

    def test_lines(self):
        """Those of `twice`: its type, and an equation of two lines."""
        self.assertIn("1 definitions, 3 lines;", self.listing({}).summary())

    def test_unread(self):
        self.assertEqual(list(self.listing({}).unread()), [("base", ["Inner"])])


class MissingTest(ListTest):
    def refuses(self, files, message):
        with self.assertRaisesRegex(Unreadable, message):
            self.listing(files)

    def test_call(self):
        self.refuses({"plq/src/lib.rt": "pub use calls::gone;\n"}, "calls/src/lib.rt has no gone")

    def test_program_call(self):
        self.refuses({"ask_lib/src/lib.rt": ""}, "ask_lib/src/lib.rt has no ask")

    def test_definition(self):
        said = "base/specs/Laws has no definition gone"
        self.refuses(law("specs.Laws.{gone}", "gone ≡ 0"), said)

    def test_file(self):
        self.refuses(law("specs.Gone.{x}", "x ≡ 0"), "crates/base/specs/Gone.antt is not there")

    def test_crate(self):
        text = "use Rattle.gone.specs.Laws.{x}\n\npub law : x ≡ 0\nlaw = refl\n"
        self.refuses(theorems(text), "no crate gone")

    def test_unknown_lines(self):
        self.refuses(law("specs.Laws.{x", "x ≡ 0"), "cannot read")
        self.refuses(law("code.Laws.{x}", "x ≡ 0"), "cannot read")


class CheckTest(ListTest):
    def check(self, files, before="", after=""):
        """The check of a page that was written and then edited."""
        root = self.tree(files)
        page = root / "page.md"
        self.assertEqual(self.command(root, "--write", str(page))[0], 0)
        text = page.read_text()
        self.assertIn(before, text)
        page.write_text(text.replace(before, after) if before else text)
        return self.command(root, "--check", str(page))

    def refuses(self, said, *case):
        status, found = self.check(*case)
        self.assertEqual(status, 1)
        self.assertIn(said, found)

    def test_written_page(self):
        self.assertEqual(self.check({})[0], 0)

    def test_rest_of_the_page(self):
        root = self.tree({})
        self.command(root, "--write", str(root / "page.md"))
        text = (root / "page.md").read_text()
        self.assertTrue(text.startswith("# A page\n\n<!--") and text.endswith("-->\n\nThe end.\n"))
        self.assertIn("| `base` | `Laws` (1) |  |\n", text)

    def test_file_left_out(self):
        self.refuses("left out: base/specs/Laws\n", {}, "`Laws` (1)", "")

    def test_file_not_reached(self):
        said = "listed and not reached: base/specs/Inner\n"
        self.refuses(said, {}, "`Laws` (1)", "`Laws` (1), `Inner` (1)")

    def test_other_number(self):
        said = "base/specs/Laws: 1 definitions are reached, not 2"
        self.refuses(said, {}, "`Laws` (1)", "`Laws` (2)")

    def test_type_left_out(self):
        calls = CALLS.replace("\n) -> u32", "\n) -> Kind")
        said = "left out: the type Kind of base/src\n"
        self.refuses(said, {"calls/src/lib.rt": calls}, "`Kind`", "")

    def test_file_said_to_be_unread(self):
        self.refuses("write it again", {}, "`base/specs/Inner`", "`base/specs/{Inner,Laws}`")

    def test_definition_among_proofs(self):
        said = "base/proofs/Facts: Hidden, cited by theorems/proofs/Demand law"
        self.refuses(said, law("proofs.Facts.{Hidden}", "Hidden ≡ 0"))

    def test_theorem_in_a_statement(self):
        said = "base/proofs/Facts: fact, cited by theorems/proofs/Demand law"
        self.refuses(said, law("proofs.Facts.{fact}", "fact ≡ fact"))

    def test_theorem_beside_a_statement(self):
        text = "lemma : 0 ≡ 0\nlemma = refl\n\npub law : lemma ≡ lemma\nlaw = refl\n"
        said = "theorems/proofs/Demand: lemma, cited by theorems/proofs/Demand law"
        self.refuses(said, theorems(text))

    def test_definition_beside_the_theorems(self):
        text = "abbrev none : ℕ\nnone = 0\n\npub law : none ≡ 0\nlaw = refl\n"
        self.assertEqual(self.check(theorems(text))[0], 0)

    def test_no_marks(self):
        root = self.tree({})
        (root / "page.md").write_text("# A page\n")
        self.assertEqual(self.command(root, "--check", str(root / "page.md"))[0], 2)

    def test_printed(self):
        status, said = self.command(self.tree({}))
        self.assertEqual(status, 0)
        self.assertIn("base/specs/Laws: twice\n", said)
        self.assertIn("need not be read:\nbase/specs: Inner\n", said)
