"""What a page names must be there."""

import tempfile
import unittest
from importlib.machinery import SourceFileLoader
from importlib.util import module_from_spec, spec_from_loader
from pathlib import Path

LOADER = SourceFileLoader("cited", str(Path(__file__).resolve().parent / "cited"))
CITED = module_from_spec(spec_from_loader("cited", LOADER))
LOADER.exec_module(CITED)


class Named(unittest.TestCase):
    def setUp(self):
        self.folder = tempfile.TemporaryDirectory()
        self.addCleanup(self.folder.cleanup)
        self.root = Path(self.folder.name)
        self.write("crates/base/proofs/Laws.antt", "pub one-law : A\none-law = a\n\nown-law : B\nown-law = b\n")
        words = "abbrev pub row_of : A\nrow_of = a\n\npub record R : Type 0 where\n  pub few-rows : A\n  pub few_columns : A\n"
        self.write("crates/base/specs/Words.antt", words)
        self.write("crates/base/src/lib.rt", "fn read_row(n: u32) {\n    let end_of = 0;\n}\n")
        self.write("command/plq.c", "static void map_stack(void)\n{\n    go_on();\n}\n")
        self.write("crates/base/must-fail/all_ones.edit", "# all ones\n")

    def write(self, name, text):
        path = self.root / name
        path.parent.mkdir(parents=True, exist_ok=True)
        path.write_text(text, encoding="utf-8")

    def missing(self, page):
        return CITED.missing(page, self.root)

    def test_statements_fields_and_edits(self):
        self.assertEqual(self.missing("`one-law`, `few-rows`, `base/all_ones`, `base/specs`, a `word`"), [])

    def test_a_statement_that_is_not_there(self):
        self.assertEqual(self.missing("`one-law` and `other-law`"), ["other-law"])

    def test_names_without_a_hyphen(self):
        """A field, a definition, a function, a crate, a function in C; and none of these."""
        self.write("crates/low_base/src/lib.rt", "")
        page = "`few_columns`, `row_of`, `read_row`, `low_base`, `map_stack`"
        self.assertEqual(self.missing(page), [])
        self.write("crates/base/proofs/More.antt", "own_law : B\nown_law = b\n")
        self.assertEqual(self.missing("`one_law`, `own_law`, `end_of`"), ["end_of", "one_law", "own_law"])

    def test_a_law_that_is_not_public(self):
        self.assertEqual(self.missing("`own-law`"), ["own-law"])

    def test_an_edit_that_is_not_there(self):
        self.assertEqual(self.missing("`base/all_twos`"), ["base/all_twos"])

    def test_a_file_that_is_not_there(self):
        self.assertEqual(self.missing("`base/specs/Words`, `base/proofs/Words`"), ["base/proofs/Words"])


if __name__ == "__main__":
    unittest.main()
