"""Every refusal that can come: its line, its words, the file that they name, and the status.

8 is for stored plans, which no call of the command is given.
"""

import struct
import unittest

from generate.edges import lower_edge, text_of_length, upper_edge
from generate.texts import plain_text
from kit import D_EARLIER, Scratch, on_plan, plan_d, plq, words
from model.certificate import write
from model.factors import factor
from model.limits import GREATEST_ENTRIES, GREATEST_TEXT

D = plan_d.read_bytes()
PRIME = "p is no prime from 2 to 4,294,967,291"
LIMIT = "more than 65,536 bytes, or n or m is above 2,048"
FORM = "the line is missing, or has not the form that belongs there"
OUTSIDE = "i or j lies outside the plan"
REPEATED = "an earlier line has the same i and j"
RANGE = "v lies outside -2,147,483,648 to 2,147,483,647"
ROOM = "with it L or U has more than 16,384 entries"
LENGTH = "a question has one value for each word"
HEADER = "mark, version or length is wrong, or p, n and m are not the plan's"
ORDER = "R or C is no permutation"
RANK = "r is above the smaller of n and m"
SHAPE = "L or U breaks its form or its shape"
PRODUCT = "position 3 (they count from 0), slot 4: the product is not the plan"
VALUE = "it is p or more, or no decimal number"
OWNER = "an owner is above 255"

# Texts with their line and their words.
TEXTS = (
    (b"4\n5 5 M\n0 0 0\n", "refused 1 at 0", PRIME),
    (b"7\n5 2049 M\n0 0 0\n", "refused 2 at 0", LIMIT),
    (text_of_length(GREATEST_TEXT + 1), "refused 2 at 0", LIMIT),
    (b"", "refused 3 at 1", f"line 1: {FORM}"),
    (b"7\n5 5 m\n0 0 0\n", "refused 3 at 2", f"line 2: {FORM}"),
    (D[:-1], "refused 3 at 14", f"line 14: {FORM}"),
    (D.replace(b"2 4 1\n", b"2 6 1\n"), "refused 4 at 6", f"line 6: {OUTSIDE}"),
    (D.replace(b"2 4 1\n", b"1 3 1\n"), "refused 5 at 6", f"line 6: {REPEATED}"),
    (D.replace(b"2 4 1\n", b"2 4 2147483648\n"), "refused 6 at 6", f"line 6: {RANGE}"),
    (D + b"owners 1 1 256 1 1\n", "refused 16 at 15", f"line 15: {OWNER}"),
)


class Plans(Scratch):
    """What is wrong with a text is refused by every verb, in the same way."""

    def test_texts(self):
        for text, line, what in TEXTS:
            plan, none = self.path("plan.txt", text), self.path("none.plq")
            for arguments in (*on_plan(plan), ("make", plan, none)):
                with self.subTest(arguments=arguments, line=line):
                    self.assertRefused(line, words(plan, what), *arguments)
            self.assertFalse(none.exists())

    def test_standard_input(self):
        for text, line, what in TEXTS:
            self.assertRefused(line, words("standard input", what), "report", "-", stdin=text)

    def test_for_every_question(self):
        """A plan that is refused refuses every question, in order."""
        plan = self.path("plan.txt", TEXTS[0][0])
        ended = plq("ask", plan, stdin=b"1\n\n2 3\n")
        self.assertEnds(ended, 1, 3 * b"refused 1 at 0\n", 3 * words(plan, PRIME))

    def test_without_a_question(self):
        """It is judged all the same, once."""
        for text, line, what in TEXTS:
            plan = self.path("plan.txt", text)
            for given in ((), ("--certificate", D_EARLIER)):
                with self.subTest(line=line, given=given):
                    self.assertRefused(line, words(plan, what), "ask", plan, *given)

    def test_storage(self):
        """7 at a slot, counted from 1, as the model says it; a certificate of others has room."""
        for edge in (lower_edge(7, GREATEST_ENTRIES + 1), upper_edge(7, GREATEST_ENTRIES + 1)):
            slot = 1 + factor(edge, GREATEST_ENTRIES, GREATEST_ENTRIES).detail
            plan = self.path("edge.txt", plain_text(edge))
            line, said = f"refused 7 at {slot}", words(plan, f"slot {slot}: {ROOM}")
            for arguments in (("report", plan), ("make", plan, "-"), ("picture", plan)):
                self.assertRefused(line, said, *arguments)
            self.assertRefused(line, said, "ask", plan, *edge.m * "0")
            self.assertRefused(line, said, "ask", plan)
            larger = self.path("larger.plq", write(edge, factor(edge, 2**20, 2**20).factors))
            self.assertDone(None, "check", plan, larger)
            self.assertDone(b"", "ask", plan, "--certificate", larger)


def edited(certificate, place, number):
    """Another 32-bit number in place of one, counted from the header's first."""
    at = 5 + 4 * place
    return certificate[:at] + struct.pack("<I", number) + certificate[at + 4 :]


def rank_six(certificate):
    """Two rows of U more, without entries, and r = 6."""
    last = 5 + 4 * 41
    longer = certificate[:last] + 2 * certificate[last - 4 : last] + certificate[last:]
    return edited(longer, 3, 6)


def certificates():
    """Changes of plan D's earlier certificate. Its numbers, counted from p: R from 6 on, C from
    11, L's starts, columns and values from 16, 22 and 29, U's from 36, 41 and 48."""
    made = D_EARLIER.read_bytes()
    yield made[:-1], "refused 10 at 0", HEADER
    yield made + b"\0", "refused 10 at 0", HEADER
    yield b"", "refused 10 at 0", HEADER
    yield b"PLQ\2" + made[4:], "refused 10 at 0", HEADER
    yield edited(made, 0, 11), "refused 10 at 0", HEADER
    yield edited(made, 6, 1), "refused 11 at 0", ORDER
    yield edited(made, 15, 5), "refused 11 at 0", ORDER
    yield rank_six(made), "refused 12 at 0", RANK
    yield edited(made, 48, 2), "refused 13 at 0", SHAPE
    yield edited(made, 33, 4), "refused 14 at 3", PRODUCT


class Certificates(Scratch):
    def test_every_number(self):
        for content, line, what in certificates():
            given = self.path("certificate.plq", content)
            asked = ("ask", plan_d, "--certificate", given, *"00160")
            verbs = (("check", plan_d, given), ("picture", plan_d, given), asked, asked[:4])
            for arguments in verbs:
                with self.subTest(arguments=arguments, line=line):
                    self.assertRefused(line, words(given, what), *arguments)

    def test_an_empty_one_comes_before_the_count_of_values(self):
        """As the manual says; one that has bytes comes after it."""
        empty, wrong = self.path("empty.plq", b""), self.path("wrong.plq", b"PLQ")
        for given, line in ((empty, "refused 10 at 0"), (wrong, "refused 9 at 0")):
            self.assertRefused(line, None, "ask", plan_d, "--certificate", given, "1")

    def test_standard_input(self):
        said = words("standard input", HEADER)
        self.assertRefused("refused 10 at 0", said, "check", plan_d, "-")


NO_VALUES = (
    "7", "4294967295", "4294967296", "9999999999", "10000000000", "00", "01", "-1", "-0", "+1",
    "1 ", "x", "", "1e0", "0x1", "\u0663",
)  # fmt: skip
# Two spaces have an empty value between them, and a carriage return is no digit.
LINES = (
    (b"0 0 1 6  0\n", "refused 9 at 0"), (b"0 0  6 0\n", "refused 15 at 3"),
    (b" 0 0 1 6\n", "refused 15 at 1"), (b"0 0 1 6 \n", "refused 15 at 5"),
    (b"0 0 1 6 0\r\n", "refused 15 at 5"), (b"0 0 1\t6 0\n", "refused 9 at 0"),
    (b"0 0 1 6 0\0\n", "refused 15 at 5"), (b"\0\n", "refused 9 at 0"), (b" \n", "refused 9 at 0"),
)  # fmt: skip


class Questions(Scratch):
    def test_values(self):
        """What is no decimal number of 32 bits is no residue of any modulus."""
        said = words("the question", f"value 3: {VALUE}")
        for value in NO_VALUES:
            self.assertRefused("refused 15 at 3", said, "ask", plan_d, "0", "6", value, "9", "0")

    def test_the_largest_modulus(self):
        """Its largest residue is a value, and what stands for no number is not."""
        plan = self.path("largest.txt", b"4294967291\n1 1 M\n1 1 1\n0 0 0\n")
        self.assertDone(b"open 4294967290\n", "ask", plan, "4294967290")
        for value in ("4294967291", "4294967295", "4294967296", "x"):
            self.assertRefused("refused 15 at 1", None, "ask", plan, value)

    def test_lengths(self):
        for count, given in ((1, "1 value"), (4, "4 values"), (6, "6 values"), (99, "99 values")):
            said = words("the question", f"{given} for 5 words: {LENGTH}")
            self.assertRefused("refused 9 at 0", said, "ask", plan_d, *count * "0")

    def test_lines(self):
        for asked, line in LINES:
            with self.subTest(asked=asked):
                ended = plq("ask", plan_d, stdin=asked)
                self.assertEnds(ended, 1, f"{line}\n".encode())
                self.assertIn("plq: standard input, line 1: ", ended.words)


if __name__ == "__main__":
    unittest.main()
