"""Input that is slow, long, or ends too early; memory that ends."""

import resource
import subprocess
import time
import unittest

from generate.edges import owned_text_of_length, text_of_length
from kit import (
    COMMAND,
    D_EARLIER,
    D_PLQ,
    PATIENCE,
    REPORT_D,
    Asking,
    Scratch,
    limited,
    on_plan,
    plan_d,
    plq,
    words,
)
from model.limits import GREATEST_TEXT

D = plan_d.read_bytes()
CUT = "plq: standard input, line {}: the input ends within the line; it is not answered\n"


def slowly(data, *arguments, pause=0.002):
    """The command with an input that arrives byte by byte: its status, output and words."""
    pipes = dict.fromkeys(("stdin", "stdout", "stderr"), subprocess.PIPE)
    with subprocess.Popen([COMMAND, *map(str, arguments)], **pipes, bufsize=0) as running:
        try:
            for byte in data:
                running.stdin.write(bytes([byte]))
                time.sleep(pause)
            output, said = running.communicate(timeout=PATIENCE)
        finally:
            running.kill()
    return running.returncode, output, said.decode()


class Slow(Scratch):
    def test_plans(self):
        self.assertEqual(slowly(D, "report", "-"), (0, REPORT_D, ""))
        self.assertEqual(slowly(D, "ask", "-", *"00001"), (0, b"open 0 0 0 0 5\n", ""))
        self.assertEqual(slowly(D, "make", "-", "-"), (0, D_PLQ.read_bytes(), ""))

    def test_certificates(self):
        passed = b"passed modulus 7 slots 5 words 5 rank 4\n"
        self.assertEqual(slowly(D_EARLIER.read_bytes(), "check", plan_d, "-"), (0, passed, ""))

    def test_questions(self):
        """A number is not answered for its first digits."""
        plan = self.path("large.txt", b"65521\n1 1 M\n1 1 1\n0 0 0\n")
        ended = slowly(b"12345\n1\n", "ask", plan, pause=0.02)
        self.assertEqual(ended, (0, b"open 12345\nopen 1\n", ""))
        ended = slowly(b"1\n12", "ask", plan, pause=0.02)
        self.assertEqual(ended, (2, b"open 1\n", CUT.format(2)))

    def test_an_answer_comes_before_the_next_question(self):
        with Asking() as asking:
            self.assertEqual(asking.ask(b"0 0 0 0 1\n"), b"open 0 0 0 0 5\n")
            self.assertEqual(asking.ask(b"1 0 0 0 0\n"), b"closed 3 2 1 1 0\n")
            self.assertEqual(asking.ended(), (0, ""))


class Ends(Scratch):
    def test_a_last_line_without_line_feed(self):
        """Not answered, whatever it says; the lines before it are, and 2 wins over 1."""
        answered = (b"0 0 0 0 1\n", b"open 0 0 0 0 5\n")
        for before, answers in ((b"", b""), answered, (b"1\n", b"refused 9 at 0\n")):
            for last in (b"0 0 0 0 1", b"0", b" ", b"\0"):
                ended = plq("ask", plan_d, stdin=before + last)
                self.assertEnds(ended, 2, answers)
                self.assertTrue(ended.words.endswith(CUT.format(before.count(b"\n") + 1)))

    def test_a_plan_without_its_last_line_feed(self):
        self.assertRefused("refused 3 at 14", None, "report", "-", stdin=D[:-1])


class Long(Scratch):
    def test_the_longest_text(self):
        for text_of in (text_of_length, owned_text_of_length):
            longest, longer = text_of(GREATEST_TEXT), text_of(GREATEST_TEXT + 1)
            self.assertEqual((len(longest), len(longer)), (65_536, 65_537))
            self.assertDone(None, "report", "-", stdin=longest)
            for arguments in on_plan("-"):
                self.assertRefused("refused 2 at 0", None, *arguments, stdin=longer)

    def test_ten_million_bytes(self):
        """As a text, as a certificate, as a question of many values and of a long one."""
        ten_million = D + b"1 1 1\n" * 1_666_653
        self.assertGreater(len(ten_million), 9_999_990)
        long = self.path("long", ten_million)
        for arguments in on_plan(long):
            self.assertRefused("refused 2 at 0", None, *arguments)
        self.assertRefused("refused 10 at 0", None, "check", plan_d, long)
        many, large = b"0 " * 5_000_000 + b"0\n", b"1" * 10_000_000 + b" 0 0 0 0\n"
        self.assertRefused("refused 9 at 0", None, "ask", plan_d, stdin=many)
        self.assertRefused("refused 15 at 1", None, "ask", plan_d, stdin=large)

    def test_many_questions(self):
        answers = b"open 0 0 0 0 5\nclosed 3 2 1 1 0\n" * 100
        self.assertDone(answers, "ask", plan_d, stdin=b"0 0 0 0 1\n1 0 0 0 0\n" * 100)

    def test_memory_that_ends(self):
        little = {"preexec_fn": limited(resource.RLIMIT_AS, 2**26)}
        said = words("/dev/zero", "there is not enough memory for it")
        certified = ("ask", plan_d, "--certificate", "/dev/zero", "1")
        for arguments in (("report", "/dev/zero"), ("check", plan_d, "/dev/zero"), certified):
            self.assertFails(said, *arguments, **little)
        with open("/dev/zero", "rb") as zero:
            asked, more = [COMMAND, "ask", plan_d], {"timeout": PATIENCE, **little}
            ended = subprocess.run(asked, stdin=zero, capture_output=True, text=True, **more)
        self.assertEqual((ended.returncode, ended.stdout), (2, ""))
        self.assertEqual(ended.stderr, words("standard input", "Cannot allocate memory"))


if __name__ == "__main__":
    unittest.main()
