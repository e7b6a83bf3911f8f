"""Each verb on plan D, and wrong uses."""

import unittest

from kit import D_EARLIER, D_PLQ, REPORT_D, Scratch, plan_d, plq, redirected, words

D = plan_d.read_bytes()
PASSED = b"passed modulus 7 slots 5 words 5 rank 4\n"


class Done(Scratch):
    def test_report(self):
        self.assertDone(REPORT_D, "report", plan_d)
        self.assertDone(REPORT_D, "report", "-", stdin=D)

    def test_make(self):
        made = self.path("D.plq")
        self.assertDone(b"certificate of 217 bytes\n", "make", plan_d, made)
        self.assertEqual(made.read_bytes(), D_PLQ.read_bytes())
        self.assertDone(D_PLQ.read_bytes(), "make", plan_d, "-")

    def test_check(self):
        for certificate in (D_PLQ, D_EARLIER):
            self.assertDone(PASSED, "check", plan_d, certificate)
        self.assertDone(PASSED, "check", plan_d, "-", stdin=D_PLQ.read_bytes())
        self.assertDone(PASSED, "check", "-", D_PLQ, stdin=D)

    def test_ask_by_arguments(self):
        self.assertDone(b"open 0 6 0 3 0\n", "ask", plan_d, *"00160")
        self.assertDone(b"closed 3 2 1 1 0\n", "ask", plan_d, *"10000")
        self.assertDone(b"open 0 0 0 0 5\n", "ask", "-", *"00001", stdin=D)

    def test_ask_by_lines(self):
        asked = b"0 0 1 6 0\n1 0 0 0 0\n0 0 0 0 1\n"
        answers = b"open 0 6 0 3 0\nclosed 3 2 1 1 0\nopen 0 0 0 0 5\n"
        self.assertDone(answers, "ask", plan_d, stdin=asked)

    def test_ask_nothing(self):
        self.assertDone(b"", "ask", plan_d)
        self.assertDone(b"", "ask", plan_d, "--certificate", D_EARLIER)

    def test_ask_from_a_certificate(self):
        """The option stands anywhere; the verdicts are the same from any set."""
        given, values = ["--certificate", D_EARLIER], list("10000")
        orders = ([*given, plan_d, *values], [plan_d, *given, *values], [plan_d, *values, *given])
        for arguments in orders:
            self.assertDone(b"closed 3 2 1 1 0\n", "ask", *arguments)
        self.assertDone(b"open 0 0 0 0 5\n", "ask", plan_d, *given, stdin=b"0 0 0 0 1\n")

    def test_ask_without_words(self):
        """The question without values is a line of no bytes."""
        for n, x in ((0, b""), (2, b" 0 0")):
            plan = self.path("no-words.txt", b"7\n%d 0 M\n0 0 0\n" % n)
            self.assertDone(b"open" + x + b"\n", "ask", plan, stdin=b"\n")

    def test_every_line_is_answered(self):
        asked = b"0 0 1 6 0\n7 0 0 0 0\n1 2\n\n0 0 0 0 1\n"
        ended = plq("ask", plan_d, stdin=asked)
        refused = b"refused 15 at 1\nrefused 9 at 0\nrefused 9 at 0\n"
        self.assertEnds(ended, 1, b"open 0 6 0 3 0\n" + refused + b"open 0 0 0 0 5\n")
        places = [line.split(":")[1] for line in ended.words.splitlines()]
        self.assertEqual(places, [f" standard input, line {line}" for line in (2, 3, 4)])

    def test_help_and_version(self):
        for arguments in (("--help",), ("-h",), ("help",)):
            ended = plq(*arguments)
            self.assertEnds(ended, 0, said="")
            for verb in ("report", "make", "check", "ask", "picture"):
                self.assertIn(f"  plq {verb} PLAN".encode(), ended.output)
        for verb in ("report", "make", "check", "ask", "picture"):
            for arguments in (("help", verb), (verb, "--help")):
                ended = plq(*arguments)
                self.assertEnds(ended, 0, said="")
                self.assertTrue(ended.output.startswith(f"plq {verb} PLAN".encode()))
        self.assertRegex(plq("--version").output, rb"\Aplq [0-9.]+ \(certificate format 1\)\n\Z")


CERTIFICATE = ("--certificate", D_EARLIER)
WRONG = (
    (), ("tell",), ("--verbose",), ("help", "tell"), ("help", "ask", "make"),
    ("--version", "ask"), ("--help", "ask"), ("-h", "ask"), ("--help", "--version"),
    ("report",), ("report", plan_d, plan_d), ("report", "--fast"), ("report", "-x"),
    ("make", plan_d), ("make", plan_d, "a", "b"), ("make", plan_d, "--force"),
    ("check", plan_d), ("check", plan_d, "a", "b"), ("check", "-", "-"),
    ("ask",), ("ask", *CERTIFICATE), ("ask", plan_d, "--certificate"), ("ask", "-x"),
    ("ask", plan_d, *CERTIFICATE, *CERTIFICATE), ("ask", plan_d, "--x", "1"),
    ("ask", "-"), ("ask", plan_d, "--certificate", "-"), ("ask", "-", "--certificate", "-", "1"),
    ("picture",), ("picture", plan_d, D_EARLIER, D_EARLIER), ("picture", "-", "-"),
)  # fmt: skip


class Misuse(Scratch):
    def test_wrong_uses(self):
        for arguments in WRONG:
            with self.subTest(arguments=arguments):
                ended = plq(*arguments, stdin=D)
                self.assertEnds(ended, 2, b"")
                self.assertRegex(ended.words, r"\A(plq: .*; see `plq --help`|usage: plq .*)\n\Z")

    def test_the_argument_is_named(self):
        for arguments in (("tell",), ("--verbose",), ("report", "--fast"), ("ask", plan_d, "--x")):
            said = plq(*arguments).words
            self.assertTrue(said.startswith(f"plq: {arguments[-1]}: "), said)

    def test_help_and_version_stand_alone(self):
        said = "plq: --help and --version stand alone; see `plq --help`\n"
        for option in ("--help", "-h", "--version"):
            self.assertFails(said, option, "ask")

    def uses_of(self, path):
        """Each place where a file is read."""
        yield from (("report", path), ("make", path, "-"), ("ask", path, "1"), ("picture", path))
        yield from (("check", path, D_EARLIER), ("check", plan_d, path), ("picture", plan_d, path))
        yield "ask", plan_d, "--certificate", path, "1"

    def test_no_such_file(self):
        none = self.path("none")
        for arguments in self.uses_of(none):
            self.assertFails(words(none, "No such file or directory"), *arguments)

    def test_directories(self):
        for arguments in self.uses_of(self.folder):
            self.assertFails(words(self.folder, "Is a directory"), *arguments)
        said = words("standard input", "Is a directory")
        self.assertFails(said, "report", "-", command=redirected(f"<{self.folder}"))


if __name__ == "__main__":
    unittest.main()
