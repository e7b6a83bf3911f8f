"""`report` and `ask` print what the proved programs print, and `make` what the model makes, on
plans of the outside tests, valid and damaged."""

import subprocess
import unittest

from compare import fixed_cases, plan_cases, tiny_cases
from kit import PATIENCE, TARGET, Scratch, plq
from model.calls import make_certificate

PLANS = 12
ANY_CERTIFICATE = 300_000


def printed(name, case):
    program = [str(TARGET / "bin" / name), *map(str, case.question)]
    more = {"stdout": subprocess.PIPE, "check": True, "timeout": PATIENCE}
    return subprocess.run(program, input=case.text, **more).stdout


def cases(call, given):
    """Those of a call; questions as arguments."""
    return [case for case in given if case.call == call and (call != "ask" or case.question)]


class Programs(Scratch):
    @classmethod
    def setUpClass(cls):
        super().setUpClass()
        cls.given = [case for index in range(PLANS) for case in plan_cases("command", index)]
        cls.given += tiny_cases("command", 0, 3)

    def program(self, name):
        if not (TARGET / "bin" / name).is_file():
            self.skipTest(f"what {name} prints (no program target/bin/{name})")

    def assertPrints(self, ended, output):
        self.assertEnds(ended, 1 if output.startswith(b"refused") else 0, output)

    def test_report(self):
        self.program("report")
        found = cases("report", self.given)
        for case in found:
            self.assertPrints(plq("report", "-", stdin=case.text), printed("report", case))
        self.assertGreater(len(found), 2 * PLANS)

    def test_ask(self):
        self.program("ask")
        found = cases("ask", self.given)
        for case in found:
            ended = plq("ask", "-", *case.question, stdin=case.text)
            self.assertPrints(ended, printed("ask", case))
        self.assertGreater(len(found), PLANS)

    def test_ask_by_lines(self):
        """All questions on one plan at once, and from its certificate."""
        self.program("ask")
        texts = {case.text for case in cases("ask", self.given)}
        for text in sorted(texts)[:4]:
            asked = [case for case in cases("ask", self.given) if case.text == text]
            lines = b"".join(b" ".join(b"%d" % v for v in case.question) + b"\n" for case in asked)
            answers = b"".join(printed("ask", case) for case in asked)
            plan, made = self.path("plan.txt", text), self.path("made.plq")
            self.assertEqual(plq("ask", plan, stdin=lines).output, answers)
            if plq("make", plan, made).status == 0:
                certified = plq("ask", plan, "--certificate", made, stdin=lines)
                self.assertEqual(certified.output, answers)

    def test_make_and_check(self):
        texts = {case.text for case in cases("report", self.given)}
        for text in texts:
            result, buffer = make_certificate(text, ANY_CERTIFICATE)
            ended = plq("make", "-", "-", stdin=text)
            self.assertEqual(ended.status, 1 if result else 0)
            if not result:
                self.assertEqual(ended.output, buffer[: len(ended.output)])
                self.assertFalse(any(buffer[len(ended.output) :]))
                self.assertDone(None, "check", self.path("plan.txt", text), "-", stdin=ended.output)

    def test_worked_reports(self):
        self.program("report")
        for case in cases("report", fixed_cases("command"))[:60]:
            self.assertPrints(plq("report", "-", stdin=case.text), printed("report", case))


if __name__ == "__main__":
    unittest.main()
