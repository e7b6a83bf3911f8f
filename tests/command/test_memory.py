"""Memory: every verb under valgrind and with sanitizers, and the stack that each call needs."""

import resource
import subprocess
import unittest
from random import Random

from kit import (
    D_EARLIER,
    INCLUDE,
    LIBRARY,
    PATIENCE,
    ROOT,
    VERBS,
    Scratch,
    limited,
    needs,
    plan_d,
    plq,
    words,
)
from plans import BenchPlan, filling, random_sparse, text, wide_pads

VALGRIND = ("valgrind", "-q", "--error-exitcode=9", "--leak-check=full")
MORE = {
    "check, refused": ("check", plan_d, plan_d),
    "picture of a certificate": ("picture", plan_d, D_EARLIER),
    "ask a certificate": ("ask", plan_d, "--certificate", D_EARLIER, *"10000"),
    "ask, refused": ("ask", plan_d, "1"),
    "questions": ("ask", plan_d),
    "no such file": ("report", "nothing"),
    "wrong use": ("make",),
}
QUESTIONS = b"0 0 1 6 0\n1 2\n\n1 0 0 0 0\n0 0 0 0 1"
BUILDERS = ((random_sparse, 2, 2_048), (filling, 7, 280), (wide_pads, 65_521, 200))


def plans():
    """Such that reading, factoring and the rest go every way."""
    for builder, p, size in BUILDERS:
        n, m, rows = builder(Random("memory"), p, size)
        yield text(BenchPlan("", p, n, m, rows))
    yield plan_d.read_bytes()
    yield b"7\n2 2 M\n1 1 1\n1 1 1\n0 0 0\n"


class Faults(Scratch):
    def assertFaultless(self, *command):
        """The same status and output as without the tool, which says nothing."""
        for name, arguments in {**VERBS, **MORE}.items():
            with self.subTest(verb=name):
                found = plq(*arguments, stdin=QUESTIONS, command=command)
                self.assertEqual(found, plq(*arguments, stdin=QUESTIONS))

    def valgrind(self):
        """It sees what is allocated only where the C library is loaded."""
        needs("valgrind")
        return (*VALGRIND, self.built("loaded"))

    def test_valgrind(self):
        self.assertFaultless(*self.valgrind())

    def test_making_a_file_under_valgrind(self):
        made, valgrind = self.path("made.plq"), self.valgrind()
        for _ in range(2):
            self.assertDone(b"certificate of 217 bytes\n", "make", plan_d, made, command=valgrind)

    def test_sanitizers(self):
        sanitize = ("-fsanitize=address,undefined", "-fno-sanitize-recover=all")
        command = self.built("sanitized", *sanitize)
        if not command:
            self.skipTest("sanitizers (the compiler has none)")
        self.assertFaultless(command)
        for content in plans():
            plan = self.path("plan.txt", content)
            for arguments in (("report", plan), ("picture", plan), ("make", plan, "-")):
                self.assertEqual(plq(*arguments, command=(command,)), plq(*arguments))


class Stack(Scratch):
    def test_a_low_limit(self):
        """It is raised, or the command says that it is too low."""
        little, hard = 256 * 1024, resource.getrlimit(resource.RLIMIT_STACK)[1]
        low = limited(resource.RLIMIT_STACK, little, hard)
        for arguments in VERBS.values():
            self.assertEqual(plq(*arguments, preexec_fn=low), plq(*arguments))
        too_low = limited(resource.RLIMIT_STACK, little)
        said = words("the stack", "its limit is too low; `ulimit -s 2048` suffices")
        self.assertFails(said, "report", plan_d, preexec_fn=too_low)

    def test_each_call_stays_below_its_bound(self):
        needs("cc")
        program = self.path("stack")
        flags = ("-std=c11", "-O2", "-Wall", "-Wextra", "-Werror", "-pthread", INCLUDE)
        source = ROOT / "tests" / "command" / "stack.c"
        build = ("cc", *flags, source, LIBRARY, "-o", program)
        subprocess.run(build, check=True, timeout=PATIENCE)
        paths = [self.path(f"plan{k}", content) for k, content in enumerate(plans())]
        more = {"capture_output": True, "text": True, "timeout": PATIENCE}
        measured = subprocess.run([program, *paths], **more)
        self.assertEqual((measured.returncode, measured.stderr), (0, ""))
        lines = [line.rsplit(" ", 1) for line in measured.stdout.splitlines()]
        (_, bound), *calls = [(name, int(depth)) for name, depth in lines]
        self.assertEqual(len(calls), 5)
        depths = ", ".join(f"{name} {-(-depth // 1024)}" for name, depth in calls)
        print(f"stack, in KiB: {depths}; PLQ_STACK {bound // 1024}")
        for name, depth in calls:
            self.assertLessEqual(depth, bound, name)


if __name__ == "__main__":
    unittest.main()
