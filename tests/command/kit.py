"""What the tests share.

    plq          runs the command
    redirected   runs it with its standard files as the shell redirects them
    Ended        how it ended
    Asking       the command while it answers line by line
    Scratch      a test case with a folder of its own, below target/
    VERBS        every verb on plan D; on_plan, the verbs that read a plan, on another
    words        a line that the command writes to standard error
    needs        skips a test that needs a program
    limited      what a process does first to have little of something
    plan_d, D_PLQ, D_EARLIER   plan D, its certificate and one that others made for it
"""

import os
import resource
import select
import shutil
import subprocess
import tempfile
import unittest
from pathlib import Path
from typing import NamedTuple

ROOT = Path(__file__).resolve().parents[2]
TARGET = ROOT / "target"
COMMAND = TARGET / "command" / "plq"
LIBRARY = TARGET / "staticlib" / "libplq.a"
INCLUDE = f"-I{ROOT / 'include'}"
SOURCE = ROOT / "command" / "plq.c"
EXAMPLES = ROOT / "examples"
plan_d = EXAMPLES / "D.txt"
D_PLQ = EXAMPLES / "D.plq"
D_EARLIER = EXAMPLES / "D-earlier.plq"
REPORT_D = (ROOT / "crates" / "report" / "stdout").read_bytes()
PATIENCE = 60  # seconds
VERBS = {
    "report": ("report", plan_d),
    "make": ("make", plan_d, "-"),
    "check": ("check", plan_d, D_EARLIER),
    "ask": ("ask", plan_d, *"00160"),
    "picture": ("picture", plan_d),
    "--help": ("--help",),
    "help": ("help", "ask"),
    "--version": ("--version",),
}


def on_plan(plan):
    """The arguments of each verb that reads a plan."""
    yield "report", plan
    yield "make", plan, "-"
    yield "check", plan, D_EARLIER
    yield "ask", plan, "1"
    yield "ask", plan, "--certificate", D_EARLIER, "1"
    yield "picture", plan
    yield "picture", plan, D_EARLIER


class Ended(NamedTuple):
    status: int
    output: bytes
    words: str


def plq(*arguments, stdin=b"", output=subprocess.PIPE, command=(COMMAND,), **more):
    """The command with these arguments; `output` may be a file."""
    done = subprocess.run(
        [*map(str, command), *map(str, arguments)],
        input=stdin,
        stdout=output,
        stderr=subprocess.PIPE,
        timeout=PATIENCE,
        **more,
    )
    return Ended(done.returncode, done.stdout, done.stderr.decode())


def redirected(how):
    """The command as the shell runs it: `>&-` closes standard output."""
    return ("bash", "-c", f'exec "$@" {how}', "bash", COMMAND)


class Asking:
    """The command `ask` on plan D with pipes, as a planning program would keep it."""

    def __enter__(self):
        pipes = dict.fromkeys(("stdin", "stdout", "stderr"), subprocess.PIPE)
        self.running = subprocess.Popen([COMMAND, "ask", plan_d], **pipes, bufsize=0)
        return self

    def ask(self, line):
        """The answer, which must come before any other question."""
        self.running.stdin.write(line)
        if not select.select([self.running.stdout], [], [], PATIENCE)[0]:
            raise AssertionError("no answer")
        return self.running.stdout.readline()

    def ended(self):
        """The status and the words; nobody asks any more."""
        _, said = self.running.communicate(timeout=PATIENCE)
        return self.running.returncode, said.decode()

    def __exit__(self, *_):
        self.running.kill()
        self.running.wait()
        for stream in (self.running.stdin, self.running.stdout, self.running.stderr):
            stream.close()


def words(place, what):
    return f"plq: {place}: {what}\n"


def needs(*programs):
    for program in programs:
        if not shutil.which(program):
            raise unittest.SkipTest(f"what needs {program} (it is not installed)")


def limited(what, soft, hard=None):
    """For preexec_fn; `what` is as the module resource names it."""
    limits = (soft, soft if hard is None else hard)
    return lambda: resource.setrlimit(what, limits)


class Scratch(unittest.TestCase):
    """A folder for what the tests of a class write, and nothing left of it."""

    @classmethod
    def setUpClass(cls):
        TARGET.mkdir(exist_ok=True)
        cls.folder = Path(tempfile.mkdtemp(prefix="command-", dir=TARGET))
        os.chmod(cls.folder, 0o755)
        cls.addClassCleanup(shutil.rmtree, cls.folder)

    def path(self, name, content=None):
        """A path in the folder; with content, of a file that has it."""
        path = self.folder / name
        if content is not None:
            path.write_bytes(content)
        return path

    def built(self, name, *flags):
        """The command with a C library that is loaded, for tools that come between the two;
        None where it cannot be built so."""
        needs("cc")
        command = self.path(name)
        build = ("cc", "-std=c99", "-g", *flags, INCLUDE, SOURCE, LIBRARY, "-o", command)
        done = subprocess.run(build, capture_output=True, timeout=PATIENCE)
        return command if done.returncode == 0 else None

    def assertEnds(self, ended, status, output=None, said=None):
        self.assertEqual(ended.status, status, str(ended)[:400])
        if output is not None:
            self.assertEqual(ended.output, output)
        if said is not None:
            self.assertEqual(ended.words, said)

    def assertDone(self, output, *arguments, **more):
        """Status 0, this output if it is not None, and no words."""
        self.assertEnds(plq(*arguments, **more), 0, output, "")

    def assertRefused(self, line, said, *arguments, **more):
        """Status 1, this line alone, and these words if they are not None."""
        self.assertEnds(plq(*arguments, **more), 1, f"{line}\n".encode(), said)

    def assertFails(self, said, *arguments, **more):
        """Status 2, nothing on standard output, and these words if they are not None."""
        self.assertEnds(plq(*arguments, **more), 2, b"", said)
