"""Nothing is cut silently: a write that fails is status 2 with words, in every verb."""

import os
import resource
import subprocess
import unittest

from kit import (
    D_PLQ,
    PATIENCE,
    REPORT_D,
    VERBS,
    Asking,
    Scratch,
    limited,
    needs,
    on_plan,
    plan_d,
    plq,
    redirected,
    words,
)

FULL = words("standard output", "No space left on device")
CLOSED = words("standard output", "Bad file descriptor")
BROKEN = words("standard output", "Broken pipe")
TOO_LARGE = words("standard output", "File too large")


class Writing(Scratch):
    def assertEvery(self, said, output, **more):
        """Every verb ends with these words where its output is this file."""
        for verb, arguments in VERBS.items():
            with self.subTest(verb=verb):
                self.assertEnds(plq(*arguments, output=output, **more), 2, said=said)

    def test_a_full_device(self):
        with open("/dev/full", "wb") as full:
            self.assertEvery(FULL, full)

    def test_a_refusal_on_a_full_device(self):
        """Status 1 would say that the line is there."""
        with open("/dev/full", "wb") as full:
            for arguments in on_plan("-"):
                ended = plq(*arguments, output=full)
                self.assertEnds(ended, 2)
                self.assertTrue(ended.words.endswith(FULL))

    def test_a_limit_on_files(self):
        with open(self.path("limited"), "wb") as file:
            self.assertEvery(TOO_LARGE, file, preexec_fn=limited(resource.RLIMIT_FSIZE, 10))

    def test_a_reader_that_went_away(self):
        reading, writing = os.pipe()
        os.close(reading)
        with open(writing, "wb") as pipe:
            self.assertEvery(BROKEN, pipe)

    def test_a_reader_that_goes_away(self):
        """After the first of many answers, which it got."""
        with Asking() as asking:
            self.assertEqual(asking.ask(b"0 0 0 0 1\n"), b"open 0 0 0 0 5\n")
            asking.running.stdout.close()
            asking.running.stdin.write(b"0 0 0 0 1\n")
            self.assertEqual(asking.ended(), (2, BROKEN))


# A close that fails, as on a file system that stores only then.
LATE_FAILURE = b"""#define _GNU_SOURCE
#include <errno.h>
#include <sys/syscall.h>
#include <unistd.h>
int close(int file)
{
    if (file != 1)
        return (int)syscall(SYS_close, file);
    errno = EIO;
    return -1;
}
"""


class Late(Scratch):
    def test_what_fails_when_it_is_closed(self):
        needs("cc")
        source, library = self.path("late.c", LATE_FAILURE), self.path("late.so")
        build = ("cc", "-shared", "-fPIC", source, "-o", library)
        subprocess.run(build, check=True, timeout=PATIENCE)
        said = words("standard output", "Input/output error")
        late = {**os.environ, "LD_PRELOAD": str(library)}
        command = (self.built("loaded"),)
        for arguments in VERBS.values():
            self.assertEnds(plq(*arguments, env=late, command=command), 2, said=said)


class Closed(Scratch):
    """A file that is opened does not take the number of a standard file that was closed."""

    def test_standard_output(self):
        for verb, arguments in VERBS.items():
            with self.subTest(verb=verb):
                self.assertFails(CLOSED, *arguments, command=redirected(">&-"))

    def test_a_standard_output_for_reading(self):
        self.assertFails(CLOSED, "report", plan_d, command=redirected("1</dev/null"))

    def test_nothing_is_written_into_the_certificate(self):
        for how in (">&-", ">&- 2>&-", "<&- >&-", "<&- >&- 2>&-"):
            made = self.path("closed.plq")
            self.assertFails(None, "make", plan_d, made, command=redirected(how))
            self.assertEqual(made.read_bytes(), D_PLQ.read_bytes())
            made.unlink()

    def test_standard_error(self):
        """Its words are lost, and nothing else."""
        silent, made = {"command": redirected("2>&-")}, self.path("words.plq")
        self.assertDone(b"certificate of 217 bytes\n", "make", plan_d, made, **silent)
        self.assertRefused("refused 9 at 0", "", "ask", plan_d, "1", **silent)
        self.assertFails("", "report", "nothing", **silent)

    def test_standard_input(self):
        """It is missed where it is read, and only there."""
        deaf = {"command": redirected("<&-")}
        missed = words("standard input", "Bad file descriptor")
        for arguments in (*on_plan("-"), ("ask", plan_d), ("check", plan_d, "-")):
            self.assertFails(missed, *arguments, **deaf)
        self.assertDone(REPORT_D, "report", plan_d, **deaf)
        self.assertDone(b"open 0 0 0 0 5\n", "ask", plan_d, *"00001", **deaf)


if __name__ == "__main__":
    unittest.main()
