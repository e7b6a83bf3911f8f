"""`make` leaves the old file or the new one, whole, and nothing else."""

import os
import resource
import shutil
import signal
import stat
import subprocess
import threading
import unittest

from kit import (
    COMMAND,
    D_PLQ,
    PATIENCE,
    Scratch,
    limited,
    needs,
    plan_d,
    plq,
    redirected,
    words,
)

MADE = b"certificate of 217 bytes\n"
WHOLE = D_PLQ.read_bytes()
NOBODY = {"user": 65534, "group": 65534, "extra_groups": ()}
DIAGONAL = b"".join(b"%d %d 1\n" % (i, i) for i in range(1, 2049))
LARGE = b"7\n2048 2048 M\n" + DIAGONAL + b"0 0 0\n"


class Making(Scratch):
    def setUp(self):
        self.place = self.folder / "certificates"
        self.place.mkdir()
        self.addCleanup(shutil.rmtree, self.place)
        self.old = self.place / "old.plq"
        self.old.write_bytes(b"old")

    def assertLeft(self, *names):
        self.assertEqual(sorted(path.name for path in self.place.iterdir()), sorted(names))

    def assertOld(self):
        self.assertEqual(self.old.read_bytes(), b"old")
        self.assertLeft("old.plq")

    def assertMode(self, path, mode):
        self.assertEqual(stat.S_IMODE(path.stat().st_mode), mode)


class Places(Making):
    def test_a_new_file_has_the_mode_of_new_files(self):
        for mask, mode in ((0o022, 0o644), (0o077, 0o600), (0, 0o666)):
            new = self.place / "new.plq"
            self.assertDone(MADE, "make", plan_d, new, umask=mask)
            self.assertMode(new, mode)
            new.unlink()

    def test_an_old_file_is_replaced_and_keeps_its_mode(self):
        self.old.chmod(0o640)
        self.assertDone(MADE, "make", plan_d, self.old)
        self.assertEqual(self.old.read_bytes(), WHOLE)
        self.assertMode(self.old, 0o640)
        self.assertLeft("old.plq")

    def test_who_has_the_old_file_open_keeps_it_whole(self):
        with open(self.old, "rb") as reader:
            self.assertDone(MADE, "make", plan_d, self.old)
            self.assertEqual(reader.read(), b"old")

    def test_a_relative_path(self):
        self.assertDone(MADE, "make", plan_d, "old.plq", cwd=self.place)
        self.assertEqual(self.old.read_bytes(), WHOLE)
        self.assertLeft("old.plq")

    def test_a_symbolic_link_stays(self):
        link = self.place / "link.plq"
        link.symlink_to("old.plq")
        self.assertDone(MADE, "make", plan_d, link)
        self.assertTrue(link.is_symlink())
        self.assertEqual(self.old.read_bytes(), WHOLE)

    def test_a_link_to_nothing_stays(self):
        link = self.place / "link.plq"
        link.symlink_to("nothing")
        self.assertFails(None, "make", plan_d, link)
        self.assertTrue(link.is_symlink())
        self.assertLeft("link.plq", "old.plq")

    def test_the_plan_is_not_replaced(self):
        plan, same = self.place / "plan.txt", self.place / "same.txt"
        plan.write_bytes(plan_d.read_bytes())
        same.hardlink_to(plan)
        for certificate in (plan, same):
            said = words(certificate, "it is the plan; nothing is written")
            self.assertFails(said, "make", plan, certificate)
            self.assertFails(said, "make", "-", certificate, command=redirected(f"<{plan}"))
        self.assertEqual(plan.read_bytes(), plan_d.read_bytes())

    def test_the_plan_is_not_written_to_as_standard_output(self):
        plan = self.place / "plan.txt"
        plan.write_bytes(plan_d.read_bytes())
        said = words("standard output", "it is the plan; nothing is written")
        for how in (f">>{plan}", f"1<>{plan}"):
            self.assertFails(said, "make", plan, "-", command=redirected(how))
            self.assertFails(said, "make", "-", "-", command=redirected(f"<{plan} {how}"))
        self.assertEqual(plan.read_bytes(), plan_d.read_bytes())

    def test_files_named_minus(self):
        """They are neither standard input nor standard output."""
        (self.place / "-").write_bytes(plan_d.read_bytes())
        self.assertDone(WHOLE, "make", "./-", "-", cwd=self.place)
        self.assertDone(MADE, "make", "-", "./-", stdin=plan_d.read_bytes(), cwd=self.place)
        self.assertEqual((self.place / "-").read_bytes(), WHOLE)

    def test_devices_and_pipes_are_written_to(self):
        self.assertDone(MADE, "make", plan_d, "/dev/null")
        pipe = self.place / "pipe"
        os.mkfifo(pipe)
        got = []
        reader = threading.Thread(target=lambda: got.append(pipe.read_bytes()), daemon=True)
        reader.start()
        self.assertDone(MADE, "make", plan_d, pipe)
        reader.join(PATIENCE)
        self.assertEqual(got, [WHOLE])

    def test_standard_output_by_its_path(self):
        self.assertDone(WHOLE, "make", plan_d, "/dev/stdout")
        with open(self.old, "wb") as output:
            self.assertEnds(plq("make", plan_d, "/dev/stdout", output=output), 0, said="")
        self.assertEqual(self.old.read_bytes(), WHOLE)


class Failing(Making):
    def test_a_refused_plan(self):
        self.assertRefused("refused 3 at 1", None, "make", "-", self.old)
        self.assertOld()

    def test_a_place_that_is_not_there(self):
        for place in (self.place / "none" / "new.plq", self.old / "new.plq"):
            self.assertFails(None, "make", plan_d, place)
        self.assertOld()

    def test_a_directory(self):
        self.assertFails(words(self.place, "Is a directory"), "make", plan_d, self.place)
        self.assertOld()

    def test_a_full_device(self):
        said = words("/dev/full", "No space left on device")
        self.assertFails(said, "make", plan_d, "/dev/full")

    def test_a_full_standard_output_after_the_file(self):
        """The file is there, and the line is not: that is told too."""
        with open("/dev/full", "wb") as full:
            self.assertEnds(plq("make", plan_d, self.old, output=full), 2)
        self.assertEqual(self.old.read_bytes(), WHOLE)

    def test_a_limit_on_files(self):
        limit = limited(resource.RLIMIT_FSIZE, 1_000)
        said = words(self.old, "File too large")
        self.assertFails(said, "make", "-", self.old, stdin=LARGE, preexec_fn=limit)
        self.assertOld()

    def test_a_full_file_system(self):
        needs("mount", "umount")
        mount = ["mount", "-t", "tmpfs", "-o", "size=32k", "plq-test", self.place]
        if subprocess.run(mount, capture_output=True, timeout=PATIENCE).returncode:
            self.skipTest("a full file system (it cannot be mounted here)")
        try:
            self.old.write_bytes(b"old")
            said = words(self.old, "No space left on device")
            self.assertFails(said, "make", "-", self.old, stdin=LARGE)
            self.assertOld()
        finally:
            subprocess.run(["umount", self.place], check=True, timeout=PATIENCE)

    def test_killed_while_it_writes(self):
        """Wherever it is killed, the old file or the new one is there."""
        large, made = self.path("large.txt", LARGE), self.path("large.plq")
        self.assertDone(None, "make", large, made)
        for wait in range(12):
            making = subprocess.Popen([COMMAND, "make", large, self.old], stdout=subprocess.DEVNULL)
            threading.Event().wait(wait / 2_000)
            making.send_signal(signal.SIGKILL if wait % 2 else signal.SIGTERM)
            making.wait(PATIENCE)
            self.assertIn(self.old.read_bytes(), (b"old", made.read_bytes()))


class Rights(Making):
    """As another user, where the tests run as root."""

    def setUp(self):
        super().setUp()
        self.user = NOBODY if os.geteuid() == 0 else {}
        try:
            plq("--version", **self.user)
        except PermissionError:
            self.skipTest("what rights forbid (another user cannot run the command here)")

    def test_a_folder_that_may_not_be_written(self):
        self.place.chmod(0o555)
        new = self.place / "new.plq"
        self.assertFails(words(new, "Permission denied"), "make", plan_d, new, **self.user)
        self.place.chmod(0o755)
        self.assertOld()

    def test_a_file_that_may_not_be_written(self):
        self.place.chmod(0o777)
        self.old.chmod(0o444)
        said = words(self.old, "Permission denied")
        self.assertFails(said, "make", plan_d, self.old, **self.user)
        self.assertOld()

    def test_files_that_may_not_be_read(self):
        secret = self.place / "secret"
        secret.write_bytes(plan_d.read_bytes())
        secret.chmod(0)
        certified = ("ask", plan_d, "--certificate", secret, "1")
        for arguments in (("report", secret), ("make", secret, "-"), ("ask", secret, "1"),
                          ("check", plan_d, secret), ("picture", secret), certified):  # fmt: skip
            self.assertFails(words(secret, "Permission denied"), *arguments, **self.user)


if __name__ == "__main__":
    unittest.main()
