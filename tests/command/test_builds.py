"""The header and the command with every compiler that is here; what is installed, as a program
finds it; the manual's examples; the launchers."""

import os
import shutil
import subprocess
import unittest

from kit import (
    COMMAND,
    D_PLQ,
    EXAMPLES,
    INCLUDE,
    LIBRARY,
    PATIENCE,
    REPORT_D,
    ROOT,
    SOURCE,
    TARGET,
    Scratch,
    needs,
    plan_d,
    plq,
)

WARNINGS = ("-Wall", "-Wextra", "-Wpedantic", "-Wshadow", "-Wconversion", "-Werror")
USES_HEADER = b"""#include "plq.h"
#include "plq.h"
int main(void)
{
    static uint8_t buffer[PLQ_LARGEST_CERTIFICATE];
    if (plq_number(257) != PLQ_BAD_MODULUS || plq_detail(257) != 1)
        return 1;
    return plq_certificate_length(buffer) != 37 || plq_header_number(buffer, 5) != 0;
}
"""


def run(*command, **more):
    more = {"capture_output": True, "text": True, "timeout": PATIENCE, **more}
    return subprocess.run(list(map(str, command)), **more)


class Compilers(Scratch):
    def compiles(self, compiler, standards, *sources):
        needs(compiler)
        for standard in standards:
            for source in sources:
                flags = (f"-std={standard}", *WARNINGS, "-fsyntax-only", INCLUDE)
                done = run(compiler, *flags, source)
                self.assertEqual((done.returncode, done.stderr), (0, ""), (standard, source))

    def c_compiler(self, compiler):
        source = self.path("uses.c", USES_HEADER)
        self.compiles(compiler, ("c99", "c11", "c17"), SOURCE, source)

    def cpp_compiler(self, compiler):
        self.compiles(compiler, ("c++11", "c++14", "c++17"), self.path("uses.cpp", USES_HEADER))

    def test_gcc(self):
        self.c_compiler("gcc")

    def test_clang(self):
        self.c_compiler("clang")

    def test_gcc_for_cpp(self):
        self.cpp_compiler("g++")

    def test_clang_for_cpp(self):
        self.cpp_compiler("clang++")

    def test_the_header_says_what_the_layout_is(self):
        needs("cc")
        program = self.path("uses")
        built = run("cc", "-std=c99", INCLUDE, self.path("uses.c", USES_HEADER), "-o", program)
        self.assertEqual((built.returncode, run(program).returncode), (0, 0), built.stderr)


INSTALLED = {
    "bin/plq", "include/plq.h", "lib/libplq.a", "lib/libplq.so", "lib/libplq.so.1",
    "lib/pkgconfig/plq.pc", "share/man/man1/plq.1",
}  # fmt: skip


def files_in(folder):
    return {str(path.relative_to(folder)) for path in folder.rglob("*") if not path.is_dir()}


class Installed(Scratch):
    """In a folder that stands for the root of the file system."""

    @classmethod
    def setUpClass(cls):
        super().setUpClass()
        needs("make", "cc")
        cls.root = cls.folder / "root"
        cls.prefix = cls.root / "usr" / "plq"
        done = cls.make(cls.root, "install")
        if done.returncode:
            raise AssertionError(done.stdout + done.stderr)

    @staticmethod
    def make(root, target):
        return run("make", "-C", ROOT, target, f"DESTDIR={root}", "PREFIX=/usr/plq")

    def pkg_config(self, *arguments):
        paths = {"PKG_CONFIG_PATH": str(self.prefix / "lib" / "pkgconfig")}
        system = {**os.environ, **paths, "PKG_CONFIG_SYSROOT_DIR": str(self.root)}
        return run("pkg-config", *arguments, "plq", env=system, check=True).stdout.split()

    def test_files(self):
        self.assertEqual(files_in(self.prefix), INSTALLED)

    def test_uninstalling(self):
        second = self.folder / "second"
        for target in ("install", "uninstall"):
            self.assertEqual(self.make(second, target).returncode, 0)
        self.assertEqual(files_in(second), set())

    def test_the_command(self):
        self.assertDone(REPORT_D, "report", plan_d, command=(self.prefix / "bin" / "plq",))

    def test_the_version(self):
        needs("pkg-config")
        version = plq("--version").output.decode().split()[1]
        self.assertEqual(self.pkg_config("--modversion"), [version])

    def test_a_program_by_pkg_config(self):
        """With the library linked when it runs, and with the archive in it."""
        needs("pkg-config")
        flags, library = self.pkg_config("--cflags", "--libs"), self.prefix / "lib"
        static = [*self.pkg_config("--cflags"), library / "libplq.a"]
        for name, linked, paths in (("shared", flags, str(library)), ("static", static, "")):
            program = self.path(name)
            built = run("cc", "-std=c11", EXAMPLES / "check.c", *linked, "-o", program)
            self.assertEqual(built.returncode, 0, built.stderr)
            found = {**os.environ, "LD_LIBRARY_PATH": paths}
            self.assertDone(None, plan_d, D_PLQ, command=(program,), env=found)

    def test_the_manual(self):
        """Without a complaint, where there is somebody to complain."""
        needs("mandoc")
        linted = run("mandoc", "-Tlint", self.prefix / "share" / "man" / "man1" / "plq.1")
        self.assertEqual(linted.stdout + linted.stderr, "")


def shown_in_manual():
    """What stands in its examples: commands after `$ `, each with what it prints."""
    inside, shown = False, ""
    for line in (ROOT / "command" / "plq.1").read_text().replace("\\e", "\\").splitlines():
        inside = line.startswith(".Bd -literal") or (inside and line != ".Ed")
        shown += line + "\n" if inside and not line.startswith(".") else ""
    for step in shown.split("$ ")[1:]:
        command, _, printed = step.partition("\n")
        yield command, printed


class Manual(Scratch):
    def test_its_examples(self):
        place = self.folder / "manual"
        (place / "bin").mkdir(parents=True)
        (place / "examples").symlink_to(EXAMPLES)
        (place / "bin" / "plq").symlink_to(COMMAND)
        paths = {**os.environ, "PATH": f"{place / 'bin'}:{os.environ['PATH']}"}
        for command, printed in shown_in_manual():
            done = run("bash", "-c", f"({command}) 2>&1", cwd=place, env=paths)
            self.assertEqual(done.stdout, printed, command)


class Launchers(Scratch):
    """Within a copy of the repository that has the library and nothing else built; the library is
    copied last and so is newer than the crates' sources, which keep their times."""

    @classmethod
    def setUpClass(cls):
        super().setUpClass()
        needs("make", "cc")
        cls.copy = cls.folder / "copy"
        for name in ("command", "include", "examples"):
            shutil.copytree(ROOT / name, cls.copy / name)
        for name in ("plq", "Makefile", "run-report", "crates.txt"):
            shutil.copy2(ROOT / name, cls.copy / name)
        for source in (ROOT / "crates").glob("*/src"):
            shutil.copytree(source, cls.copy / source.relative_to(ROOT))
        (cls.copy / "target" / "staticlib").mkdir(parents=True)
        shutil.copy(LIBRARY, cls.copy / "target" / "staticlib")
        cls.plan = os.path.relpath(plan_d, cls.folder)

    def linked(self, name):
        """The launcher by a link, from another folder."""
        link = self.path(f"link-to-{name}")
        link.symlink_to(self.copy / name)
        return {"command": (f"./{link.name}",), "cwd": self.folder}

    def test_plq(self):
        """The build leaves standard input alone, and the status is the command's."""
        where = self.linked("plq")
        no_compiler = {**os.environ, "CC": "false"}
        self.assertFails(None, "report", self.plan, **where, env=no_compiler)
        first = plq("report", "-", stdin=plan_d.read_bytes(), **where)
        self.assertEnds(first, 0, REPORT_D)
        self.assertRegex(first.words, r"\Abuilding target/command/plq.*\n\Z")
        self.assertDone(REPORT_D, "report", self.plan, **where)
        self.assertRefused("refused 9 at 0", None, "ask", self.plan, "6", **where)
        self.assertFails(None, "report", "nothing", **where)

    def test_run_report(self):
        self.run_report_without_its_build()
        program = TARGET / "bin" / "report"
        if not program.is_file():
            self.skipTest("run-report (no program target/bin/report)")
        (self.copy / "target" / "bin").mkdir()
        shutil.copy2(program, self.copy / "target" / "bin")
        where = {"command": ("./link-to-run-report",), "cwd": self.folder}
        self.assertDone(REPORT_D, **where)
        self.assertDone(REPORT_D, "-", stdin=plan_d.read_bytes(), **where)
        self.assertDone(REPORT_D, self.plan, **where)
        self.assertDone(None, "--help", **where)
        for wrong in ((plan_d, plan_d), ("--help", "--help"), ("nothing",), (".",)):
            self.assertFails(None, *wrong, **where)

    def run_report_without_its_build(self):
        """By an rt that fails: 2, for 1 would be a refusal."""
        where, tools = self.linked("run-report"), self.folder / "tools"
        tools.mkdir()
        rt = self.path("tools/rt", b"#!/bin/sh\necho no proof\nexit 1\n")
        rt.chmod(0o755)
        failing = {**os.environ, "PATH": f"{tools}:{os.environ['PATH']}"}
        failed = plq(**where, env=failing)
        self.assertEnds(failed, 2, b"")
        self.assertRegex(failed.words, r"\Abuilding target/bin/report.*\nno proof\n\Z")


if __name__ == "__main__":
    unittest.main()
