"""Compiling the small C and C++ programs of the benchmark.

    python3 bench/build.py FOLDER    builds the peers; prints name and path of each

    compiled        the path of a compiled program, or None with a printed reason
    build_peers     the peers whose library is installed, by name: the bare rank within one process
    build_programs  the same as whole programs, which read a plan text and print the rank
"""

import os
import shlex
import subprocess
import sys
from pathlib import Path

HERE = Path(__file__).resolve().parent
C_COMPILER = os.environ.get("CC", "cc")
CPP_COMPILER = os.environ.get("CXX", "c++")

# Name, source, Debian packages, libraries by hand or the name for pkg-config.
PEERS = (
    ("LinBox", "linbox_rank.cpp", "liblinbox-dev libiml-dev libntl-dev", "linbox"),
    ("FLINT", "flint_rank.c", "libflint-dev", ("-lflint", "-lgmp")),
    ("FFPACK", "ffpack_rank.cpp", "fflas-ffpack libopenblas-dev", "fflas-ffpack"),
    ("PARI", "pari_rank.c", "libpari-dev", ("-lpari",)),
)

# The peers as their users write them.
PROGRAMS = (
    ("LinBox program", "linbox_program.cpp", *PEERS[0][2:]),
    ("FLINT program", "flint_program.c", *PEERS[1][2:]),
)


def _compiler(source):
    if source.suffix == ".c":
        return [C_COMPILER, "-std=gnu11", "-O2", "-march=native"]
    return [CPP_COMPILER, "-std=gnu++14", "-O2", "-march=native"]


def compiled(source, target, *words):
    """Compile unless the program is newer than its sources; None if it fails."""
    target.mkdir(parents=True, exist_ok=True)
    program = target / source.stem
    headers = [*HERE.glob("*.h"), *HERE.glob("peers/*.h")]
    files = [source, *headers, *(w for w in words if isinstance(w, Path) and w.is_file())]
    if program.exists() and all(p.stat().st_mtime < program.stat().st_mtime for p in files):
        return program
    done = subprocess.run(
        [*_compiler(source), str(source), *map(str, words), "-o", str(program)],
        capture_output=True,
    )
    return program if done.returncode == 0 else None


def _libraries(given):
    if not isinstance(given, str):
        return list(given)
    found = subprocess.run(["pkg-config", "--cflags", "--libs", given], capture_output=True)
    return shlex.split(found.stdout.decode()) if found.returncode == 0 else None


def build_peers(target, say=print, listed=PEERS):
    """Each peer is optional; one that cannot be compiled is named with the
    packages that it needs."""
    built = {}
    for name, source, packages, libraries in listed:
        words = _libraries(libraries)
        program = None if words is None else compiled(HERE / "peers" / source, target, *words)
        if program:
            built[name] = program
        else:
            say(f"skipped: {name} (needs the Debian packages {packages})")
    return built


def build_programs(target, say=print):
    return build_peers(target, say, PROGRAMS)


if __name__ == "__main__":
    for peer, path in build_peers(Path(sys.argv[1])).items():
        print(peer, path)
