"""The programs under test, each with the calls that it answers.

    Report, Ask  programs that read a plan text on standard input
    Calls        the driver of the C calls, many cases in one process
    PROTOCOL     the C calls as the driver knows them
    parts        what a request hands to one of them
    cells, numbers   numbers of 32 bits as bytes, and back
    compile_driver   the driver for a static library and its header
    Crash        what stands for the result where a program did not end well
"""

import os
import struct
import subprocess
from pathlib import Path
from typing import NamedTuple, Optional

FILLER = b"\xa5"
# The letter of each call, and one for each of its parts: bytes or cells of 32 bits, in capitals
# where they are lent for writing.
PROTOCOL = {
    "make": (b"M", "bB"),
    "check": (b"C", "bb"),
    "plq_report": (b"R", "bB"),
    "plq_answer": (b"A", "bbcCCB"),
}
CELL = {"b": 1, "c": 4}
RESPONSE = struct.Struct("<QB")
KEPT = 1
FAULTS = {0: "memory that was not lent changed", 2: "otherwise with NULL for what is empty"}
BATCH = 200
PATIENCE = 120


class Crash(NamedTuple):
    """A program that ended by a signal or not at all, wrote to standard error,
    or (a C call) changed what it was not lent."""

    reason: str


class Ended(NamedTuple):
    """How a process ended: what it wrote, and what was wrong, or None."""

    output: bytes
    fault: Optional[Crash]


def _run(command, data):
    try:
        done = subprocess.run(command, input=data, capture_output=True, timeout=PATIENCE)
    except subprocess.TimeoutExpired as late:
        return Ended(late.stdout or b"", Crash(f"no end within {PATIENCE} seconds"))
    if done.returncode < 0:
        return Ended(done.stdout, Crash(f"signal {-done.returncode}"))
    if done.stderr:
        return Ended(done.stdout, Crash(f"standard error {done.stderr[:200]!r}"))
    return Ended(done.stdout, None)


def _printed(command, text):
    output, fault = _run(command, text)
    return fault or output


class Program:
    """Prints a line or more for a text on standard input."""

    def __init__(self, command):
        self.command = command

    def results(self, cases):
        for case in cases:
            yield _printed([*self.command, *self.arguments(case)], case.text)


class Report(Program):
    """Prints the report of the plan text."""

    calls = ("report",)

    def arguments(self, _case):
        return ()


class Ask(Program):
    """Takes the question as arguments, or after the plan where there are none; and
    after the verb `words` slot values in the same way. The verb `settings` takes
    nothing but the plan."""

    calls = ("ask", "words", "settings")

    def arguments(self, case):
        verb = () if case.call == "ask" else (case.call,)
        return (*verb, *map(str, case.question))


class Calls:
    """Speaks the protocol of driver.c."""

    calls = tuple(PROTOCOL)

    def __init__(self, command):
        self.command = command

    def results(self, cases):
        """The results in order; a process that ends early crashed at its
        first case without an answer, and the rest goes to another process."""
        waiting = list(cases)
        while waiting:
            batch = waiting[:BATCH]
            output, fault = _run(self.command, b"".join(map(_request, batch)))
            results = list(_responses(batch, output))
            if len(results) < len(batch):
                results.append(fault or Crash("no answer"))
            elif fault:
                results[-1] = fault
            yield from results
            waiting = waiting[len(results) :]


def cells(values):
    return struct.pack(f"<{len(values)}I", *values)


def numbers(content):
    return struct.unpack(f"<{len(content) // CELL['c']}I", content)


def parts(case):
    """What is lent for writing is full of other bytes."""
    if case.call == "check":
        return [case.text, case.certificate]
    if case.call != "plq_answer":
        return [case.text, FILLER * case.buffer_length]
    lent = (CELL["c"] * case.x_length, CELL["c"] * case.z_length, 1)
    return [case.text, case.certificate, cells(case.question), *(FILLER * size for size in lent)]


def _request(case):
    letter, kinds = PROTOCOL[case.call]
    contents = parts(case)
    lengths = [len(content) // CELL[kind.lower()] for kind, content in zip(kinds, contents)]
    return letter + cells(lengths) + b"".join(contents)


def _responses(batch, output):
    place = 0
    for case in batch:
        _, kinds = PROTOCOL[case.call]
        sizes = [len(content) for kind, content in zip(kinds, parts(case)) if kind.isupper()]
        end = place + RESPONSE.size + sum(sizes)
        if end > len(output):
            return
        number, kept = RESPONSE.unpack_from(output, place)
        left = output[place + RESPONSE.size : end]
        yield _result(case, number, kept, left)
        place = end


def _result(case, number, kept, left):
    """As the model has it: the number with the bytes lent, or all that an answer is."""
    if kept != KEPT:
        return Crash(FAULTS.get(kept, "the driver itself changed"))
    if case.call != "plq_answer":
        return number, left
    end = CELL["c"] * case.x_length
    return number, left[-1], numbers(left[:end]), numbers(left[end:-1])


def compile_driver(library, header_folder, target):
    """The command that runs the driver, compiled against the library."""
    target.mkdir(parents=True, exist_ok=True)
    driver = target / "driver"
    source = Path(__file__).parent / "driver.c"
    compiler = os.environ.get("CC", "cc")
    subprocess.run(
        [compiler, "-std=c11", "-O1", "-Wall", "-Wextra", "-I", header_folder, source, library]
        + ["-o", driver],
        check=True,
    )
    return [str(driver)]
