"""The calls for C programs (document 01, "What the library returns", last sentences; for reporting and
answering, the comments in include/plq.h). Owners are read with the plan, and alter nothing but the report
(slip 4 of the change requests).

    make_certificate    reading, then factoring and writing
    check_certificate   reading, then checking
    report              reading, then factoring and reporting
    Answered            what the last call returns and leaves
    answer              reading, then answering from a certificate, or factoring and answering
"""

from typing import NamedTuple

from . import certificate as certificates
from . import check, questions
from . import report as reports
from .limits import GREATEST_ENTRIES
from .plan_text import read_plan
from .refusals import DONE, LENGTH, Refusal, encoded


def make_certificate(text, buffer_length):
    """The number returned, and the buffer as the call leaves it."""
    stages = reports.stages(text)
    if isinstance(stages, Refusal):
        return _left(stages, buffer_length)
    plan, factored = stages
    return _left(certificates.write(plan, factored.factors), buffer_length)


def report(text, buffer_length):
    """The number returned, and the buffer as the call leaves it."""
    return _left(reports.report_lines(text), buffer_length)


def _left(result, buffer_length):
    """What was to be written and zeros past its end, or all zero on a refusal;
    a buffer that is too short is refused last."""
    if not isinstance(result, Refusal) and len(result) > buffer_length:
        result = Refusal(LENGTH)
    written = b"" if isinstance(result, Refusal) else result
    return encoded(result), written.ljust(buffer_length, b"\0")


def check_certificate(text, certificate):
    """The number returned."""
    plan = read_plan(text, GREATEST_ENTRIES)
    if isinstance(plan, Refusal):
        return encoded(plan)
    return encoded(check.check_certificate(plan, certificate))


class Answered(NamedTuple):
    """The number returned; the verdict, 1 for open; and every cell of x and z."""

    number: int
    verdict: int
    x: tuple
    z: tuple


def answer(text, certificate, y, x_length, z_length):
    """From the certificate, or from the engine's own factors where it has no
    bytes. After a refusal everything is 0, however much was lent."""
    lent = (x_length, z_length)
    found = _certified(text, certificate, y, lent) if certificate else _own(text, y, lent)
    if isinstance(found, Refusal):
        return Answered(encoded(found), 0, (0,) * x_length, (0,) * z_length)
    return Answered(DONE, int(found.is_open), found.x, found.z)


def _certified(text, certificate, y, lent):
    """Reading, then 9, 10 to 14 and 15."""
    plan = read_plan(text, GREATEST_ENTRIES)
    if isinstance(plan, Refusal):
        return plan
    if lent != (plan.n, plan.m):
        return Refusal(LENGTH)
    return questions.answer_from_certificate(plan, certificate, y)


def _own(text, y, lent):
    """Reading, then 7, 9 and 15."""
    stages = reports.stages(text)
    if isinstance(stages, Refusal):
        return stages
    plan, factored = stages
    if lent != (plan.n, plan.m):
        return Refusal(LENGTH)
    return questions.answer_from_factors(plan, factored.factors, y)
