"""Ways in which the C calls that report and answer can be wrong, for the stand-ins.

    WRONG_CALLS  by name, a function that spoils the model's calls
"""

from model import calls, questions, report
from model import certificate as certificates
from model.calls import Answered
from model.factors import reduce
from model.limits import GREATEST_ENTRIES
from model.plan_text import read_plan
from model.questions import Answer
from model.refusals import (
    FACTOR_FORM,
    HEADER,
    LENGTH,
    PRODUCT,
    QUESTION_VALUE,
    ROOM,
    Refusal,
    encoded,
)
from model.storage import row
from programs import CELL, FILLER, numbers

NONE = b""
FILLED_BYTE = FILLER[0]
(FILLED_CELL,) = numbers(FILLER * CELL["c"])


def _spoil_answers(function):
    """`function` has the right answer and what the call was given."""
    right = calls.answer
    calls.answer = lambda *given: function(right(*given), *given)


def _spoil_reports(function):
    """`function` has the number, the buffer and what the call was given."""
    right = calls.report
    calls.report = lambda *given: function(*right(*given), *given)


def _refused(refusal, x_length, z_length):
    return Answered(encoded(refusal), 0, (0,) * x_length, (0,) * z_length)


def _has(found, number):
    return found.number % 256 == number


def _plan(text):
    return read_plan(text, GREATEST_ENTRIES)


def verdict_exchanged():
    _spoil_answers(
        lambda found, *_: found if found.number else found._replace(verdict=1 - found.verdict)
    )


def verdict_left_on_a_refusal():
    _spoil_answers(
        lambda found, *_: found._replace(verdict=FILLED_BYTE) if found.number else found
    )


def x_left_on_a_refusal():
    def wrong(found, *_):
        return found._replace(x=(FILLED_CELL,) * len(found.x)) if found.number else found

    _spoil_answers(wrong)


def z_left_where_open():
    """Of x and z only the one that is the answer is written."""

    def wrong(found, *_):
        return found._replace(z=(FILLED_CELL,) * len(found.z)) if found.verdict else found

    _spoil_answers(wrong)


def own_factors_always():
    """The certificate is checked, and then the engine's own factors are asked: the
    verdict is the same."""
    right = calls.answer

    def wrong(found, text, certificate, *question):
        own = right(text, NONE, *question)
        return found if found.number or own.number else own

    _spoil_answers(wrong)


def factors_beside_a_certificate():
    """The plan is factored also where somebody else has done it: 7."""

    def wrong(found, text, certificate, y, *lent):
        stages = report.stages(text)
        return _refused(stages, *lent) if isinstance(stages, Refusal) else found

    _spoil_answers(wrong)


def no_certificate_is_a_wrong_one():
    def wrong(found, text, certificate, y, *lent):
        return found if found.number or certificate else _refused(Refusal(HEADER), *lent)

    _spoil_answers(wrong)


def certificate_not_checked():
    """The set is used as it stands, if it can be."""
    checked = questions.answer_from_certificate

    def wrong(plan, certificate, y):
        found = checked(plan, certificate, y)
        if isinstance(found, Refusal) and found.number in (FACTOR_FORM, PRODUCT):
            try:
                return questions._answer_values(plan, certificates.parse(plan, certificate), y)
            except (LookupError, ValueError):
                return found
        return found

    questions.answer_from_certificate = wrong


def lengths_before_reading():
    """9 comes first where y and z are not of one length."""

    def wrong(found, text, certificate, y, x_length, z_length):
        return found if len(y) == z_length else _refused(Refusal(LENGTH), x_length, z_length)

    _spoil_answers(wrong)


def lengths_before_factoring():
    """9 comes before 7."""

    def wrong(found, text, certificate, y, *lent):
        plan = _plan(text)
        if _has(found, ROOM) and (len(y), *lent) != (plan.m, plan.n, plan.m):
            return _refused(Refusal(LENGTH), *lent)
        return found

    _spoil_answers(wrong)


def lengths_after_the_certificate():
    """10 to 14 come before 9."""

    def wrong(found, text, certificate, *question):
        number = calls.check_certificate(text, certificate) if certificate else 0
        return found._replace(number=number) if _has(found, LENGTH) and number else found

    _spoil_answers(wrong)


def _first_large(plan, y):
    return next((index for index, value in enumerate(y) if value >= plan.p), None)


def values_before_the_certificate():
    """15 comes before 10 to 14."""

    def wrong(found, text, certificate, y, *lent):
        large = _first_large(_plan(text), y) if HEADER <= found.number % 256 <= PRODUCT else None
        return found if large is None else _refused(Refusal(QUESTION_VALUE, large), *lent)

    _spoil_answers(wrong)


def values_from_one():
    """The index of a value counts from 1, as in print."""
    _spoil_answers(
        lambda found, *_: (
            found._replace(number=found.number + 256) if _has(found, QUESTION_VALUE) else found
        )
    )


def last_large_value():
    """15 names the last value that is too large."""

    def wrong(found, text, certificate, y, *lent):
        if not _has(found, QUESTION_VALUE):
            return found
        last = max(index for index, value in enumerate(y) if value >= _plan(text).p)
        return _refused(Refusal(QUESTION_VALUE, last), *lent)

    _spoil_answers(wrong)


def p_is_a_residue():
    """A value of p is taken for 0."""
    right = calls.answer

    def wrong(found, text, certificate, y, *lent):
        if not _has(found, QUESTION_VALUE):
            return found
        p = _plan(text).p
        return right(text, certificate, tuple(0 if value == p else value for value in y), *lent)

    _spoil_answers(wrong)


def _spoil_lengths(wanted, cut):
    """9 is not tested for one of the two: `wanted` are the lengths that it then has
    to be, and `cut` makes it as long as it was lent."""
    right = calls.answer

    def wrong(found, text, certificate, y, *lent):
        if not _has(found, LENGTH):
            return found
        return cut(right(text, certificate, y, *wanted(_plan(text), *lent)), *lent)

    _spoil_answers(wrong)


def _resized(part, length):
    return (*part, *(0,) * length)[:length]


def x_of_any_length():
    _spoil_lengths(
        lambda plan, x_length, z_length: (plan.n, z_length),
        lambda found, x_length, z_length: found._replace(x=_resized(found.x, x_length)),
    )


def z_of_any_length():
    _spoil_lengths(
        lambda plan, x_length, z_length: (x_length, plan.m),
        lambda found, x_length, z_length: found._replace(z=_resized(found.z, z_length)),
    )


def first_in_column_order():
    """Of the columns where something remains z takes the one that is first in C, which
    in the engine's own set is the lowest-numbered."""
    right = questions.answer

    def wrong(plan, factors, y):
        found = right(plan, factors, y)
        if found.is_open:
            return found
        upper = [row(factors.U, k) for k in range(factors.r)]
        question = {j: value for j, value in enumerate(y) if value}
        _, remainder = reduce(question, upper, factors.C[: factors.r], plan.p)
        free = min(remainder, key=factors.C.index)
        return Answer(False, found.x, questions._kernel(plan, factors, upper, free))

    questions.answer = wrong


def rows_from_one():
    """The row of 7 counts from 1, as in print."""
    calls.encoded = lambda result: (
        encoded(result) + 256 * (isinstance(result, Refusal) and result.number == ROOM)
    )


def report_not_padded():
    """Past the report's end the buffer is as it was."""

    def wrong(number, left, text, length):
        return number, left.rstrip(b"\0").ljust(length, FILLER) if number == 0 else left

    _spoil_reports(wrong)


def exact_buffer_refused():
    """A buffer has to be longer than the report."""
    _spoil_reports(
        lambda number, left, text, length: (
            (LENGTH, bytes(length)) if number == 0 and left and left[-1] else (number, left)
        )
    )


def report_cut():
    """A buffer that is too short holds what it can."""
    _spoil_reports(
        lambda number, left, text, length: (
            (number, report.report_lines(text)[:length]) if number == LENGTH else (number, left)
        )
    )


def refusal_in_the_buffer():
    """A refusal by reading or factoring leaves its line there, as the program prints it."""

    def wrong(number, left, text, length):
        if number in (0, LENGTH):
            return number, left
        return number, report.report(text)[:length].ljust(length, b"\0")

    _spoil_reports(wrong)


def buffer_before_reading():
    """No buffer is 9, whatever the text."""
    _spoil_reports(
        lambda number, left, text, length: (number, left) if length else (LENGTH, left)
    )


WRONG_CALLS = {
    defect.__name__: defect
    for defect in (
        verdict_exchanged,
        verdict_left_on_a_refusal,
        x_left_on_a_refusal,
        z_left_where_open,
        own_factors_always,
        factors_beside_a_certificate,
        no_certificate_is_a_wrong_one,
        certificate_not_checked,
        lengths_before_reading,
        lengths_before_factoring,
        lengths_after_the_certificate,
        values_before_the_certificate,
        values_from_one,
        last_large_value,
        p_is_a_residue,
        x_of_any_length,
        z_of_any_length,
        first_in_column_order,
        rows_from_one,
        report_not_padded,
        exact_buffer_refused,
        report_cut,
        refusal_in_the_buffer,
        buffer_before_reading,
    )
}
