"""The question program's output (document 01, "Questions"; the form of the lines is the program's
own; the line of owners and the verbs `words` and `settings`, slips 4, 6 and 7 of the change requests).

    ask          the output for a text and a question
    answer_line  the line of an answer
    ask_words    the output for a text and slot values, by the verb `words`
    words_line   the line of their solution
    ask_by_text, ask_words_by_text   the output for a text that the values follow
    ask_settings the output for a text, by the verb `settings`
    settings_lines   the lines of its settings
    plan_end     where the plan's text ends in such a text
"""

import re

from .kernel import settings
from .limits import GREATEST_ENTRIES
from .plan_text import read_plan
from .questions import answer_from_factors
from .refusals import MALFORMED, Refusal
from .report import printed, refused, stages
from .slots import slots_from_factors

NO_RESIDUE = 2**32 - 1  # stands for a value that is no number of 32 bits
GREATEST_INPUT = 98_304  # bytes that are looked at
PLAN_END = re.compile(rb"(?m)^0 0 0\n(owners( [^\n]*)?(\n|\Z))?")


def ask(text, y):
    """`open` with x or `closed` with z, on one line, or a refusal."""
    return _output(text, y, answer_from_factors, answer_line)


def ask_words(text, h):
    """`words` with s or `contradiction` with w, on one line, or a refusal."""
    return _output(text, h, slots_from_factors, words_line)


def _output(text, values, call, line):
    """The line of what the call gives, or a refusal."""
    result = stages(text)
    if isinstance(result, Refusal):
        return refused(result)
    plan, (factors, _) = result
    found = call(plan, factors, values)
    return refused(found) if isinstance(found, Refusal) else line(found)


def answer_line(answer):
    return _line(*("open", answer.x) if answer.is_open else ("closed", answer.z))


def words_line(solution):
    return _line(*("words", solution.s) if solution.solved else ("contradiction", solution.w))


def _line(verdict, cells):
    return printed(" ".join([verdict, *map(str, cells)]))


def ask_by_text(text):
    """What follows the plan's text is the question."""
    return _by_text(text, ask)


def ask_words_by_text(text):
    """What follows the plan's text are the slot values."""
    return _by_text(text, ask_words)


def ask_settings(text):
    """`free` with the number of settings, then a line for each of them, or a refusal.
    There are no values: all of the text is the plan's."""
    result = stages(text)
    if isinstance(result, Refusal):
        return refused(result)
    plan, (factors, _) = result
    return settings_lines(settings(plan, factors))


def settings_lines(found):
    return b"".join([_line("free", [len(found)]), *(_line("setting", s) for s in found)])


def _by_text(text, by_values):
    """The lines are judged in order: those of the plan, then a last one that has no
    line feed, then the values."""
    text = text[:GREATEST_INPUT]
    end = plan_end(text)
    plan, after = text[:end], text[end:]
    if after and not after.endswith(b"\n"):
        return refused(_reading_refusal(plan) or Refusal(MALFORMED, text.count(b"\n") + 1))
    return by_values(plan, _values(after))


def _reading_refusal(text):
    """By which a plan's text is refused when it is read, or None."""
    plan = read_plan(text, GREATEST_ENTRIES)
    return plan if isinstance(plan, Refusal) else None


def plan_end(text):
    """After the first line `0 0 0`, or after the line that follows it where the
    first field of that one is the word `owners`."""
    ending = PLAN_END.search(text)
    return ending.end() if ending else len(text)


def _values(text):
    """Decimal numbers without sign or leading zero, between single spaces or
    line feeds; a line feed ends them."""
    text = text.removesuffix(b"\n")
    return tuple(map(_value, re.split(b"[ \n]", text))) if text else ()


def _value(field):
    if not re.fullmatch(b"0|[1-9][0-9]*", field):
        return NO_RESIDUE
    return min(int(field), NO_RESIDUE)
