"""Stand-ins for the programs, made of the model, right or wrong on purpose.

    python3 standin.py report|ask|calls [DEFECT] [words|settings] [value...]

The wrong ones show that the comparison would notice: a test that cannot fail
tells nothing.

    DEFECTS      by name, a function that spoils the model; those of the C calls that report
                 and answer stand in wrong_calls.py
"""

import sys
from random import Random
from typing import NamedTuple

from generate.left import BLOCK, Side, side
from generate.sets import foreign_set
from model import (
    ask,
    calls,
    certificate,
    check,
    kernel,
    plan_text,
    questions,
    report,
    slots,
    storage,
    structure,
)
from model.factors import Factored, Factors, factor, reduce, schedule
from model.kernel import settings
from model.limits import GREATEST_OWNER, GREATEST_TEXT
from model.plan_text import LAST_LINE, OWNERS_WORD, read_plan
from model.questions import Answer, answer
from model.refusals import Refusal
from model.slots import SlotSolution, contradictions, setting, slots_from_factors, solve_slots
from model.storage import row, store
from model.sums import mixed
from programs import CELL, KEPT, PROTOCOL, RESPONSE, cells, numbers
from wrong_calls import WRONG_CALLS


def _spoil_factoring(function):
    report.factor = function


def _spoil_reading(function):
    report.read_plan = calls.read_plan = function


def _spoil_answers(function):
    questions.answer = function
    report.open_words = lambda plan, factors: [
        j
        for j in range(plan.m)
        if function(plan, factors, [int(i == j) for i in range(plan.m)]).is_open
    ]


def _spoil_slots(function):
    slots.solve_slots = function


def _spoil_settings(function):
    ask.settings = function


def passes_all():
    check.judge = lambda plan, factors: None


def passes_own_bytes_only():
    def judge(plan, factors):
        own = factor(plan, 10**6, 10**6).factors
        return None if factors == own else Refusal(14, 0)

    check.judge = judge


def compares_stored_entries_only():
    """The product is compared where the plan has an entry, and nowhere else."""

    def first_difference(plan, factors):
        upper = [row(factors.U, k) for k in range(factors.r)]
        for i in range(plan.n):
            lower = row(factors.L, i)
            for j, wanted in row(plan.rows, factors.R[i]).items():
                if sum(v * upper[k].get(j, 0) for k, v in lower.items()) % plan.p != wanted:
                    return i
        return None

    check._first_difference = first_difference


class Before(NamedTuple):
    """What the rows before gave: rows of U with their pivot columns, of which
    the first are structural."""

    upper: list
    pivots: list
    structural: int


def _spoil_rows_left(turn, spoiled=lambda plan: True):
    """In plans that are `spoiled`, a row without a structural pivot is taken by
    `turn`, which has the plan, the row and what came before, and gives the
    row's coefficients, its remainder and the column of its pivot or None."""

    def wrong(plan, lower_room, upper_room):
        right = factor(plan, lower_room, upper_room)
        if isinstance(right, Refusal) or not spoiled(plan):
            return right
        return Factored(_factors_by(turn, plan, right.structural), right.structural)

    _spoil_factoring(wrong)


def _factors_by(turn, plan, structural):
    pivot_rows, dependent, lower = [], [], {}
    before = Before([], [], structural)
    for i, column in schedule(plan):
        cells = row(plan.rows, i)
        found = ({}, cells, column) if column is not None else turn(plan, cells, before)
        lower[i], remainder, pivot = found
        if pivot is None:
            dependent.append(i)
            continue
        lower[i][len(pivot_rows)] = value = remainder[pivot]
        inverse = pow(value, -1, plan.p)
        pivot_rows.append(i)
        before.pivots.append(pivot)
        before.upper.append({j: v * inverse % plan.p for j, v in remainder.items()})
    R = (*pivot_rows, *dependent)
    C = (*before.pivots, *_unused(plan, before.pivots))
    return Factors(R, C, store(lower[i] for i in R), store(before.upper), len(pivot_rows))


def _unused(plan, pivots):
    return [j for j in range(plan.m) if j not in pivots]


def _reduced(plan, cells, before):
    """The row as it should be taken."""
    coefficients, remainder = reduce(cells, before.upper, before.pivots, plan.p)
    return coefficients, remainder, min(remainder, default=None)


def _left_out(plan, cells, before):
    """The row is called dependent, whatever remains of it."""
    coefficients, _, _ = _reduced(plan, cells, before)
    return coefficients, {}, None


def structural_pivots_only():
    """The rows without a structural pivot are called dependent."""
    _spoil_rows_left(_left_out)


def _in_block(plan):
    return side(plan) == Side(False, False)


def stored_rows_left_out():
    """The same where they do not fit the block."""
    _spoil_rows_left(_left_out, lambda plan: not _in_block(plan))


def block_in_pivot_order():
    """In the block the columns of pivots change places with those before them,
    and the lowest place gives the pivot, not the lowest column."""

    def turn(plan, cells, before):
        coefficients, remainder, _ = _reduced(plan, cells, before)
        places = _unused(plan, before.pivots[: before.structural])
        for t, pivot in enumerate(before.pivots[before.structural :]):
            at = places.index(pivot)
            places[t], places[at] = places[at], places[t]
        return coefficients, remainder, next((j for j in places if j in remainder), None)

    _spoil_rows_left(turn, _in_block)


def block_row_not_replaced():
    """Of the rows of the block only the pivots are taken away: the rest of each
    stayed 0."""

    def turn(plan, cells, before):
        s = before.structural
        bare = [{pivot: 1} for pivot in before.pivots[s:]]
        return _reduced(plan, cells, before._replace(upper=before.upper[:s] + bare))

    _spoil_rows_left(turn, _in_block)


def block_too_large():
    """33 columns are held to fit the block, and the last of them is lost."""

    def turn(plan, cells, before):
        coefficients, remainder, _ = _reduced(plan, cells, before)
        held = _unused(plan, before.pivots[: before.structural])[:BLOCK]
        kept = {j: v for j, v in remainder.items() if j in held}
        return coefficients, kept, min(kept, default=None)

    def is_spoiled(plan):
        return plan.m - len(structure.structural(plan)) == BLOCK + 1

    _spoil_rows_left(turn, is_spoiled)


def lower_columns_of_the_block():
    """In L the multiple of a row of the block stands at its place in the block,
    to which the number of structural pivots was not added."""

    def wrong(plan, lower_room, upper_room):
        right = factor(plan, lower_room, upper_room)
        if isinstance(right, Refusal) or not _in_block(plan):
            return right
        s, factors = right.structural, right.factors
        lower = [row(factors.L, i) for i in range(plan.n)]
        moved = [{k - s if k >= s else k: v for k, v in cells.items()} for cells in lower[s:]]
        return right._replace(factors=factors._replace(L=store(lower[:s] + moved)))

    _spoil_factoring(wrong)


def orders_by_column():
    """The structural pivots come by rising column, as they did before rows were
    added; a row that is not 0 at an earlier pivot is then reduced."""
    structure.ordered = lambda rows, pivots: [pivots[column] for column in sorted(pivots)]


def sees_cycles_of_two_only():
    """A choice is held to close a cycle only where one of the pivots to which
    the row leads at once leads back. Where the order then gets stuck, the rows
    come by number."""
    true_ordered = structure.ordered

    def ordered(rows, pivots):
        try:
            return true_ordered(rows, pivots)
        except StopIteration:
            return sorted(pivots.values())

    structure.reached, structure.ordered = structure.led_to, ordered


def no_storage():
    _spoil_factoring(lambda plan, lower, upper: Refusal(7, 0))


def storage_one_too_short():
    _spoil_factoring(lambda plan, lower, upper: factor(plan, lower - 1, upper - 1))


def closed_always():
    _spoil_answers(lambda plan, factors, y: Answer(False, (0,) * plan.n, (0,) * plan.m))


def same_x_always():
    _spoil_answers(lambda plan, factors, y: Answer(True, (0,) * plan.n, (0,) * plan.m))


def words_one_by_one():
    """A question is held to be closed where a word in it is: the listener may hear no
    word of a sum, but the sum."""

    def wrong(plan, factors, y):
        words = (j for j, value in enumerate(y) if value)
        found = [answer(plan, factors, [int(i == j) for i in range(plan.m)]) for j in words]
        closed = [word for word in found if not word.is_open]
        return closed[0] if closed else answer(plan, factors, y)

    _spoil_answers(wrong)


def answers_from_two_sets():
    """Where the values have an odd sum, the answer is that of a set with other
    pivots: right by itself, but its x does not add up with the others."""

    def wrong(plan, factors, y):
        other = foreign_set(Random("two sets"), plan)
        return answer(plan, other if sum(y) % 2 else factors, y)

    _spoil_answers(wrong)


def z_adds_up():
    """Every column where something remains gives its z, as many times as there
    remains: so z adds up as x does, and is another for a multiple of a question."""

    def wrong(plan, factors, y):
        found = answer(plan, factors, y)
        upper = [row(factors.U, k) for k in range(factors.r)]
        cells = {j: value for j, value in enumerate(y) if value}
        _, remainder = reduce(cells, upper, factors.C[: factors.r], plan.p)
        z = found.z if found.is_open else (0,) * plan.m
        for free, times in remainder.items():
            z = mixed(plan.p, 1, z, times, questions._kernel(plan, factors, upper, free))
        return found._replace(z=z)

    _spoil_answers(wrong)


def contradiction_always():
    _spoil_slots(lambda plan, factors, h: SlotSolution(False, (0,) * plan.m, (0,) * plan.n))


def pivot_slots_only():
    """What the other slots have is not looked at, and all is solved."""
    _spoil_slots(
        lambda plan, factors, h: SlotSolution(True, setting(plan, factors, h), (0,) * plan.n)
    )


def lower_diagonal_of_one():
    """Nothing is divided by the diagonal of L: the slots are those of another plan."""

    def wrong(plan, factors, h):
        rows = {}
        for i, slot in enumerate(factors.R):
            lower = {**row(factors.L, i), **({i: 1} if i < factors.r else {})}
            rows[slot] = total = {}
            for k, factor in lower.items():
                for j, value in row(factors.U, k).items():
                    total[j] = (total.get(j, 0) + factor * value) % plan.p
        other = plan._replace(rows=store(rows[slot] for slot in range(plan.n)))
        return solve_slots(other, factors, h)

    _spoil_slots(wrong)


def other_word_set():
    """The first word that is no pivot is 1 and not 0; the slots are the same."""

    def wrong(plan, factors, h):
        found = solve_slots(plan, factors, h)
        if not found.solved or factors.r == plan.m:
            return found
        upper = [row(factors.U, k) for k in range(factors.r)]
        z = questions._kernel(plan, factors, upper, factors.C[factors.r])
        return found._replace(s=mixed(plan.p, 1, found.s, 1, z))

    _spoil_slots(wrong)


def highest_slot():
    """Of the slots that contradict others the highest-numbered is told."""

    def wrong(plan, factors, h):
        found = solve_slots(plan, factors, h)
        if found.solved:
            return found
        *_, (_, w) = contradictions(plan, factors, h)
        return found._replace(w=w)

    _spoil_slots(wrong)


def opposite_contradiction():
    """w has -1 at its slot, and is right but for this."""

    def wrong(plan, factors, h):
        found = solve_slots(plan, factors, h)
        return found._replace(w=tuple(-value % plan.p for value in found.w))

    _spoil_slots(wrong)


def as_many_values_as_words():
    """As many are wanted; those that are missing for the slots are 0."""

    def wrong(plan, factors, h):
        if len(h) != plan.m:
            return Refusal(9)
        return slots_from_factors(plan, factors, (*h, *(0,) * plan.n)[: plan.n])

    ask.slots_from_factors = wrong


def verb_forgotten_after_the_plan():
    """Where slot values follow the plan they are taken for a question."""
    ask.ask_words_by_text = ask.ask_by_text


def settings_of_the_pivots():
    """A setting for each word that is a pivot, and none for the others."""
    kernel.free_columns = lambda plan, factors: sorted(factors.C[: factors.r])


def settings_falling():
    """From the highest-numbered word on."""
    _spoil_settings(lambda plan, factors: settings(plan, factors)[::-1])


def one_setting_missing():
    _spoil_settings(lambda plan, factors: settings(plan, factors)[:-1])


def free_words_alone():
    """A setting is 1 at its word and 0 at all others, whatever the slots hear."""

    def wrong(plan, factors):
        free = kernel.free_columns(plan, factors)
        return tuple(tuple(int(j == k) for j in range(plan.m)) for k in free)

    _spoil_settings(wrong)


def opposite_settings():
    """With -1 at their word, and right but for this."""
    _spoil_settings(
        lambda plan, factors: tuple(
            tuple(-value % plan.p for value in s) for s in settings(plan, factors)
        )
    )


def opposite_pivots():
    """At the pivot words a setting has the opposite of what it should have."""

    def wrong(plan, factors):
        pivots = set(factors.C[: factors.r])
        return tuple(
            tuple(-value % plan.p if j in pivots else value for j, value in enumerate(s))
            for s in settings(plan, factors)
        )

    _spoil_settings(wrong)


def opposite_of_zero_is_p():
    """At the pivot words 0 is printed as p."""

    def wrong(plan, factors):
        pivots = set(factors.C[: factors.r])
        return tuple(
            tuple(value or plan.p * (j in pivots) for j, value in enumerate(s))
            for s in settings(plan, factors)
        )

    _spoil_settings(wrong)


def rest_of_the_text_left_out():
    """What follows the plan is not looked at, as if values stood there."""
    right = ask.ask_settings
    ask.ask_settings = lambda text: right(text[: ask.plan_end(text)])


def blank_factors():
    true_write = certificate.write
    certificate.write = lambda plan, factors: bytes(len(true_write(plan, factors)))


def _spoil_rank(function):
    """`function` has the plan and the right rank. All but the rank stays right."""

    def wrong(plan, lower, upper):
        factored = factor(plan, lower, upper)
        if isinstance(factored, Refusal):
            return factored
        factors = factored.factors
        return factored._replace(factors=factors._replace(r=function(plan, factors.r)))

    report.factor = wrong
    report.open_words = lambda plan, factors: questions.open_words(
        plan, factor(plan, 10**6, 10**6).factors
    )


def rank_made_up():
    _spoil_rank(lambda plan, rank: min(plan.n, plan.m))


def rank_one_too_large():
    _spoil_rank(lambda plan, rank: rank + 1)


def rank_one_too_small():
    """Where it is not 0."""
    _spoil_rank(lambda plan, rank: max(rank, 1) - 1)


def totals_by_pivots():
    report.totals = lambda plan, factors, opened: (
        f"totals open {factors.r} closed {plan.m - factors.r}"
    )


def totals_on_a_refusal():
    true_refused = report.refused
    report.refused = lambda refusal: true_refused(refusal) + report.printed("totals open 0 closed 0")


def refuses_all():
    _spoil_reading(lambda text, room: Refusal(3, 1))


def _spoil_moduli(wrong):
    """`wrong` has the modulus and the right answer."""
    right = plan_text.is_modulus
    plan_text.is_modulus = storage.is_modulus = lambda p: wrong(p, right(p))


def no_division_by_251():
    """The square of 251 is held to be a prime."""
    _spoil_moduli(lambda p, right: right or p == 251**2)


def no_divisors_past_256():
    """A number is held to be a prime where no number up to 256 divides it."""
    _spoil_moduli(lambda p, right: right or 256 < p < 2**32 and all(p % d for d in range(2, 257)))


def no_moduli_past_65521():
    _spoil_moduli(lambda p, right: right and p <= 65_521)


def reads_another_plan():
    """A negative value is read without its sign."""
    _spoil_reading(lambda text, room: read_plan(text.replace(b" -", b" "), room))


def _places(lines):
    """i and j of the lines from the third one on."""
    return [tuple(map(int, line.split(b" ")[:2])) for line in lines[2:]]


def wants_rising_triples():
    """A triple that does not come after the one before is 5."""

    def wrong(text, room):
        found = read_plan(text, room)
        lines = text.split(b"\n")
        places = [] if isinstance(found, Refusal) else _places(lines[: lines.index(LAST_LINE)])
        for line in range(1, len(places)):
            if places[line] <= places[line - 1]:
                return Refusal(5, line + 3)
        return found

    _spoil_reading(wrong)


def _spoil_repeats(function):
    """`function` has the text, the room, and both lines of the same place."""

    def wrong(text, room):
        found = read_plan(text, room)
        if not isinstance(found, Refusal) or found.number != 5:
            return found
        places = _places(text.split(b"\n")[: found.detail])
        return function(text, room, places.index(places[-1]) + 3, found.detail)

    _spoil_reading(wrong)


def names_the_earlier_line():
    _spoil_repeats(lambda text, room, first, later: Refusal(5, first))


def repeats_a_zero():
    """A place may be stated again where its first value reduces to 0."""

    def wrong(text, room, first, later):
        lines = text.split(b"\n")
        if int(lines[first - 1].split()[2]) % int(lines[0]):
            return Refusal(5, later)
        return read_plan(b"\n".join(lines[: first - 1] + lines[first:]), room)

    _spoil_repeats(wrong)


def unstated_owners_are_pads():
    """Without the line of owners every word has the owner 0."""
    plan_text.UNSTATED_OWNER = 0


def first_owner_always():
    """Every open word is printed with the owner of the first word."""
    report.open_line = lambda plan, column: f"open {column + 1} owner {plan.owners[0]}"


def open_pads_left_out():
    """Pads are not printed, and count as closed."""
    report.open_words = lambda plan, factors: [
        j for j in questions.open_words(plan, factors) if plan.owners[j]
    ]


def pads_left_out_of_the_plan():
    """Owners alter the plan: what stands at pads is not stored."""

    def wrong(text, room):
        found = read_plan(text, room)
        if isinstance(found, Refusal):
            return found
        rows = (row(found.rows, i) for i in range(found.n))
        kept = ({j: v for j, v in cells.items() if found.owners[j]} for cells in rows)
        return found._replace(rows=store(kept))

    _spoil_reading(wrong)


def _spoil_owners(function):
    """`function` has the fields after the word `owners`, and the right answer."""
    true_numbers = plan_text._owner_numbers

    def wrong(lines, number, m):
        found = true_numbers(lines, number, m)
        word, *fields = lines[number - 1].split(b" ") if number <= len(lines) else [b""]
        return function(fields, found) if word == OWNERS_WORD else found

    plan_text._owner_numbers = wrong


def owners_modulo_256():
    """An owner above 255 is cut down to a byte."""
    _spoil_owners(
        lambda fields, found: (
            found if isinstance(found, Refusal) else tuple(owner % 256 for owner in found)
        )
    )


def owners_judged_one_by_one():
    """16 comes before 3 where the number is before what is malformed."""

    def wrong(fields, found):
        for field in fields if isinstance(found, Refusal) else ():
            if not plan_text.OWNER.fullmatch(field):
                break
            if int(field) > GREATEST_OWNER:
                return Refusal(16, found.detail)
        return found

    _spoil_owners(wrong)


def rest_before_large_owners():
    """What follows the line of owners comes before 16 on the line."""
    true_owners = plan_text._owners

    def wrong(lines, unterminated, last, m):
        found = true_owners(lines, unterminated, last, m)
        has_rest = len(lines) > last + 1 or unterminated
        return Refusal(3, last + 2) if has_rest and found == (16, last + 1) else found

    plan_text._owners = wrong


def owners_past_the_limit():
    """The line of owners does not count towards the length of a text."""
    plan_text.GREATEST_TEXT = 2 * GREATEST_TEXT

    def wrong(text, room):
        plan, _, _ = text.partition(OWNERS_WORD)
        return Refusal(2) if len(plan) > GREATEST_TEXT else read_plan(text, room)

    _spoil_reading(wrong)


def owners_asked():
    """The line of owners is taken for the beginning of the question."""
    ask.plan_end = lambda text: len(b"".join(text.partition(b"\n0 0 0\n")[:2]))


def takes_cut_values():
    """The last value is taken without its line feed, as before."""
    right = ask._by_text

    def wrong(text, by_values):
        is_cut = not text.endswith(b"\n") and ask.plan_end(text) < len(text)
        return right(text + b"\n" if is_cut else text, by_values)

    ask._by_text = wrong


def cut_values_before_the_plan():
    """That they are cut off is told before what the plan is refused by."""
    ask._reading_refusal = lambda text: None


def leaves_refused_output():
    """A refusal leaves the lent buffer as it was."""
    true_make = calls.make_certificate

    def wrong(text, length):
        number, left = true_make(text, length)
        return number, left if number == 0 else b"\xa5" * length

    calls.make_certificate = wrong


DEFECTS = {
    defect.__name__: defect
    for defect in (
        passes_all,
        passes_own_bytes_only,
        compares_stored_entries_only,
        structural_pivots_only,
        stored_rows_left_out,
        block_in_pivot_order,
        block_row_not_replaced,
        block_too_large,
        lower_columns_of_the_block,
        orders_by_column,
        sees_cycles_of_two_only,
        no_storage,
        storage_one_too_short,
        closed_always,
        same_x_always,
        words_one_by_one,
        answers_from_two_sets,
        z_adds_up,
        contradiction_always,
        pivot_slots_only,
        lower_diagonal_of_one,
        other_word_set,
        highest_slot,
        opposite_contradiction,
        as_many_values_as_words,
        verb_forgotten_after_the_plan,
        settings_of_the_pivots,
        settings_falling,
        one_setting_missing,
        free_words_alone,
        opposite_settings,
        opposite_pivots,
        opposite_of_zero_is_p,
        rest_of_the_text_left_out,
        blank_factors,
        rank_made_up,
        rank_one_too_large,
        rank_one_too_small,
        totals_by_pivots,
        totals_on_a_refusal,
        refuses_all,
        no_division_by_251,
        no_divisors_past_256,
        no_moduli_past_65521,
        reads_another_plan,
        wants_rising_triples,
        names_the_earlier_line,
        repeats_a_zero,
        unstated_owners_are_pads,
        first_owner_always,
        open_pads_left_out,
        pads_left_out_of_the_plan,
        owners_modulo_256,
        owners_judged_one_by_one,
        rest_before_large_owners,
        owners_past_the_limit,
        owners_asked,
        takes_cut_values,
        cut_values_before_the_plan,
        leaves_refused_output,
    )
} | WRONG_CALLS


def _answer_calls(source, sink):
    """The protocol of driver.c."""
    calls_by_letter = {letter: (call, kinds) for call, (letter, kinds) in PROTOCOL.items()}
    while letter := source.read(1):
        call, kinds = calls_by_letter[letter]
        lengths = numbers(source.read(CELL["c"] * len(kinds)))
        parts = [source.read(CELL[kind.lower()] * n) for kind, n in zip(kinds, lengths)]
        number, left = _called(call, *parts)
        sink.write(RESPONSE.pack(number, KEPT) + left)


def _called(call, text, second, *rest):
    """The number returned, and what is lent for writing as bytes."""
    if call == "make":
        return calls.make_certificate(text, len(second))
    if call == "check":
        return calls.check_certificate(text, second), b""
    if call == "plq_report":
        return calls.report(text, len(second))
    y, x, z = map(numbers, rest[:-1])
    number, verdict, x, z = calls.answer(text, second, y, len(x), len(z))
    return number, cells(x) + cells(z) + bytes([verdict])


def _answer_asked(text, words):
    """By the verb, if there is one, and by the values, or by what follows the plan."""
    if words and words[0] == "settings":
        return ask.ask_settings(text)
    if words and words[0] == "words":
        values = tuple(map(int, words[1:]))
        return ask.ask_words(text, values) if values else ask.ask_words_by_text(text)
    values = tuple(map(int, words))
    return ask.ask(text, values) if values else ask.ask_by_text(text)


def main(program, *words):
    if words and words[0] in DEFECTS:
        DEFECTS[words[0]]()
        words = words[1:]
    source, sink = sys.stdin.buffer, sys.stdout.buffer
    if program == "report":
        sink.write(report.report(source.read()))
    elif program == "ask":
        sink.write(_answer_asked(source.read(), words))
    else:
        _answer_calls(source, sink)


if __name__ == "__main__":
    main(*sys.argv[1:])
