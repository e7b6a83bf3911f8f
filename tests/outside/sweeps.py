"""Every room and every buffer length around its edge, and every modulus.

A sweep takes the call under test as a function, so that it serves the model
and anything else that takes rooms.

    room_differences      factoring with every room of L and of U
    reading_differences   reading with every room for entries
    buffer_cases          the C calls with buffers around a certificate's length
    modulus_cases         the C check of the empty plan by each modulus
    sieve                 the primes below a bound, found without a division
"""

from cases import Case
from model.certificate import write
from model.factors import factor, schedule
from model.plan_text import read_plan
from model.refusals import ROOM, Refusal

AMPLE = 10**6
EMPTY = b"%d\n0 0 M\n0 0 0\n"


def room_differences(call, plan):
    """Rooms of L and U, each from 0 to need + 1 beside an ample other one and
    both together, for which `call(plan, lower, upper)` is not what the
    running totals say."""
    whole = factor(plan, AMPLE, AMPLE)
    totals = list(_running_totals(plan, whole.factors))
    needs = [len(whole.factors.L.columns), len(whole.factors.U.columns)]
    rooms = [(room, AMPLE) for room in range(needs[0] + 2)]
    rooms += [(AMPLE, room) for room in range(needs[1] + 2)]
    rooms += [(room, room) for room in range(max(needs) + 2)]
    for lower, upper in rooms:
        over = [i for i, l, u in totals if l > lower or u > upper]
        wanted = Refusal(ROOM, over[0]) if over else whole
        if call(plan, lower, upper) != wanted:
            yield lower, upper


def _running_totals(plan, factors):
    """Each row in processing order with the entries of L and of U so far."""
    position = {row: i for i, row in enumerate(factors.R)}
    lower = upper = 0
    for row, _ in schedule(plan):
        i = position[row]
        lower += factors.L.starts[i + 1] - factors.L.starts[i]
        if i < factors.r:
            upper += factors.U.starts[i + 1] - factors.U.starts[i]
        yield row, lower, upper


def reading_differences(call, text):
    """Rooms from 0 to need + 1 for which `call(text, room)` does not refuse
    with 7 at the line of the first entry without room. `text` states a plan
    by lines that each store an entry."""
    whole = read_plan(text, AMPLE)
    need = len(whole.rows.columns)
    for room in range(need + 2):
        wanted = Refusal(ROOM, room + 3) if room < need else whole
        if call(text, room) != wanted:
            yield room


def buffer_cases(text, origin):
    """Making with buffers short, exact and long; checking what was cut or
    lengthened."""
    plan = read_plan(text, AMPLE)
    certificate = write(plan, factor(plan, AMPLE, AMPLE).factors)
    length = len(certificate)
    lengths = {0, 1, 4, 5, 28, 29, length // 2, length + 4_096}
    lengths |= set(range(max(0, length - 9), length + 10))
    for size in sorted(lengths):
        yield Case("make", text, buffer_length=size, origin=origin)
        resized = certificate[:size].ljust(size, b"\0")
        yield Case("check", text, certificate=resized, origin=origin)


def modulus_cases(moduli):
    """Checking the certificate of the plan without rows and columns, by each
    of these moduli: it passes exactly if the modulus is accepted."""
    empty = read_plan(EMPTY % 2, AMPLE)
    factors = factor(empty, AMPLE, AMPLE).factors
    for p in moduli:
        certificate = write(empty._replace(p=p % 2**32), factors)
        yield Case("check", EMPTY % p, certificate=certificate, origin=f"modulus {p}")


def sieve(bound):
    """The primes below the bound, rising."""
    prime = [False, False] + [True] * max(0, bound - 2)
    for number in range(bound):
        if prime[number]:
            for multiple in range(number * number, bound, number):
                prime[multiple] = False
    return [number for number in range(bound) if prime[number]]
