"""The table of a benchmark run.

    Measured     one plan with the times of every tool in seconds
    in_order     what tools gave for a text whose triples stand in another order
    markdown     rows of cells under a header
    milliseconds, microseconds, ratio   numbers as the tables write them
    mean         the geometric mean
    table        times and ratios as Markdown
"""

from math import exp, log
from typing import NamedTuple

from plans import ORDERS

# The stages of a report within one process; what is left of it is printing and handing on.
STAGES = ("reading", "factor", "check set", "open words")
WHOLE = "in process"

# The tools of ours whose time may depend on the order of a text's triples.
ORDERED = {"reading": "Reading", "in process": "The whole report in process"}


class Measured(NamedTuple):
    """Times by tool; a tool that was skipped is missing."""

    plan: str
    size: str
    entries: int
    rank: int
    sparse: bool
    times: dict

    def over(self, peer, tool):
        """The peer's time divided by our tool's; None where one is missing."""
        if peer in self.times and tool in self.times:
            return self.times[peer] / self.times[tool]
        return None


def in_order(order, results):
    """Those that may depend on the order, by names that say it."""
    return {f"{tool} {order}": results[tool] for tool in ORDERED if tool in results}


def milliseconds(seconds):
    """Three digits that matter."""
    value = 1e3 * seconds
    return f"{value:.3f}" if value < 1 else f"{value:.2f}" if value < 100 else f"{value:.0f}"


def microseconds(seconds):
    return f"{1e6 * seconds:.2f}"


def ratio(value):
    return f"{value:.2f}" if value < 10 else f"{value:.0f}"


def mean(values):
    return exp(sum(map(log, values)) / len(values))


def _cell(write, value):
    return "" if value is None else write(value)


def markdown(header, rows):
    yield "| " + " | ".join(header) + " |"
    yield "|" + "|".join("---" if i == 0 else "---:" for i in range(len(header))) + "|"
    for cells in rows:
        yield "| " + " | ".join(cells) + " |"


def _times(measured, tools):
    yield "Milliseconds, medians."
    yield ""
    rows = (
        [one.plan, one.size, str(one.entries), str(one.rank)]
        + [_cell(milliseconds, one.times.get(tool)) for tool in tools]
        for one in measured
    )
    yield from markdown(["plan", "size", "entries", "rank", *tools], rows)


def _ratios(measured, tool, words, others):
    """Each of the others beside our tool, plan by plan, with the least and the mean."""
    yield f"{words}; above 1 we are ahead."
    yield ""
    rows = [
        [one.plan] + [_cell(ratio, one.over(other, tool)) for other in others] for one in measured
    ]
    columns = [[r for r in (one.over(o, tool) for one in measured) if r is not None] for o in others]
    for words, summary in (("least", min), ("geometric mean", mean)):
        rows.append([words] + [ratio(summary(column)) if column else "" for column in columns])
    yield from markdown(["plan", *(f"{other} / {tool}" for other in others)], rows)


def _stages(measured):
    """What each stage of a report takes within one process."""
    plans = [one for one in measured if all(tool in one.times for tool in (*STAGES, WHOLE))]
    if not plans:
        return
    yield "The stages of a report within one process, milliseconds; `rest` is printing, clearing the lists and handing on."
    yield ""
    rows = []
    for one in plans:
        times = [one.times[tool] for tool in STAGES]
        rest = max(one.times[WHOLE] - sum(times), 0.0)
        rows.append([one.plan, *map(milliseconds, [*times, rest, one.times[WHOLE]])])
    yield from markdown(["plan", *STAGES, "rest", WHOLE], rows)


def _checking(measured):
    for check, tool, words in (
        ("check", "make", "Checking a certificate, reading included, takes at most {} times as long as making it ({})."),
        ("check set", "factor", "Checking a set takes at most {} times as long as factoring ({})."),
        ("open words", "factor", "Listing the open words takes at most {} times as long as factoring ({})."),
    ):
        shares = [(one.over(check, tool), one.plan) for one in measured if one.over(check, tool) is not None]
        if shares:
            most, plan = max(shares)
            yield words.format(ratio(most), plan)


def _orders(measured, tool, words):
    """The tool on triples in other orders beside its time on rising ones."""
    others = [f"{tool} {order}" for order in ORDERS]
    plans = [one for one in measured if all(one.over(other, tool) for other in others)]
    if not plans:
        return
    yield f"{words}, by the order of the triples: milliseconds, and times the rising text's."
    yield ""
    rows = (
        [one.plan]
        + [milliseconds(one.times[name]) for name in (tool, *others)]
        + [ratio(one.over(other, tool)) for other in others]
        for one in plans
    )
    header = ["plan", "rising", *ORDERS, *(f"{order} / rising" for order in ORDERS)]
    yield from markdown(header, rows)
    yield ""
    most, plan = max((one.over(other, tool), one.plan) for one in plans for other in others)
    yield f"{words} takes at most {ratio(most)} times as long as on the rising text ({plan})."


def table(measured, own, programs, peers):
    """Times in milliseconds; programs beside programs and calls beside calls;
    the stages; checking beside making and factoring; other orders of the triples."""
    parts = [_times(measured, [*own, *programs, *peers])]
    if "report" in own and programs:
        words = "Programs beside our report program: each starts, reads the text and prints"
        parts.append(_ratios(measured, "report", words, programs))
    if "factor" in own and peers:
        words = "Calls beside calls, reading left out: the peer's bare rank divided by our factoring"
        parts.append(_ratios(measured, "factor", words, peers))
    parts.append(_stages(measured))
    parts.append(_checking(measured))
    parts += [_orders(measured, tool, words) for tool, words in ORDERED.items()]
    for index, lines in enumerate(map(list, parts)):
        if lines and index > 0:
            yield ""
        yield from lines
