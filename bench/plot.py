"""The plot of a benchmark run, as SVG text.

    plot         a line for each plan, a mark for each tool, time on a log scale
"""

from html import escape
from math import ceil, floor, log10

LEFT, RIGHT, TOP, STEP, WIDTH = 190, 24, 70, 22, 900
COLOURS = ("#c02020", "#e08020", "#b0a000", "#2060c0", "#208040", "#8040a0", "#606060", "#00a0a0")
TITLE = "Time for a plan: our tools (squares) and the peers' bare rank (circles)"
OWN_SHOWN = ("report", "in process", "make", "check")


class Scale:
    """Whole powers of ten around the times, from the left to the right; a time
    of 0 stands at the left."""

    def __init__(self, times):
        self.first = floor(log10(min(seconds for seconds in times if seconds > 0)))
        self.last = max(ceil(log10(max(times))), self.first + 1)

    def exponents(self):
        return range(self.first, self.last + 1)

    def place(self, seconds):
        share = (log10(max(seconds, 10.0**self.first)) - self.first) / (self.last - self.first)
        return LEFT + share * (WIDTH - LEFT - RIGHT)


def _unit(exponent):
    unit, scale = ("s", 0) if exponent >= 0 else ("ms", 3) if exponent >= -3 else ("µs", 6)
    return f"{10 ** (exponent + scale)} {unit}"


def _text(x, y, words, anchor="start"):
    return f'<text x="{x:.1f}" y="{y:.1f}" text-anchor="{anchor}">{escape(words)}</text>'


def _line(x1, y1, x2, y2, colour):
    return f'<line x1="{x1:.1f}" y1="{y1:.1f}" x2="{x2:.1f}" y2="{y2:.1f}" stroke="{colour}"/>'


def _mark(x, y, index, own):
    """Our tools are squares, the peers circles."""
    colour = COLOURS[index % len(COLOURS)]
    if own:
        return f'<rect x="{x - 5:.1f}" y="{y - 5:.1f}" width="10" height="10" fill="{colour}"/>'
    return f'<circle cx="{x:.1f}" cy="{y:.1f}" r="4.5" fill="{colour}"/>'


def _legend(tools, own):
    for index, tool in enumerate(tools):
        x = 12 + index * (WIDTH - 24) / len(tools)
        yield _mark(x + 6, 42, index, tool in own)
        yield _text(x + 16, 46, tool)


def _axis(scale, bottom):
    for exponent in scale.exponents():
        x = scale.place(10.0**exponent)
        yield _line(x, TOP - 8, x, bottom, "#ccc")
        yield _text(x, bottom + 18, _unit(exponent), "middle")


def _plan(one, y, tools, own, scale):
    yield _line(LEFT, y, WIDTH - RIGHT, y, "#eee")
    yield _text(LEFT - 10, y + 4, one.plan, "end")
    for index, tool in enumerate(tools):
        if tool in one.times:
            yield _mark(scale.place(one.times[tool]), y, index, tool in own)


def plot(measured, own, peers):
    """The whole picture; `own` and `peers` give the order of the legend."""
    tools = [*(tool for tool in OWN_SHOWN if tool in own), *peers]
    scale = Scale([one.times[tool] for one in measured for tool in tools if tool in one.times])
    height = TOP + STEP * len(measured) + 40
    parts = [
        f'<svg xmlns="http://www.w3.org/2000/svg" width="{WIDTH}" height="{height}" '
        'font-family="sans-serif" font-size="12">',
        f'<rect width="{WIDTH}" height="{height}" fill="white"/>',
        _text(12, 22, TITLE),
        *_legend(tools, own),
        *_axis(scale, height - 34),
    ]
    for index, one in enumerate(measured):
        parts += _plan(one, TOP + STEP * index + STEP / 2, tools, own, scale)
    return "\n".join([*parts, "</svg>", ""])
