"""What the programs that time print, as numbers.

    output        what a command prints
    tool_time     what one program times within one process: factoring, the
                  whole report, or the words from slot values
    call_times    the C calls that make and check a certificate
    stored_times  the calls on a stored plan, without reading
    ROOM          the entries that are lent to each of L and U where nothing else is said
"""

import subprocess

ROOM = 16_384


def output(command, file=None):
    """What a command prints, with a file on its standard input."""
    with open(file or "/dev/null", "rb") as source:
        done = subprocess.run(
            list(map(str, command)), stdin=source, stdout=subprocess.PIPE, check=True
        )
    return done.stdout.decode()


def tool_time(tool, program, runs, file):
    """The rank and the seconds, by a tool's program on a plan text."""
    rank, seconds = output([program, runs, file]).split()
    return {tool: (int(rank), float(seconds))}


def call_times(program, runs, file):
    """The rank and the seconds of each, by `calls` on a plan text."""
    rank, *seconds = output([program, runs, file]).split()
    tools = ("make", "check", "reading")
    return {tool: (int(rank), float(time)) for tool, time in zip(tools, seconds)}


def stored_times(program, runs, file, room=ROOM):
    """The rank and the seconds of factoring, of the check of its factors, and of
    the open words, by `stored` on a plan text whose triples rise."""
    rank, factor, check, both = output([program, runs, room, file]).split()
    opened = max(float(both) - float(check), 0.0)
    times = {"factor": float(factor), "check set": float(check), "open words": opened}
    return {tool: (int(rank), seconds) for tool, seconds in times.items()}
