"""The list as a page has it, between two marks: a line a crate, then the files that are left.

    part           what stands between the marks
    rewritten      the page with that part
    differences    where a page says something else
"""

import re
import textwrap

from antt import Unreadable

BEGIN, END = "<!-- definitions: begin -->\n", "<!-- definitions: end -->\n"
HEAD = (
    "| Crate | Files of `specs` (definitions reached) | Types declared in `src` |\n"
    "|---|---|---|\n"
)
ROW = re.compile(r"\| `(\w+)` \| (.*) \| (.*) \|")
FILE = re.compile(r"`([\w/]+)` \((\d+)\)")
TYPE = re.compile(r"`([\w:]+)`")
WIDTH = 140


def part(listing):
    rows = []
    for crate in listing.crates():
        reached = listing.files(crate).items()
        files = ", ".join(f"`{file}` ({len(names)})" for file, names in reached)
        types = ", ".join(f"`{type_path(place)}`" for place in listing.types(crate))
        rows.append(f"| `{crate}` | {files} | {types} |\n")
    unread = ", ".join(f"`{crate}/specs/{joined(files)}`" for crate, files in listing.unread())
    left = textwrap.fill(f"Need not be read: {unread or 'none'}.", WIDTH, break_on_hyphens=False)
    return f"{HEAD}{''.join(rows)}\n{left}\n"


def type_path(place):
    """A type as programs name it inside its crate."""
    return place.name if place.file == "lib" else f"{place.file.replace('/', '::')}::{place.name}"


def joined(files):
    return files[0] if len(files) == 1 else f"{{{','.join(files)}}}"


def around(page):
    """What stands before, between and after the marks."""
    before, begin, rest = page.partition(BEGIN)
    between, end, after = rest.partition(END)
    if not begin or not end:
        raise Unreadable(f"the page has no part between {BEGIN.strip()} and {END.strip()}")
    return before + begin, between, end + after


def rewritten(page, listing):
    before, _, after = around(page)
    return before + part(listing) + after


def entries(text):
    """What the rows of a part list: files and types, each with the number beside it."""
    found = {}
    for crate, files, types in ROW.findall(text):
        found.update((f"{crate}/specs/{file}", number) for file, number in FILE.findall(files))
        found.update((f"the type {name} of {crate}/src", "") for name in TYPE.findall(types))
    return found


def differences(page, listing):
    _, found, _ = around(page)
    wanted = part(listing)
    has, needs = entries(found), entries(wanted)
    for name in needs:
        if name not in has:
            yield f"left out: {name}"
        elif has[name] != needs[name]:
            yield f"{name}: {needs[name]} definitions are reached, not {has[name]}"
    for name in has:
        if name not in needs:
            yield f"listed and not reached: {name}"
    if has == needs and found != wanted:
        yield "the rest between the marks is not as it is written: write it again"
