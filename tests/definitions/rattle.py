"""Rattle sources (.rt): what a caller sees of functions, and types.

    Source         a file: functions, types, what it passes on, and what the words of contracts mean
    Function       the types that a function takes and gives, and its contract
"""

import re
from typing import NamedTuple

from antt import Scope, Unreadable

COMMENT = re.compile(r"//.*")
GHOST = re.compile(r"^ghost (use [^;]*);", re.MULTILINE)
USE = re.compile(r"^(pub )?use ([^;]*);", re.MULTILINE)
PATH = re.compile(r"(\w+(?:::\w+)*)(?: as (\w+))?")
GROUP = re.compile(r"(\w+(?:::\w+)*)::\{([^{}]*)\}")
TYPE = re.compile(r"^(?:pub )?(?:struct|enum) (\w+)[^{;]*\{", re.MULTILINE)
FUNCTION = re.compile(r'^ *(pub )?(?:extern "C" )?fn (\w+)', re.MULTILINE)
CONTRACT = re.compile(r"\{|\b(?:requires|ensures)\b")
CLAUSE = re.compile(r"\s*(?:requires|ensures)\b[^{]*\{")


class Function(NamedTuple):
    signature: str
    contract: str
    public: bool


def paths(path):
    """The paths of a `use` line, of which one may end in several names: `a::{b, c as d}`."""
    group = GROUP.fullmatch(" ".join(path.split()))
    if group:
        return [f"{group[1]}::{name.strip()}" for name in group[2].split(",") if name.strip()]
    return [path]


def closing(text, at):
    """The place of the brace that closes the one before a place."""
    depth = 1
    while depth:
        depth += {"{": 1, "}": -1}.get(text[at], 0)
        at += 1
    return at - 1


def function(text, found):
    """The function whose name was found."""
    at = CONTRACT.search(text, found.end()).start()
    signature, clauses = text[found.end():at], []
    while clause := CLAUSE.match(text, at):
        at = closing(text, clause.end()) + 1
        clauses.append(text[clause.end():at - 1])
    return Function(signature, " ".join(clauses), found[1] is not None)


class Source:
    """A name may be that of several functions: methods of different types."""

    def __init__(self, crate, part, file, text):
        self.crate, self.file = crate, file
        self.scope, self.functions, self.types = Scope(), {}, {}
        self.paths, self.passed_on = {}, {}
        text = COMMENT.sub("", text)
        for line in GHOST.findall(text):
            self.scope.use(line)
        for found in FUNCTION.finditer(text):
            self.functions.setdefault(found[2], []).append(function(text, found))
        for found in TYPE.finditer(text):
            self.types[found[1]] = text[found.end():closing(text, found.end())]
        for public, every in USE.findall(text):
            for path in paths(every):
                self.use(path, public)

    def use(self, path, public):
        found = PATH.fullmatch(path)
        if not found:
            raise Unreadable(f"{self.crate}/src/{self.file}.rt: cannot read: use {path}")
        parts = found[1].split("::")
        self.paths[found[2] or parts[-1]] = parts
        if public:
            self.passed_on[found[2] or parts[-1]] = parts
