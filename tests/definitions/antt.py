"""Files of definitions and of theorems (.antt): what each defines, and what the words in it mean.

    Place          where a definition or a type stands
    Scope          what words mean in a file
    Definition     a definition, or a theorem without its proof
    Antt           a file: its definitions, and its scope
    Unreadable     something that is not understood, or not there
"""

import re
from itertools import takewhile
from typing import NamedTuple

WORD = re.compile(r"[^\s(){},;]+")
COMMENT = re.compile(r"(?<!\S)--.*")
USE = re.compile(r"use\s+([^\s{]+?)(?:\.\{(.*)\}|\s+as\s+(\S+))?", re.DOTALL)
MODULE = re.compile(r"Rattle\.(\w+)\.(specs|proofs)\.(.+)")
MODIFIERS = ("abbrev", "unfoldable", "pub")
NO_EQUATION = ("use", "mod", "infix", "infixl", "infixr", "unfolding")


class Unreadable(Exception):
    pass


class Place(NamedTuple):
    """`part` is specs, proofs or src; `file` is without its ending."""

    crate: str
    part: str
    file: str
    name: str

    def path(self):
        return f"{self.crate}/{self.part}/{self.file}"


class Definition(NamedTuple):
    """`text` has the parameters of the modules around, and of a theorem no proof."""

    text: str
    lines: int
    public: bool
    theorem: bool


# ---- names


def spoken(name):
    """The words that use a name: `◌▷◌` is used as `a ▷ b`."""
    return {name, *filter(None, name.split("◌")[:2])}


def used(line):
    """What a `use` line gives: local name, module, and the name there; none where the
    local name stands for the module."""
    found = USE.fullmatch(line)
    if not found:
        raise Unreadable(f"cannot read: {line}")
    module, names, alias = found.groups()
    if names is None:
        yield alias or module.rsplit(".", 1)[-1], module, None
        return
    for name in filter(None, (name.strip() for name in names.split(","))):
        there, _, here = name.partition(" as ")
        yield here or there, module, there


def place_of(module, name):
    """Where a name of a module stands; none for the modules of the kit."""
    if not module.startswith("Rattle."):
        return None
    found = MODULE.fullmatch(module)
    if not found:
        raise Unreadable(f"cannot read: the module {module}")
    crate, part, path = found.groups()
    parts = path.split(".")
    if parts[0] != "declared":
        return Place(crate, part, "/".join(parts), name)
    *files, declared = [part for part in parts[1:] if part != "TheVariants"]
    return Place(crate, "src", "/".join(files) or "lib", declared)


class Scope:
    """The file's own names come before those of its `use` lines. A variable that has the
    name of a definition counts as that definition: too much is reached, never too little."""

    def __init__(self):
        self.own, self.given, self.modules = {}, {}, {}

    def define(self, name, place):
        self.own.update(dict.fromkeys(spoken(name), place))

    def use(self, line):
        """Takes the names of a `use` line, and gives them with their places."""
        places = {}
        for here, module, there in used(line):
            if there is None:
                self.modules[here] = module
            else:
                places[here] = place_of(module, there)
                self.given.update(dict.fromkeys(spoken(here), places[here]))
        return places

    def place(self, word):
        """Where that which a word names stands; none for the kit's, and for variables."""
        head, _, rest = word.rstrip(".").partition(".")
        if rest and head in self.modules:
            module, (first, *deeper) = self.modules[head], rest.split(".")
            # a declared type stands in a module of its own: `stored.Compressed.Compressed`
            if deeper and ".declared" in module:
                module, first = f"{module}.{first}", deeper[0]
            return place_of(module, first)
        return self.own.get(head) or self.given.get(head)

    def places(self, text):
        return {self.place(word) for word in WORD.findall(text)} - {None}


# ---- files


def items(text):
    """The items of a file, each as the parameters of the modules around it and its lines."""
    bare = (COMMENT.sub("", line).rstrip() for line in text.splitlines())
    lines = [line for line in bare if line]
    indents = [len(line) - len(line.lstrip()) for line in lines]
    around, at = [], 0
    while at < len(lines):
        while around and around[-1][0] >= indents[at]:
            around.pop()
        end = at + 1
        if "module" in lines[at].split()[:2]:
            while not lines[end - 1].endswith(" where"):
                end += 1
            around.append((indents[at], " ".join(lines[at:end])))
        else:
            while end < len(lines) and indents[end] > indents[at]:
                end += 1
            yield [parameters for _, parameters in around], lines[at:end]
        at = end


def heading(line):
    """An item's modifiers, the word after them (record, data, a name, ..), and the name that
    it defines, if any."""
    every = line.split()
    modifiers = list(takewhile(MODIFIERS.__contains__, every))
    first, *rest = every[len(modifiers):]
    if first in ("record", "data"):
        return modifiers, first, rest[0]
    return modifiers, first, first if rest[:1] == [":"] else None


def constructors(lines):
    """The names before the colons of a data type's lines."""
    return [line.split()[0] for line in lines[1:] if line.split()[1:2] == [":"]]


class Antt:
    """`names` are the names that the file defines, each with its definition's (a constructor
    belongs to its type); `passed_on` are those that it uses and gives to others."""

    def __init__(self, crate, part, file, text):
        self.scope, self.definitions, self.names, self.passed_on = Scope(), {}, {}, {}
        self.place = Place(crate, part, file, None)
        for around, lines in items(text):
            modifiers, first, name = heading(lines[0])
            if name is not None:
                theorem = part == "proofs" and name == first and modifiers in ([], ["pub"])
                text = "\n".join(around + lines)
                self.add(name, Definition(text, len(lines), "pub" in modifiers, theorem))
                for constructor in constructors(lines) if first == "data" else ():
                    self.names[constructor] = name
            elif first == "use":
                places = self.scope.use(" ".join(" ".join(lines).split()[len(modifiers):]))
                self.passed_on.update(places if "pub" in modifiers else {})
            elif first not in NO_EQUATION:
                self.continue_last(lines)
        for name, definition in self.names.items():
            self.scope.define(name, self.place._replace(name=definition))

    def add(self, name, definition):
        if name in self.definitions:
            raise Unreadable(f"{self.place.path()} defines {name} twice")
        self.definitions[name] = definition
        self.names[name] = name

    def continue_last(self, lines):
        """Equations belong to the definition before them; those of a theorem are its proof."""
        if not self.definitions:
            raise Unreadable(f"{self.place.path()}: cannot read: {lines[0]}")
        name, before = list(self.definitions.items())[-1]
        if not before.theorem:
            text = "\n".join([before.text, *lines])
            self.definitions[name] = before._replace(text=text, lines=before.lines + len(lines))
