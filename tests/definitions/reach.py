"""Which definitions the public contracts and the theorems reach.

    Tree       the crates below a folder, each file read when it is needed
    reach      every place that is reached, each with the places that cite it
"""

import re

from antt import Antt, Place, Unreadable
from rattle import Source

LIBRARY = "plq"
EXPORTS = "plq_c"
PROGRAMS = ("report", "ask")
PROGRAM_CALLS = (
    ("report_lib", "report"),
    ("ask_lib", "ask"),
    ("ask_words", "words"),
    ("ask_settings", "begin"),
    ("ask_settings", "setting_line"),
)
THEOREMS = "theorems"
ALWAYS = {"std"}
TYPE_NAME = re.compile(r"(?:\w+::)*[A-Z]\w*[a-z]\w*")


class Tree:
    def __init__(self, root):
        self.root, self.read = root, {}
        self.crates, below = [], set()
        for line in (root / "crates.txt").read_text(encoding="utf-8").splitlines():
            if line and not line.startswith("#"):
                crate, _, others = line.partition(":")
                self.crates.append(crate.split()[0])
                below.update(others.split())
        self.kit = (below | ALWAYS).difference(self.crates)

    # ---- files

    def files(self, crate, part):
        folder = self.root / "crates" / crate / part
        paths = sorted(folder.rglob("*.rt" if part == "src" else "*.antt"))
        return [path.relative_to(folder).with_suffix("").as_posix() for path in paths]

    def file(self, crate, part, file):
        if (crate, part, file) not in self.read:
            kind, ending = (Source, ".rt") if part == "src" else (Antt, ".antt")
            path = self.root / "crates" / crate / part / (file + ending)
            if not path.is_file():
                raise Unreadable(f"crates/{crate}/{part}/{file}{ending} is not there")
            self.read[crate, part, file] = kind(crate, part, file, path.read_text(encoding="utf-8"))
        return self.read[crate, part, file]

    def at(self, place):
        return self.file(*place[:3])

    # ---- names

    def is_kit(self, crate):
        if crate not in self.kit and crate not in self.crates:
            raise Unreadable(f"crates.txt has no crate {crate}")
        return crate in self.kit

    def settled(self, place):
        """The place of the definition or the type that a name belongs to; none for the kit's."""
        if place is None or self.is_kit(place.crate):
            return None
        if place.part == "src":
            return self.declared(place, "types")
        file = self.at(place)
        if place.name in file.names:
            return place._replace(name=file.names[place.name])
        if place.name in file.passed_on:
            return self.settled(file.passed_on[place.name])
        raise Unreadable(f"{place.path()} has no definition {place.name}")

    def led_to(self, source, parts):
        """Where a path of a source leads."""
        crate, *modules, name = parts if len(parts) > 1 else ["crate", *parts]
        if crate == "crate":
            crate = source.crate
        elif crate in self.files(source.crate, "src"):
            crate, modules = source.crate, [crate, *modules]
        return Place(crate, "src", "/".join(modules) or "lib", name)

    def declared(self, place, kind):
        """The place where a function or a type is declared, which a source may pass on."""
        source = self.at(place)
        if place.name in getattr(source, kind):
            return place
        if place.name in source.passed_on:
            return self.declared(self.led_to(source, source.passed_on[place.name]), kind)
        raise Unreadable(f"{place.path()}.rt has no {place.name} among its {kind}")

    # ---- what is cited

    def named_in(self, file, text):
        """What a text of definitions, theorems or contracts names."""
        return {self.settled(place) for place in file.scope.places(text)} - {None}

    def types_in(self, source, text):
        """The types that a text of a source names."""
        places = set()
        for name in TYPE_NAME.findall(text):
            head, *rest = name.split("::")
            if name in source.types:
                places.add(Place(source.crate, "src", source.file, name))
            elif head in source.paths or rest:
                places.add(self.settled(self.led_to(source, source.paths.get(head, [head]) + rest)))
        return places - {None}

    def cited_by_call(self, place):
        source, places = self.at(place), set()
        for function in source.functions[place.name]:
            places |= self.named_in(source, function.contract)
            places |= self.types_in(source, function.signature + function.contract)
        return places

    def cited_by(self, place):
        file = self.at(place)
        if place.part == "src":
            return self.types_in(file, file.types[place.name])
        return self.named_in(file, file.definitions[place.name].text)

    # ---- where to begin

    def public_calls(self):
        """What the library has itself and passes on, what is exported to C, the programs'
        calls, and the programs."""
        for crate in (LIBRARY, EXPORTS):
            for file in self.files(crate, "src"):
                source = self.file(crate, "src", file)
                for name, functions in source.functions.items():
                    if functions[0].public:
                        yield Place(crate, "src", file, name)
                for parts in source.passed_on.values():
                    yield self.declared(self.led_to(source, parts), "functions")
        for crate, name in PROGRAM_CALLS:
            yield self.declared(Place(crate, "src", "lib", name), "functions")
        for crate in PROGRAMS:
            for file in self.files(crate, "src"):
                for name in self.file(crate, "src", file).functions:
                    yield Place(crate, "src", file, name)

    def statements(self):
        """The public theorems, and the definitions beside them."""
        for file in self.files(THEOREMS, "proofs"):
            for name, definition in self.file(THEOREMS, "proofs", file).definitions.items():
                if definition.public or not definition.theorem:
                    yield Place(THEOREMS, "proofs", file, name)


def reach(tree):
    todo = [(place, tree.cited_by_call(place)) for place in tree.public_calls()]
    todo += [(place, tree.cited_by(place)) for place in tree.statements()]
    reached = {}
    while todo:
        by, places = todo.pop()
        for place in places - {by}:
            if place not in reached:
                reached[place] = set()
                todo.append((place, tree.cited_by(place)))
            reached[place].add(by)
    return reached
