"""What is reached, in the order in which it is shown: layer by layer, file by file."""

from reach import THEOREMS, reach


class Listing:
    def __init__(self, tree):
        self.tree = tree
        self.reached = reach(tree)

    def crates(self):
        """Those with definitions or types that are reached."""
        shown = {place.crate for place in self.reached if place.part != "proofs"}
        return [crate for crate in self.tree.crates if crate in shown]

    def files(self, crate):
        """A crate's files of definitions, each with the definitions that are reached."""
        chosen = {}
        for file in self.tree.files(crate, "specs"):
            names = self.tree.file(crate, "specs", file).definitions
            chosen[file] = [name for name in names if (crate, "specs", file, name) in self.reached]
        return {file: names for file, names in chosen.items() if names}

    def types(self, crate):
        """The places of a crate's types."""
        return sorted(place for place in self.reached if place[:2] == (crate, "src"))

    def unread(self):
        """The files of definitions of which nothing is reached, by crate."""
        for crate in self.tree.crates:
            reached = self.files(crate)
            files = [file for file in self.tree.files(crate, "specs") if file not in reached]
            files = [file for file in files if self.tree.file(crate, "specs", file).definitions]
            if files:
                yield crate, files

    def misplaced(self):
        """What stands among proofs, with the places that cite it. The theorems may have
        definitions beside them; a theorem is not for others to speak of."""
        found = []
        for place in sorted(place for place in self.reached if place.part == "proofs"):
            definition = self.tree.at(place).definitions[place.name]
            if place.crate != THEOREMS or definition.theorem:
                found.append((place, sorted(self.reached[place])))
        return found

    def summary(self):
        read = [place for place in self.reached if place.part == "specs"]
        lines = sum(self.tree.at(place).definitions[place.name].lines for place in read)
        types = sum(place.part == "src" for place in self.reached)
        return (
            f"{len({place[:3] for place in read})} files, {len(read)} definitions, {lines} lines; "
            f"{types} types; {len(self.misplaced())} among proofs"
        )
