"""What crates.txt says: which crates there are, and which uses which."""
import os
import re

from felix_tools.program import PROGRAMS, TOP

LISTED = re.compile(r"^(\w+)(?: \w+)?:(.*)$", re.MULTILINE)


class Crates:
    """The crates of the repository by their names, each with those of the repository that it uses."""

    def __init__(self, text):
        listed = {name: rest.split() for name, rest in LISTED.findall(text)}
        self.uses = {name: [low for low in lows if low in listed] for name, lows in listed.items()}
        self.kept = {}

    def below(self, name):
        """All crates that this one is made from, but for itself."""
        if name not in self.kept:
            lows = self.uses[name]
            self.kept[name] = set(lows).union(*(self.below(low) for low in lows))
        return self.kept[name]

    def nearest(self, name):
        """Those that it uses and that no other one of these is made from."""
        lows = self.uses[name]
        return [low for low in lows if not any(low in self.below(other) for other in lows)]

    def height(self, name):
        return 1 + max([self.height(low) for low in self.uses[name]], default=-1)

    def of_program(self, main):
        return self.below(main) | {main}

    def of_programs(self):
        """Each crate of a program, with the programs that are made from it."""
        found = {}
        for program in PROGRAMS:
            for name in self.of_program(program.crate):
                found.setdefault(name, []).append(program.name)
        return found


def read_crates(top=TOP):
    with open(os.path.join(top, "crates.txt"), encoding="utf-8") as file:
        return Crates(file.read())
