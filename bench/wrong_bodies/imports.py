"""Imports of specifications and lemmas: `use M.{a, b as c}` in specs and proofs, and `ghost use M.{a};` in sources.

A crate's preludes, specs/Prelude.antt and proofs/Prelude.antt, pass on names of the crates below, the second those of the crate's own
definitions too, so that its files import them by one line. Here each name is known by the module that it comes from."""
import os
import re

IMPORT = re.compile(r"^(ghost |)use ([^{};\s]+?)\.\{(.*)\};?$")
PASSED_ON = re.compile(r"^(unfoldable |)pub use ([^{};\s]+?)\.\{(.*)\}$")


def read(path):
    with open(path, encoding="utf-8") as it:
        return it.read()


def items(text):
    """What a group in braces names, and under which names: pairs."""
    pairs = (it.strip().partition(" as ") for it in text.split(","))
    return [(was.strip(), (now or was).strip()) for was, _, now in pairs if was]


def group(pairs):
    return ", ".join(was if was == now else f"{was} as {now}" for was, now in pairs)


class Preludes:
    """What the preludes of a checkout pass on."""

    def __init__(self, top):
        self.top, self.known = top, {}

    def names(self, module):
        """The names that a prelude passes on, each with its module; of a module that is no prelude nothing."""
        if module not in self.known:
            self.known[module] = {}
            steps = module.split(".")
            path = f"{self.top}/crates/{'/'.join(steps[1:])}.antt"
            if steps[0] == "Rattle" and steps[-1] == "Prelude" and len(steps) == 4 and os.path.isfile(path):
                for found in filter(None, map(PASSED_ON.match, read(path).split("\n"))):
                    for name, _ in items(found[3]):
                        self.known[module][name] = self.home(found[2], name)
        return self.known[module]

    def home(self, module, name):
        """The module that a name comes from, which is imported from a module."""
        return self.names(module).get(name, module)

    def imported(self, line):
        """What a line imports, a module and a pair each, after what stands before `use`; None if the line is no import with a group."""
        found = IMPORT.match(line)
        return found and (found[1], [(self.home(found[2], pair[0]), pair) for pair in items(found[3])])

    def canonical(self, lines):
        """The lines of a file, its imports first and by what they bring: in order, and each from the module that it comes from."""
        brought, rest = {}, []
        for line in lines:
            found = self.imported(line)
            if found is None:
                rest.append(line)
                continue
            for module, pair in found[1]:
                brought.setdefault((found[0], module), set()).add(pair)
        first = [f"{before}use {module}.{{{group(sorted(pairs))}}}{';' if before else ''}" for (before, module), pairs in sorted(brought.items())]
        return first + rest


def is_prelude(path):
    """Whether a path in a crate's folder is that of a prelude."""
    return path in ("specs/Prelude.antt", "proofs/Prelude.antt")
