"""Edits that the check must refuse: the files `edits/CRATE/NAME.edit`, what each changes, and in which functions.

An edit has a line `file: PATH` and pairs of lines `old: TEXT` and `new: TEXT`, made one after another (docs/TESTING.md). Each is one line,
so an edit changes lines of the crate's files, and adds and removes none."""
import os
import re

TOP = os.path.dirname(os.path.dirname(os.path.dirname(os.path.abspath(__file__))))
FUNCTION = re.compile(r"(\s*)(pub(?:\([^)]*\))? )?(?:const )?(?:unsafe )?fn (\w+)")
BLOCK = re.compile(r"(\s*)(?:unsafe )?(impl\b|(?:pub(?:\([^)]*\))? )?trait\b)(.*)")


class Fault(Exception):
    """Why an edit cannot be made."""


def read(path):
    with open(path, encoding="utf-8") as it:
        return it.read()


def crates(top=TOP):
    """What each crate of crates.txt uses: its own libraries, and not the toolchain's."""
    found = {}
    for line in read(f"{top}/crates.txt").splitlines():
        name, colon, uses = line.split("#")[0].partition(":")
        if colon:
            found[name.split()[0]] = uses.split()
    return {name: [it for it in uses if it in found] for name, uses in found.items()}


class Edit:
    def __init__(self, top, crate, name):
        self.crate, self.name, self.key = crate, name, f"{crate}/{name}"
        self.folder, self.path = f"{top}/crates/{crate}", f"{top}/edits/{crate}/{name}"
        self.text = read(self.path)

    def made(self):
        """The texts of the files that the edit changes, by their paths in the crate, before and after it."""
        path, old, before, after = "", "", {}, {}
        for line in self.text.split("\n"):
            if line.startswith("file: "):
                path = line[len("file: "):].strip()
            elif line.startswith("old: "):
                old = line[len("old: "):]
            elif line.startswith("new:"):
                if not old or not os.path.isfile(f"{self.folder}/{path}"):
                    raise Fault(f"a `new:` line is before any `old:` line, or there is no file {path}")
                if path not in before:
                    before[path] = after[path] = read(f"{self.folder}/{path}")
                if after[path].count(old) != 1:
                    raise Fault(f"an `old:` text is in {path} {after[path].count(old)} times, and not once")
                after[path], old = after[path].replace(old, line[len("new:"):].removeprefix(" ")), ""
        if before == after:
            raise Fault("it changes nothing")
        return before, after

    def changes(self):
        """The changed lines, by file and number from 0, and the functions that they are in, one of which is None for a line outside functions."""
        before, after = self.made()
        lines, places = {}, set()
        for path in before:
            were = before[path].split("\n")
            for number, (one, other) in enumerate(zip(were, after[path].split("\n"))):
                if one != other:
                    lines[path, number] = other
                    places.add(function_at(self.crate, path, were, number))
        return lines, places


def edits_of(crate, top=TOP):
    """The crate's edits, by their names."""
    folder = f"{top}/edits/{crate}"
    names = sorted(os.listdir(folder)) if os.path.isdir(folder) else []
    return [Edit(top, crate, name) for name in names if name.endswith(".edit")]


def function_at(crate, path, lines, number):
    """A pattern of the names that the check prints for the function around a line and for the closures in it, or None outside functions. `rt fmt` has laid
    the file out: a function is closed by a bracket below its first letter."""
    for at in range(number, -1, -1):
        head = FUNCTION.match(lines[at])
        if head:
            if not path.startswith("src/") or head[1] + "}" in lines[at + 1:number]:
                return None
            module = [] if path == "src/lib.rt" else path[len("src/"):-len(".rt")].split("/")
            owner, module = owner_of(lines, at, head[1]), "::".join([crate, *module])
            # A method goes by the module of its type.
            own, module = owner + head[3], rf"{crate}(::\w+)*" if owner else module
            return f"{module}::({own}|fn::{own}::.*)"
    return None


def owner_of(lines, at, indent):
    """A pattern of the type of a method, and of its trait with its parameters, as the check writes them: `Text::`, `TextClone::`, `ErrorFromAllocError::`."""
    if not indent:
        return ""
    for line in reversed(lines[:at]):
        block = BLOCK.match(line)
        if block and len(block[1]) < len(indent):
            if block[2] != "impl":
                return re.match(r"\w+", block[3].strip())[0] + "::"
            trait, of, type = without_parameters(block[3].strip()).rpartition(" for ")
            return last_word(type) + (rf"\w*{last_word(trait)}\w*::" if of else "::")
    return ""


def without_parameters(said):
    """The head of an impl block without the parameters that it begins with."""
    depth = 0
    for at, letter in enumerate(said):
        depth += (letter == "<") - (letter == ">" and said[at - 1] not in "-=")
        if not depth:
            return said[at + 1:].strip() if letter == ">" else said
    return said


def last_word(path):
    """The name of a type or trait without its path and its parameters."""
    return re.match(r"&?(?:\w+::)*(\w*)", path)[1]
