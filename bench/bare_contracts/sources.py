"""A library with bare contracts: its sources with each function that other crates can call, its contract, and a body that never returns.

Such a library is proved at once. The crates above it load its statements, and can't tell it from the real one: only the contract of a function
is known to its callers. Private functions, tests, `#[tactic]` and comments are left out, and so are proofs, but for the lemmas that a
source, a definition or another crate imports. `rt fmt` has laid the files out."""
import os
import re

from wrong_bodies.edits import BLOCK, FUNCTION, read, without_parameters

OWN_USE = re.compile(r"(\s*)((?:pub(?:\([^)]*\))? )?use (?:crate|super|self)::)(.*)")
LEMMA_USE = re.compile(r"use Rattle\.(\w+)\.proofs\.([\w.]+?)\.?(?:\{|$|;|\s)", re.M)
# The only function that is trusted. A crate with it is never part of a verdict: it is built to check other crates.
NEVER = '//! Never returns.\nunsafe extern "C" {\n    pub(crate) fn never_returns() -> u8\n        ensures { ⊥ };\n}\n'
BODY = "{ unsafe { crate::never::never_returns() }; unreachable!() }"


def files_in(folder):
    """The paths of the files in a folder and below it, in order."""
    return sorted(os.path.join(at, file) for at, _, files in os.walk(folder) for file in files)


def depth_of(line):
    """How many brackets more a line opens than it closes; those in texts, letters and comments don't count."""
    line = re.sub(r"b?'(\\.[^']*|[^'\\])'", "' '", line)
    line = re.sub(r"//.*", "", re.sub(r'"(\\.|[^"\\])*"', '""', line))
    return sum(line.count(it) for it in "({[") - sum(line.count(it) for it in ")}]")


class Source:
    """A source file that is being cut."""

    def __init__(self, text):
        self.lines = [it for it in text.split("\n") if not it.lstrip().startswith("//")]
        self.at, self.kept = 0, []
        # The indent and the kind of the impl or trait around a line.
        self.block = None
        # The functions outside impls, by what becomes of them.
        self.dropped, self.seen = set(), set()

    def cut(self):
        while self.at < len(self.lines):
            self.take_item()
        return self.kept

    def attributes(self):
        """Takes the attributes of an item; returns those that stay, and whether the item is a test."""
        found, is_test = [], False
        while self.lines[self.at].lstrip().startswith("#["):
            first, group = self.lines[self.at].strip(), self.take_balanced()
            is_test = is_test or bool(re.match(r"#\[(test\b|cfg\(test\))", first))
            found += [] if re.match(r"#\[(tactic|inline|cold)\b", first) else group
        return found, is_test

    def take_balanced(self):
        """Takes lines until all brackets are closed."""
        group, depth = [], 0
        while not group or depth:
            group.append(self.lines[self.at])
            depth += depth_of(self.lines[self.at])
            self.at += 1
        return group

    def take_whole(self):
        """Takes an item up to its `;` or `}`."""
        group, depth = [], 0
        while self.at < len(self.lines):
            line = self.lines[self.at]
            depth += depth_of(line)
            self.at += 1
            group.append(line)
            if not depth and line.rstrip().endswith((";", "}")):
                break
        return group

    def take_item(self):
        attributes, is_test = self.attributes()
        line = self.lines[self.at]
        if is_test:
            self.take_whole()
        elif self.block and line == self.block[0] + "}":
            self.block = None
            self.kept.append(line)
            self.at += 1
        elif self.is_function(line):
            self.take_function(attributes)
        elif BLOCK.match(line) and not self.block:
            self.take_head(attributes)
        elif not line.strip() or line.strip().startswith("}"):
            self.kept += [*attributes, line]
            self.at += 1
        else:
            self.kept += [*attributes, *self.take_whole()]

    def is_function(self, line):
        found = FUNCTION.match(line)
        return found and (not self.block or len(found[1]) == len(self.block[0]) + 4)

    def take_head(self, attributes):
        """Takes the head of an impl or trait, and notes its kind."""
        group, depth = [], 0
        while not (group and (depth == 1 and group[-1].rstrip().endswith("{") or not depth and group[-1].rstrip().endswith((";", "}")))):
            group.append(self.lines[self.at])
            depth += depth_of(self.lines[self.at])
            self.at += 1
        self.kept += [*attributes, *group]
        found = BLOCK.match(" ".join(it.strip() for it in group))
        of_trait = "trait" in found[2] or re.search(r"\bfor\b", without_parameters(found[3].strip()).split(" where ")[0])
        if depth:
            self.block = BLOCK.match(group[0])[1], bool(of_trait)

    def take_function(self, attributes):
        """Takes a function; one that other crates can call stays, with a body that never returns."""
        indent, visible, name = FUNCTION.match(self.lines[self.at]).groups()
        head, depth, body = [], 0, None
        while body is None:
            line = self.lines[self.at]
            self.at += 1
            depth += depth_of(line)
            body = body_at(line, indent, depth, not head)
            head.append(line)
        if body == "{":
            self.at = self.lines.index(indent + "}", self.at) + 1
        is_seen = self.block and self.block[1] or visible == "pub "
        if not self.block:
            (self.seen if is_seen else self.dropped).add(name)
        if is_seen:
            if body != ";":
                head[-1] = re.sub(r"\{[^{]*\}?$", "", head[-1].rstrip()) + BODY
            self.kept += [*attributes, *head]


def body_at(line, indent, depth, is_first):
    """How a function's body begins at the end of this line: `{` if it goes on, `{}` if it ends there, `;` if there is none, None if its head goes on."""
    if line in (indent + "{", indent + "{}"):
        return line.strip()
    if (is_first or line.startswith(indent + ")")) and line.endswith("{") and depth == 1:
        return "{"
    if is_first and not depth and line.endswith("}"):
        return "{}"
    return ";" if not depth and line.endswith(";") else None


def without_names(lines, gone):
    """The lines without these names in the imports of the own crate."""
    kept, at = [], 0
    while at < len(lines):
        whole = lines[at]
        while OWN_USE.match(whole) and not whole.rstrip().endswith(";"):
            at += 1
            whole += " " + lines[at].strip()
        at += 1
        found = OWN_USE.match(whole)
        if not found:
            kept.append(whole)
            continue
        path, brace, names = found[3].rstrip(" ;").partition("{")
        if not brace:
            kept += [] if re.split("::| as ", path)[-1] in gone else [whole]
            continue
        left = [it.strip() for it in names.rstrip("} ").split(",") if it.strip() and it.split(" as ")[0].strip() not in gone]
        kept += [f"{found[1]}{found[2]}{path}{{{', '.join(left)}}};"] if left else []
    return kept


def with_module(lines):
    """The root's lines with the module of the body that never returns, after the attributes that it begins with."""
    at, depth = 0, 0
    for number, line in enumerate(lines):
        depth += depth_of(line)
        if line.startswith("#!["):
            at = number + 1
        if depth and at == number:
            at += 1
    return [*lines[:at], "", "mod never;", *lines[at:]]


class Lemmas:
    """Which files of lemmas the bare libraries have: those that sources, definitions or other crates import, and what these import."""

    def __init__(self, top, crates):
        self.top, self.crates, self.needed = top, crates, set()
        for crate in crates:
            for part in ("src", "specs", "proofs"):
                for path in files_in(f"{top}/crates/{crate}/{part}"):
                    self.add_all(path, "" if part != "proofs" else crate)

    def add_all(self, path, own):
        """Adds the lemmas that a file imports, but those of the crate `own`."""
        for crate, steps in LEMMA_USE.findall(read(path)):
            if crate in self.crates and crate != own:
                self.add(crate, steps.split("."))

    def add(self, crate, steps):
        while steps and not os.path.isfile(f"{self.top}/crates/{crate}/proofs/{'/'.join(steps)}.antt"):
            steps = steps[:-1]
        file = "/".join(steps)
        if steps and (crate, file) not in self.needed:
            self.needed.add((crate, file))
            self.add_all(f"{self.top}/crates/{crate}/proofs/{file}.antt", "")

    def texts(self, crate):
        """The texts of a crate's lemmas, and of the list of their modules."""
        files = sorted(file for it, file in self.needed if it == crate)
        found = {f"proofs/{it}.antt": read(f"{self.top}/crates/{crate}/proofs/{it}.antt") for it in files}
        if files:
            modules = {it.split("/")[0] for it in files}
            lines = read(f"{self.top}/crates/{crate}/proofs/Lib.antt").split("\n")
            found["proofs/Lib.antt"] = "".join(f"{it}\n" for it in lines if it.split()[-1:] and it.split()[-1] in modules)
        return found


def bare_texts(top, crate, lemmas):
    """The texts of a library with bare contracts, by their paths in it. Files that are no sources have their bytes."""
    folder, sources = f"{top}/crates/{crate}", {}
    texts = {os.path.relpath(it, folder): read(it) for it in files_in(f"{folder}/specs")}
    for path in files_in(f"{folder}/src"):
        if path.endswith(".rt"):
            sources[os.path.relpath(path, folder)] = Source(read(path))
        else:
            texts[os.path.relpath(path, folder)] = read(path)
    cut = {path: it.cut() for path, it in sources.items()}
    gone = {name for it in sources.values() for name in it.dropped} - {name for it in sources.values() for name in it.seen}
    for path, lines in cut.items():
        lines = without_names(lines, gone)
        texts[path] = "\n".join(with_module(lines) if path == "src/lib.rt" else lines)
    return {**texts, "src/never.rt": NEVER, **lemmas.texts(crate)}
