"""Answers of functions made shorter: a function whose goals `grind` proves names the lemmas in an attribute, and needs no file of answers."""
import os
import re

from wrong_bodies.edits import FUNCTION, read
from shorter_proofs.laboratory import put
from shorter_proofs.place import Citations, cleaned, placed
from shorter_proofs.tactics import cited, is_plain
from shorter_proofs.texts import LemmaFile
from shorter_proofs.trials import Attempt, tried
from shorter_proofs.whole import names_for, with_short_lists

# How many lemmas an attribute names, with the definitions that it opens.
NAMED = 4
# `rt fmt` breaks a longer line.
WIDTH = 100
# What the check says of a goal that lacks its answer.
OPEN_GOAL = re.compile(r"of (proofs/\S+/Answers\.antt) must prove")


def answer_files(top, folder):
    return [LemmaFile(top, f"{at}/Answers.antt") for at, _, names in sorted(os.walk(f"{folder}/proofs")) if "Answers.antt" in names]


def is_answer(lemma):
    return lemma.is_public and len(lemma.clauses) == 1 and bool(lemma.halves) and is_plain(lemma.halves[0][0])


def attempts_for(file, answer):
    """An answer by one call: `grind`, and if it has several lines, the other forms."""
    head, body = answer.halves[0]
    found = cited(body, names_for(file, answer), answer.name, head)
    kinds = "gsBc" if answer.length > 1 else "g"
    return [Attempt(file, answer, [[f"{head} = ", it]]) for it in found.calls(kinds, "rules")]


def served(laboratory, files, tell):
    """The calls that prove answers, by file and answer, `grind` first; with short lists."""
    attempts = [it for file in files for answer in file.lemmas if is_answer(answer) for it in attempts_for(file, answer)]
    found = {}
    for attempt, wrong in zip(attempts, tried(laboratory, attempts, tell)):
        if wrong == set():
            found.setdefault((attempt.file.path, attempt.lemma.name), attempt)
    count = sum(is_answer(it) for file in files for it in file.lemmas)
    tell(f"{len(attempts)} proofs of {count} answers tried; tactics prove {len(found)}")
    short = with_short_lists(laboratory, list(found.values()), tell)
    return {(it.file.path, it.lemma.name): it for it in short}


class Function:
    """A function with a file of answers, and the attribute that could stand for these."""

    def __init__(self, folder, file):
        self.folder, self.file = folder, file
        steps = os.path.relpath(file.path, f"{folder}/proofs").split("/")[:-1]
        self.source, self.name = source_of(folder, steps[:-1]), steps[-1]
        self.lines = read(self.source).split("\n") if self.source else []
        places = [at for at, it in enumerate(self.lines) if (found := FUNCTION.match(it)) and found[3] == self.name]
        # Of several functions of one name in a file none is taken.
        self.line = places[0] if len(places) == 1 else None

    def has_tactic(self):
        at = self.line
        while at and self.lines[at - 1].strip().startswith(("#[", "//", ")]")):
            at -= 1
        return any("tactic(" in it for it in self.lines[at : self.line])

    def attribute(self, proofs):
        """The attribute in place of these answers; None if there can be none, and an empty text if none is needed."""
        public = [it for it in self.file.lemmas if it.is_public]
        own = [proofs.get((self.file.path, it.name)) for it in public]
        if self.line is None or self.has_tactic() or None in own or any(it.calls()[0][2].tactic != "grind" for it in own):
            return None
        lemmas = self.paths(name for it in own for name in it.calls()[0][2].listed)
        opened = self.paths(name for it in public for line in it.unfolding for name in line.split()[1:])
        if None in lemmas + opened or len(lemmas + opened) > NAMED:
            return None
        parts = [f"{word}({', '.join(its)})" for word, its in (("using", lemmas), ("unfolding", opened)) if its]
        indent = FUNCTION.match(self.lines[self.line])[1]
        line = f"{indent}#[tactic(auto, {', '.join(parts)})]"
        return "" if not parts else line if len(line) <= WIDTH else None

    def paths(self, names):
        """The paths of names in an attribute; None for what is no lemma or definition of a file, or has an argument."""
        return [self.path(it) for it in dict.fromkeys(names)]

    def path(self, name):
        module, was = self.file.modules.get(name, ("", name))
        steps = [*module.split(".")[1:], was]
        if not module.startswith("Rattle.") or was != name or not all(re.fullmatch(r"[A-Za-z]\w*", it, re.A) for it in steps):
            return None
        return "::".join(["crate" if steps[0] == os.path.basename(self.folder) else steps[0], *steps[1:]])


def source_of(folder, steps):
    """The source file of a module; what follows it is a type's name."""
    for count in range(len(steps), 0, -1):
        for path in (f"{folder}/src/{'/'.join(steps[:count])}.rt", f"{folder}/src/{'/'.join(steps[:count])}/mod.rt"):
            if os.path.isfile(path):
                return path
    return None if steps and steps[0][0].islower() else f"{folder}/src/lib.rt"


def with_attributes(found):
    """The sources with the attributes of these functions, and without their answers."""
    texts = {it.file.path: None for it, _ in found}
    for source in {it.source for it, _ in found}:
        lines = read(source).split("\n")
        mine = [(it, line) for it, line in found if it.source == source and line]
        for it, line in sorted(mine, key=lambda pair: -pair[0].line):
            lines.insert(it.line, line)
        texts[source] = "\n".join(lines)
    return texts


def without_files(laboratory, folder, files, proofs, tell):
    """The functions that need no answers, each with its attribute."""
    functions = [Function(folder, it) for it in files]
    left = [(it, line) for it in functions if (line := it.attribute(proofs)) is not None]
    for _ in range(4):
        if not left:
            break
        with laboratory.with_texts(with_attributes(left)):
            status, said = laboratory.check()
        tell(f"{len(left)} functions without answers tried: status {status}")
        if not status:
            return left
        lacking = {f"{folder}/{it}" for it in OPEN_GOAL.findall(said)}
        still = [it for it in left if it[0].file.path not in lacking]
        left = still if len(still) < len(left) else []
    return []


def shorten(laboratory, top, folder, tell):
    """Writes the shorter answers; returns whether there are any."""
    files = answer_files(top, folder)
    proofs = served(laboratory, files, tell)
    bare = without_files(laboratory, folder, files, proofs, tell)
    gone = {it.file.path for it, _ in bare}
    chosen = [it for it in proofs.values() if it.saved > 0 and it.file.path not in gone]
    texts = placed(laboratory, files, chosen, tell) if chosen else None
    texts = cleaned(laboratory, files, texts, Citations(top), tell) if texts else {}
    texts |= with_attributes(bare)
    for path, text in texts.items():
        if text is None:
            os.remove(path)
        else:
            put(path, text)
    return bool(texts)
