"""Trials: copies of lemmas beside the originals, with other proofs, all of a crate in one check."""
import dataclasses

from shorter_proofs.laboratory import UNREAD
from shorter_proofs.tactics import STEPS, Call
from shorter_proofs.texts import renamed


@dataclasses.dataclass
class Attempt:
    """Another proof of a lemma: clauses, each a list of texts and calls."""

    file: object
    lemma: object
    clauses: list

    def texts(self, steps=None):
        return ["".join(it if isinstance(it, str) else it.text(steps) for it in clause) for clause in self.clauses]

    def calls(self):
        """Where the calls are: the clause and the place in it, and the call."""
        return [(at, place, it) for at, clause in enumerate(self.clauses) for place, it in enumerate(clause) if isinstance(it, Call)]

    def with_call(self, at, place, call):
        clauses = [list(it) for it in self.clauses]
        clauses[at][place] = call
        return Attempt(self.file, self.lemma, clauses)

    @property
    def saved(self):
        """How many lines this proof has less than the lemma's own."""
        return self.lemma.length - sum(it.count("\n") + 1 for it in self.texts())


@dataclasses.dataclass
class Copy:
    """Where the copy of a lemma stands, by numbers of lines: from its signature to its end, and each clause."""

    attempt: Attempt
    begin: int
    end: int
    clauses: list


def copy_of(attempt, number, steps, before):
    """The lines of a copy, after `before` lines."""
    lemma, name = attempt.lemma, f"{attempt.lemma.name}_try{number}"
    signature = [renamed(lemma.signature[0].removeprefix("pub "), lemma.name, name), *lemma.signature[1:]]
    lines, spans = ["", *signature, *lemma.unfolding], []
    for text in attempt.texts(steps):
        more = renamed(text, lemma.name, name).split("\n")
        spans.append((before + len(lines) + 1, before + len(lines) + len(more)))
        lines += more
    return [" " * lemma.indent + it if it else it for it in lines], Copy(attempt, before + 2, before + len(lines), spans)


def with_copies(file, attempts, steps):
    """A file's text with copies, each after its lemma, and where these stand."""
    text = file.with_names("".join(f"{it}\n" for it in file.lines), ["arith", "rules"] if file.wants_rules else ["arith"])
    old = text.split("\n")[:-1]
    shift, lines, copies, by_end = len(old) - len(file.lines), [], [], {}
    for attempt in attempts:
        by_end.setdefault(attempt.lemma.end + shift, []).append(attempt)
    for number in range(len(old) + 1):
        for attempt in by_end.get(number, ()):
            more, copy = copy_of(attempt, len(copies), steps, len(lines))
            lines += more
            copies.append(copy)
        lines += old[number : number + 1]
    return "\n".join(lines) + "\n", copies


def tried(laboratory, attempts, tell, steps=STEPS):
    """For each attempt the clauses that have faults; None if it is no proof at all."""
    left = list(attempts)
    for _ in range(8 if attempts else 0):
        by_file, copies, texts = {}, {}, {}
        for it in left:
            by_file.setdefault(it.file.path, []).append(it)
        for path, its in by_file.items():
            texts[path], copies[path] = with_copies(its[0].file, its, steps)
        with laboratory.with_texts(texts):
            faults = laboratory.faults(laboratory.check()[1])
        if faults is None:
            break
        lines = [(path, it) for path, found in faults.items() for it, fault in found.items() if UNREAD.search(fault)]
        gone = [copy.attempt for path, line in lines for copy in near(copies.get(path, ()), line)]
        if not gone:
            return verdicts(attempts, copies, faults, tell)
        left = [it for it in left if not any(it is other for other in gone)]
    if attempts:
        tell("a trial did not end: nothing is taken from it")
    return [None] * len(attempts)


def near(copies, line):
    """The copies that a line which cannot be read belongs to: all of the file, if it is in none."""
    return [it for it in copies if it.begin <= line <= it.end + 1] or copies


def verdicts(attempts, copies, faults, tell):
    found = {}
    for path, its in copies.items():
        lines = faults.get(path, {})
        outside = [it for number, it in lines.items() if not any(copy.begin <= number <= copy.end for copy in its)]
        if outside:
            tell(f"{path}: nothing is taken from a trial with a fault outside the copies: {outside[0][:120]}")
            continue
        for copy in its:
            wrong = [it for it in lines if copy.begin <= it <= copy.end]
            if all(any(a <= it <= b for a, b in copy.clauses) for it in wrong):
                found[id(copy.attempt)] = {at for at, (a, b) in enumerate(copy.clauses) if any(a <= it <= b for it in wrong)}
    return [found.get(id(it)) for it in attempts]
