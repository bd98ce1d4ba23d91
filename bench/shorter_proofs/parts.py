"""Parts of a body that go over several lines, each by one call of a tactic."""
from shorter_proofs.tactics import cited
from shorter_proofs.texts import closing, halves, tokens
from shorter_proofs.trials import Attempt, tried
from shorter_proofs.whole import is_open, names_for, with_short_lists


class Body:
    """A clause's body, with its tokens and the brackets that close others."""

    def __init__(self, text, begin):
        self.text, self.begin = text, begin
        self.tokens = [(it, at) for it, at in tokens(text) if at >= begin]
        self.closed = {at: closing(self.tokens, at) for at, (it, _) in enumerate(self.tokens) if it in "([{"}

    def place(self, at):
        return self.tokens[at][1] if at < len(self.tokens) else len(self.text)

    def end_of_term(self, at):
        """The index of the token before which the term that begins at an index ends."""
        depth = 0
        while at < len(self.tokens):
            it = self.tokens[at][0]
            depth += (it == "let") - (it == "in")
            if depth < 0 or it in ")]}" or not depth and it in ("|", ";", ",", "where"):
                return at
            at = (self.closed.get(at) or at) + 1
        return at

    def parts(self):
        """Where parts begin and end that are terms of their own: in parentheses, and behind `=`, `in`, `↦` and a bound variable's dot."""
        for at, (it, begin) in enumerate(self.tokens):
            end = self.closed.get(at)
            if it == "(" and end and self.end_of_term(at + 1) == end and not self.is_typed(at, end):
                yield begin, self.place(end) + 1
            elif it == "=" and self.has_type(at) or it in ("in", "↦") or it.endswith(".") and len(it) > 1 and self.is_bound(at):
                yield begin + len(it), self.place(self.end_of_term(at + 1))

    def is_typed(self, at, end):
        """Whether what is in parentheses begins with a variable: its type, or what it binds."""
        return self.tokens[at + 1][0] == "λ" or any(it == ":" for it, _ in self.tokens[at:end])

    def has_type(self, at):
        """Whether what stands behind a `=` has a type that is known: a field's, or that of a `let` which gives it."""
        before = [it for it, _ in self.tokens[max(0, at - 40) : at]]
        begin = max((k for k, it in enumerate(before) if it in ("let", "{", ";")), default=0)
        return before[begin : begin + 1] != ["let"] or ":" in before[begin:]

    def is_bound(self, at):
        return any(it == "λ" for it, _ in self.tokens[max(0, at - 6) : at])

    def long_parts(self):
        """The parts of several lines, without the space around them, but for the whole body."""
        for begin, end in self.parts():
            text = self.text[begin:end]
            begin, end = begin + len(text) - len(text.lstrip()), begin + len(text.rstrip())
            if "\n" in self.text[begin:end] and end - begin < len(self.text[self.begin :].strip()):
                yield begin, end


def clause_with(clause, chosen):
    """A clause's text with calls in place of some parts."""
    pieces, at, tail = [], 0, ""
    for begin, end, call in sorted(chosen, key=lambda it: it[0]):
        is_group = clause[begin] == "("
        before = clause[at:begin]
        if before.rstrip().endswith(("=", "↦")):
            before = before.rstrip() + " "
        pieces += [tail + before + "(" * is_group, call]
        tail, at = ")" * is_group, end
    return [*pieces, tail + clause[at:]]


def attempts_for(file, lemma):
    """Each long part of a lemma's clauses by `grind`: where it is, and the attempt."""
    names = names_for(file, lemma)
    for at, clause in enumerate(lemma.clauses):
        head, body = halves(clause)
        if clause.count("\n") < 2 or "where" in clause.split():
            continue
        for begin, end in dict.fromkeys(Body(clause, len(clause) - len(body)).long_parts()):
            call = cited(clause[begin:end], names, lemma.name, head).calls("g")[0]
            clauses = [[it] for it in lemma.clauses]
            clauses[at] = clause_with(clause, [(begin, end, call)])
            yield (at, begin, end, call), Attempt(file, lemma, clauses)


def without_overlaps(found):
    """The longest of these parts of which no two overlap."""
    kept = []
    for it in sorted(found, key=lambda it: it[1] - it[2]):
        if all(it[2] <= other[1] or other[2] <= it[1] for other in kept):
            kept.append(it)
    return kept


def shorter(laboratory, files, tell):
    """Proofs of which parts are by tactics."""
    tests = [test for file in files for it in file.lemmas if is_open(file, it) for test in attempts_for(file, it)]
    served = {}
    for (part, attempt), wrong in zip(tests, tried(laboratory, [it for _, it in tests], tell)):
        if wrong == set():
            served.setdefault((attempt.file.path, attempt.lemma.name), (attempt.file, attempt.lemma, []))[2].append(part)
    chosen = []
    for file, lemma, parts in served.values():
        clauses = []
        for number, clause in enumerate(lemma.clauses):
            kept = without_overlaps([it for it in parts if it[0] == number])
            clauses.append(clause_with(clause, [it[1:] for it in kept]) if kept else [clause])
        chosen.append(Attempt(file, lemma, clauses))
    tell(f"{len(tests)} parts of proofs tried; {sum(len(it[2]) for it in served.values())} serve")
    return with_short_lists(laboratory, [it for it in chosen if it.saved > 0], tell)
