"""Proofs of lemmas by one call of a tactic, whole or clause by clause, with the shortest list that serves."""
from shorter_proofs.tactics import cited, head_of_variables, is_plain
from shorter_proofs.texts import DATA, tokens
from shorter_proofs.trials import Attempt, tried

# The kinds of calls, in turn: a later turn tries what no earlier one proved.
TURNS = ("g", "sBc")


def is_open(file, lemma):
    """Whether a tactic may prove it: it has clauses with bodies, and is no data, which the file would unfold."""
    is_data = lemma.name in file.unfolded or DATA.search(lemma.type)
    return bool(lemma.halves) and not is_data and "◌" not in lemma.name


def is_recursive(lemma):
    return any(name == lemma.name for _, body in lemma.halves for name, _ in tokens(body))


def names_for(file, lemma):
    """The names that the lemma's proof can cite."""
    return {name for name, start in file.listable().items() if start < lemma.start or name == lemma.name}


def head_for(file, lemma):
    """The head of one clause for the whole lemma."""
    head = lemma.halves[0][0]
    return head if len(lemma.clauses) == 1 and is_plain(head) else head_of_variables(lemma, file.modules)


def whole_attempts(file, lemma, kinds, found=None):
    """The lemma by one call, which lists what its proof cites or, if it is given, what was `found`."""
    head, several = head_for(file, lemma), len(lemma.clauses) > 1
    body = "\n".join(it for _, it in lemma.halves)
    found = found or cited(body, names_for(file, lemma), lemma.name, head)
    kinds = [it for it in kinds if not several or it in "gs"]
    return [Attempt(file, lemma, [[f"{head} = ", it]]) for it in found.calls(kinds)]


def clause_attempts(file, lemma, kinds):
    """Each clause of several lines by one call."""
    names, rows = names_for(file, lemma), []
    for clause, (head, body) in zip(lemma.clauses, lemma.halves):
        calls = cited(body, names, lemma.name, head).calls(kinds) if "\n" in clause else []
        rows.append([[f"{head} = ", it] for it in calls] or [[clause]])
    longest = max(map(len, rows))
    for at in range(longest if any("\n" in it for it in lemma.clauses) else 0):
        yield Attempt(file, lemma, [row[min(at, len(row) - 1)] for row in rows])


class Best:
    """The best attempts that served, for each lemma one for the whole of it and one by clauses."""

    def __init__(self):
        self.whole, self.clauses = {}, {}

    def note(self, attempt, wrong):
        """Notes which clauses of an attempt serve."""
        key = attempt.file.path, attempt.lemma.name
        if wrong is None:
            return
        if len(attempt.clauses) == 1:
            if not wrong:
                self.whole.setdefault(key, attempt)
            return
        lemma = attempt.lemma
        known = self.clauses.setdefault(key, Attempt(attempt.file, lemma, [[it] for it in lemma.clauses]))
        for at, clause in enumerate(attempt.clauses):
            if len(clause) > 1 and at not in wrong and len(known.clauses[at]) == 1:
                known.clauses[at] = clause

    def of(self, file, lemma):
        """The attempt that saves most, if any saves a line."""
        key = file.path, lemma.name
        found = [it[key] for it in (self.whole, self.clauses) if key in it]
        return max((it for it in found if it.saved > 0), key=lambda it: it.saved, default=None)

    def wants_more(self, file, lemma):
        """Whether a later turn could save more."""
        key = file.path, lemma.name
        left = self.clauses[key].clauses if key in self.clauses else [[it] for it in lemma.clauses]
        return key not in self.whole and any(len(it) == 1 and "\n" in it[0] for it in left)


def attempts_for(file, lemma, kinds):
    found = []
    if not is_recursive(lemma):
        found += whole_attempts(file, lemma, kinds)
    if len(lemma.clauses) > 1 or is_recursive(lemma) or not is_plain(lemma.halves[0][0]):
        found += clause_attempts(file, lemma, kinds)
    return found


def shorter(laboratory, files, tell):
    """Shorter proofs of the lemmas of these files."""
    best, open_lemmas = Best(), [(file, it) for file in files for it in file.lemmas if it.length > len(it.clauses) or len(it.clauses) > 1]
    open_lemmas = [(file, it) for file, it in open_lemmas if is_open(file, it)]
    for kinds in TURNS:
        left = [(file, it) for file, it in open_lemmas if best.wants_more(file, it) or len(it.clauses) > 1 and best.of(file, it) is None]
        attempts = [it for file, lemma in left for it in attempts_for(file, lemma, kinds)]
        for attempt, wrong in zip(attempts, tried(laboratory, attempts, tell)):
            best.note(attempt, wrong)
        chosen = [it for file, lemma in open_lemmas if (it := best.of(file, lemma))]
        tell(f"{len(attempts)} proofs of {len(left)} lemmas tried; {len(chosen)} lemmas are shorter by {sum(it.saved for it in chosen)} lines")
    return with_short_lists(laboratory, chosen, tell)


def with_short_lists(laboratory, chosen, tell):
    """The attempts without what their lists need not have; first each name alone is left out, then those together."""
    alone = {}
    first = [it for it in chosen for it in left_out(it)]
    for (attempt, at, place, names), wrong in zip(first, tried(laboratory, [without(*it) for it in first], tell)):
        if wrong == set():
            alone.setdefault((id(attempt), at, place), []).append(names)
    second = [(it, at, place, names) for it in chosen for at, place, _ in it.calls() for names in together(alone.get((id(it), at, place), []))]
    served = {}
    for (attempt, at, place, names), wrong in zip(second, tried(laboratory, [without(*it) for it in second], tell)):
        if wrong == set():
            served.setdefault((id(attempt), at, place), names)
    found = []
    for it in chosen:
        short = it
        for at, place, call in it.calls():
            short = short.with_call(at, place, call.without(served.get((id(it), at, place), ())))
        found.append(short)
    tell(f"{len(first) + len(second)} shorter lists tried; {len(served)} lists are shorter")
    return found


def left_out(attempt):
    """Each call of an attempt with what can be left out of its list: one of the names, or all but the lemma itself."""
    for at, place, call in attempt.calls():
        names = [it for it in call.listed if it.split()[0] != attempt.lemma.name]
        for it in ([tuple(names)] if len(names) > 1 else []) + [(it,) for it in names]:
            yield attempt, at, place, it


def together(alone):
    """What may be left out at once, the most first."""
    if any(len(it) > 1 for it in alone):
        return [max(alone, key=len)]
    names = tuple(it for names in alone for it in names)
    return [it for it in dict.fromkeys([names, names[:-1], names[1:], names[:1]]) if it]


def without(attempt, at, place, names):
    return attempt.with_call(at, place, attempt.clauses[at][place].without(names))
