"""Lemmas that only one other lemma cites, taken into that one's proof where a tactic proves it."""
from shorter_proofs.tactics import cited
from shorter_proofs.texts import words
from shorter_proofs.trials import Attempt, tried
from shorter_proofs.whole import head_for, is_open, is_recursive, names_for, whole_attempts, with_short_lists


def pairs(file, citations):
    """The lemmas of a file that only one later lemma's proof cites, each with that one."""
    whole = {it.name: words("\n".join(file.lines[it.start : it.end])) for it in file.lemmas}
    inside = {line for it in file.lemmas for line in range(it.start, it.end)}
    outside = words("\n".join(it for at, it in enumerate(file.lines) if at not in inside))
    for it in file.lemmas:
        users = [other for other in file.lemmas if other is not it and it.name in whole[other.name]]
        if len(users) != 1 or it.unfolding or not is_open(file, it) or is_recursive(it) or it.name in outside:
            continue
        user = users[0]
        is_stated = it.name in words("\n".join(user.signature + user.unfolding))
        if user.start > it.start and user.indent == it.indent and not is_stated and is_open(file, user) and not citations.named(it.name, file.path):
            yield it, user


def with_lemmas_of(file, taken, found, bodies):
    """What a proof cites without the lemma that is taken in, and with what that one cites."""
    for head, body in bodies:
        more = cited(body, names_for(file, taken), taken.name, head).bare
        found.bare += [it for it in more if it not in found.bare]
    found.bare = [it for it in found.bare if it != taken.name]
    found.applied = [it for it in found.applied if taken.name not in words(it)]
    return found


def attempts_for(file, taken, user):
    """The proofs of the user that do without the lemma: by one call, or in the one clause that cites it."""
    found, names = [], names_for(file, user)
    if not is_recursive(user):
        body, head = "\n".join(it for _, it in user.halves), head_for(file, user)
        known = with_lemmas_of(file, taken, cited(body, names, user.name, head), taken.halves)
        found += whole_attempts(file, user, "gsB", known)
    citing = [at for at, (_, body) in enumerate(user.halves) if taken.name in words(body)]
    if len(citing) == 1 and (len(user.clauses) > 1 or is_recursive(user)):
        head, body = user.halves[citing[0]]
        known = with_lemmas_of(file, taken, cited(body, names, user.name, head), taken.halves)
        for call in known.calls("gsB"):
            clauses = [[it] for it in user.clauses]
            clauses[citing[0]] = [f"{head} = ", call]
            found.append(Attempt(file, user, clauses))
    return found


def shorter(laboratory, files, citations, tell):
    """Proofs that take in another lemma each; none of these lemmas is itself among those that are changed."""
    tests = [(taken, it) for file in files for taken, user in pairs(file, citations) for it in attempts_for(file, taken, user)]
    chosen, busy = [], set()
    for (taken, attempt), wrong in zip(tests, tried(laboratory, [it for _, it in tests], tell)):
        both = {(attempt.file.path, taken.name), (attempt.file.path, attempt.lemma.name)}
        if wrong == set() and not both & busy:
            busy |= both
            chosen.append(attempt)
    tell(f"{len(tests)} proofs tried that take a lemma in; {len(chosen)} serve")
    return with_short_lists(laboratory, chosen, tell)
