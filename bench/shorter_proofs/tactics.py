"""Calls of tactics that may stand for a proof: what the proof cites, in lists of several forms."""
import dataclasses
import re

from shorter_proofs.texts import closing, tokens

# Where an application ends.
STOPS = set(
    "∙ ≡ ∷ ++ = in let λ elim as where | ↦ → : + - * / % < ≤ && || if then else × ⊎ ← . ≢ ^".split()
    + "record match unfold subst rw simp at cc omega grind search".split()
)
# A tactic's steps in a trial: some tenths of a second.
STEPS = 600000


@dataclasses.dataclass(frozen=True)
class Call:
    """A tactic with its list."""

    tactic: str
    listed: tuple
    helper: str = "arith"

    def text(self, steps=None):
        names = self.listed
        if self.tactic == "cc":
            return f"cc ({', '.join(names)})" if names else "cc"
        names = (self.helper, *names) if self.tactic == "grind" else (*names, self.helper)
        listed = f"({', '.join(names)})" if len(names) > 1 else names[0]
        return f"{self.tactic} {listed}" + (f" steps {steps}" if steps else "")

    def without(self, names):
        return Call(self.tactic, tuple(it for it in self.listed if it not in names), self.helper)


@dataclasses.dataclass
class Cited:
    """What a proof cites: lemmas by their names, those with their arguments, and the lemma itself."""

    bare: list
    applied: list
    recursive: list

    def calls(self, kinds, helper="arith"):
        """The calls of these kinds: `g` and `s` are `grind` and `search` with names, `B` with names and arguments, `c` is `cc`."""
        found = []
        for kind in kinds:
            if kind in "gs":
                listed = self.bare + self.recursive
            elif kind == "B":
                listed = self.bare + self.applied + self.recursive if self.applied else None
            else:
                listed = self.applied + self.recursive
            if listed is not None:
                tactic = {"g": "grind", "s": "search", "B": "grind", "c": "cc"}[kind]
                found.append(Call(tactic, tuple(dict.fromkeys(listed)), "rules" if tactic == "search" and helper == "rules" else "arith"))
        return list(dict.fromkeys(found))


def applications(text, names):
    """The applied terms whose head is one of these names: text, number of arguments, head."""
    found = tokens(text)
    for at, (head, begin) in enumerate(found):
        if head not in names:
            continue
        end, count, here = begin + len(head), 0, at + 1
        while here < len(found):
            token, place = found[here]
            last = closing(found, here) if token in "([{" else here
            if token in ")]},;" or token in STOPS or last is None:
                break
            end, here, count = found[last][1] + len(found[last][0]), last + 1, count + 1
        yield re.sub(r"\s+", " ", text[begin:end]), count, head


def bound_names(body):
    """The names that a body binds itself."""
    texts = re.findall(r"\b(?:let|λ) ([^=.]*?)[=.:]", body) + re.findall(r"let \(([^)]*)\)", body) + re.findall(r"[|\[] ([^↦]*)↦", body)
    return {name for it in texts for name in re.findall(r"[^\s(){}\[\],:;=∷]+", it)}


def cited(body, names, own, head):
    """What a body cites of these names; a term with a name that the body binds is left out."""
    found, bound = Cited([], [], []), bound_names(body) - set(re.findall(r"[^\s(){}\[\],:;=∷]+", head))
    for text, count, name in applications(body, names):
        inside = set(re.findall(r"[^\s(){}\[\],:;]+", text))
        is_free = bool(count) and not {it.split(".")[0] for it in inside} & bound
        if name == own:
            found.recursive += [text] if is_free and text not in found.recursive else []
            continue
        found.bare += [name] if name not in found.bare else []
        if is_free and text not in found.applied and "?" not in text and "_" not in inside:
            found.applied.append(text)
    return found


def is_plain(head):
    return not re.search(r"[(){}\[\]]", head)


def arguments(head):
    """The explicit arguments of a clause's head."""
    found, texts, at = tokens(head), [], 1
    while at < len(found):
        end = closing(found, at) if found[at][0] in "([{" else at
        if end is None:
            return []
        if found[at][0] != "{":
            texts.append(head[found[at][1] : found[end][1] + len(found[end][0])])
        at = end + 1
    return texts


def parameters(type_text):
    """A name for each explicit argument of a type."""
    names, used, depth, parts = [], set(re.findall(r"[^\s(){}\[\],:]+", type_text)), 0, [""]
    for it in type_text:
        depth += (it in "([{") - (it in ")]}")
        if it == "→" and not depth:
            parts.append("")
        else:
            parts[-1] += it
    for part in map(str.strip, parts[:-1]):
        if are_binders(part):
            names += [name for bracket, group in binders(part) if bracket == "(" for name in group.split()]
        else:
            name = f"h{1 + sum(bool(re.match('h[0-9]', it)) for it in names)}"
            names.append(name + "'" * (name in used))
    return names


def binders(part):
    """The brackets and names of the binders that stand one after the other."""
    found, at = tokens(part), 0
    while at < len(found):
        end = closing(found, at)
        if end is None:
            return
        text = part[found[at][1] + 1 : found[end][1]]
        if found[at][0] in "({" and " : " in text:
            yield found[at][0], text.split(" : ")[0]
        at = end + 1


def are_binders(part):
    """Whether a part is nothing but binders in brackets."""
    found, at = tokens(part), 0
    while at < len(found):
        end = closing(found, at) if found[at][0] in "({" else None
        if end is None or not re.match(r"[({][^(){}:]+ : ", part[found[at][1] : found[end][1]]):
            return False
        at = end + 1
    return True


def head_of_variables(lemma, known):
    """A head for one clause in place of several: variables, by the names that the clauses gave them."""
    rows, chosen = [arguments(head) for head, _ in lemma.halves], []
    for at, name in enumerate(parameters(lemma.type)):
        given = [row[at] for row in rows if at < len(row) and re.fullmatch(r"[a-z][\w'-]*", row[at])]
        fit = [it for it in given if it not in known and it not in chosen and it not in ("true", "false", "refl", "tt", "zero")]
        chosen.append(fit[0] if fit else name + "'" * (name in chosen))
    return " ".join([lemma.name, *chosen])
