"""The text of a file of lemmas: its declarations with their clauses, the names that it imports, and words."""
import functools
import os
import re
import shutil

from wrong_bodies.edits import read
from wrong_bodies.imports import Preludes

TOKEN = re.compile(r"--[^\n]*|[()\[\]{},;]|[^\s()\[\]{},;]+")
SIGNATURE = re.compile(r"^(pub )?(?P<name>[^\s():{}]+) :(\s|$)")
NO_LEMMA = re.compile(r"(pub |ghost )?(use|abbrev|unfoldable|record|data|ruleset|module|mod|infix|syntax|mutual|open|opaque|instance) ")
NAME_OF_DEFINITION = re.compile(r"(?:pub )?(?:abbrev|unfoldable|record|data|opaque)\s+(?:pub )?\(?(\S+)")
# What a definition gives, where a lemma would give a proof.
DATA = re.compile(r"(?:^|→ |: )(Type 0|Bool|ℕ|(?:List|Option|Bor) [^≡≢≤<×⊎→]*)$")
UNFOLDED = re.compile(r"^[^\n-]*\bunfold(?:ing)? ([^\n]*?)(?: in\b|$)", re.M)
# Words of std that no tactic needs.
KNOWN = set(
    "sym ap subst refl arith rules tt inl inr absurd ap₂ cong transport true false zero suc length take drop get_or map codes filter".split()
    + "nat_lt nat_le nat_eq slice_get is_some from_option add-one list_any slice_index slice_index_or option_map".split()
)
COMMON = "Rattle.std.proofs.Common"


def tokens(text):
    """The tokens of a text with where each begins, without comments."""
    return [(it.group(), it.start()) for it in TOKEN.finditer(text) if not it.group().startswith("--")]


def closing(found, at):
    """The index of the bracket that closes the one at an index."""
    depth = 0
    for index in range(at, len(found)):
        depth += (found[index][0] in "([{") - (found[index][0] in ")]}")
        if not depth:
            return index
    return None


def words(text):
    """The names of a text without its comments, and the parts of those with dots."""
    found = set(re.findall(r"[^\s(){}\[\],;:]+", re.sub(r"--[^\n]*", "", text)))
    return found | {part for it in found for part in it.split(".")}


def renamed(text, old, new):
    return re.sub(rf"(?<![^\s(){{}}\[\],;←]){re.escape(old)}(?![^\s(){{}}\[\],;.])", lambda _: new, text)


def separated(text):
    """The parts of a list that commas separate, outside brackets."""
    parts, depth = [""], 0
    for it in text:
        depth += (it in "([{") - (it in ")]}")
        if it == "," and not depth:
            parts.append("")
        else:
            parts[-1] += it
    return [it.strip() for it in parts if it.strip()]


def halves(clause):
    """A clause's head and body, on both sides of its `=`; None if it has none."""
    depth = 0
    for at, it in enumerate(clause):
        depth += (it in "([{") - (it in ")]}")
        if it == "=" and not depth and clause[at - 1] == " " and clause[at + 1 : at + 2] in (" ", "\n", ""):
            return clause[:at].rstrip(), clause[at + 1 :]
    return None


class Lemma:
    """A declaration with clauses; the lines of one in a module's block are without the block's indent."""

    def __init__(self, lines, at, start, indent):
        self.name, self.indent, self.start = SIGNATURE.match(lines[at])["name"], indent, start + at
        self.signature, at = taken(lines, at, at + 1, lambda it: it.startswith((" ", "}", "]", ")")))
        self.unfolding, at = taken(lines, at, at, lambda it: it.startswith("unfolding "))
        self.clauses = []
        while at < len(lines) and (lines[at] == self.name or lines[at].startswith(self.name + " ")):
            clause, at = taken(lines, at, at + 1, lambda it: it.startswith((" ", "}", "]", ")")))
            while any(re.match(r"\s+where\b", it) for it in clause) and goes_on(lines, at):
                more, at = taken(lines, at, at + 1, lambda it: it.startswith(" "))
                clause += more
            self.clauses.append("\n".join(clause))
        self.end = start + at
        self.first = self.start + len(self.signature) + len(self.unfolding)

    @property
    def length(self):
        """How many lines the clauses have."""
        return sum(it.count("\n") + 1 for it in self.clauses)

    @property
    def halves(self):
        """Each clause's head and body; None if one has no `=`."""
        found = [halves(it) for it in self.clauses]
        return None if None in found else found

    @property
    def is_public(self):
        return self.signature[0].startswith("pub ")

    @property
    def type(self):
        return " ".join(it.strip() for it in self.signature).split(" :", 1)[1].strip()


def taken(lines, begin, at, goes):
    while at < len(lines) and lines[at].strip() and goes(lines[at]):
        at += 1
    return lines[begin:at], at


def goes_on(lines, at):
    """Whether an indented line follows empty ones."""
    rest = [it for it in lines[at : at + 3] if it.strip()]
    return at < len(lines) and not lines[at].strip() and bool(rest) and rest[0].startswith(" ")


def lemmas(lines, start=0, indent=0):
    """The declarations with clauses of these lines, those of modules' blocks too."""
    found, at = [], 0
    while at < len(lines):
        line = lines[at]
        if re.match(r"module .*where$", line):
            end = at + 1
            while end < len(lines) and (not lines[end].strip() or lines[end].startswith("  ")):
                end += 1
            found += lemmas([it[2:] if it.strip() else "" for it in lines[at + 1 : end]], start + at + 1, indent + 2)
            at = end
        elif SIGNATURE.match(line) and not NO_LEMMA.match(line):
            found.append(Lemma(lines, at, start, indent))
            at = max(at + 1, found[-1].end - start)
        else:
            at += 1
    return found


def is_import(line):
    return re.match(r"(ghost |pub |unfoldable pub )?use ", line)


@functools.lru_cache(None)
def definitions(top, module):
    """The names of a module of lemmas that are definitions."""
    steps = module.split(".")
    # The kit's libraries stand beside its command.
    kit = os.path.dirname(os.path.dirname(os.path.realpath(shutil.which("rt"))))
    paths = [f"{at}/{'/'.join(steps[1:])}.antt" for at in (f"{top}/crates", f"{kit}/rattle")]
    found = set()
    for line in next((read(it).split("\n") for it in paths if os.path.isfile(it)), []):
        defined, signature = NAME_OF_DEFINITION.match(line), SIGNATURE.match(line)
        found |= {defined[1]} if defined else {signature["name"]} if signature and DATA.search(line) else set()
    return found


class LemmaFile:
    """A file with lemmas in a crate's `proofs`."""

    def __init__(self, top, path, text=None):
        self.top, self.path = top, path
        # Whether tactics may want the word `rules`: in answers.
        self.wants_rules = path.endswith("/Answers.antt")
        self.text = (read(path) if text is None else text).rstrip("\n") + "\n"
        self.lines = self.text.split("\n")[:-1]
        self.lemmas = [it for it in lemmas(self.lines) if it.clauses]
        preludes = Preludes(top)
        # The module that each imported name comes from, through any prelude.
        self.modules = {}
        for line in self.lines:
            for module, (was, now) in (preludes.imported(line.removeprefix("pub ")) or ("", ()))[1]:
                self.modules[now] = module, was
        self.unfolded = {name for it in UNFOLDED.findall(self.text) for name in re.split(r"[\s()]+", it)}

    def listable(self):
        """The names that a tactic's list can have, and where those of this file begin."""
        found = {now: -1 for now, (module, was) in self.modules.items() if is_lemma(self.top, module, was)}
        found |= {it.name: it.start for it in self.lemmas if not DATA.search(it.signature[-1].strip())}
        for defined in filter(None, map(NAME_OF_DEFINITION.match, self.lines)):
            found.pop(defined[1], None)
        return found

    def with_names(self, text, names):
        """The text with an import of these words of std, in one line that is added, where the file lacks them."""
        lacking = [it for it in names if it not in self.modules]
        if not lacking:
            return text
        at = text.find("use ") if text.startswith("use ") else text.find("\nuse ") + 1
        return f"{text[:at]}use {COMMON}.{{{', '.join(lacking)}}}\n{text[at:]}"


def is_lemma(top, module, name):
    """Whether an imported name is that of a lemma: those of proofs are, but for definitions and the words that tactics know."""
    if ".proofs" not in module or name in KNOWN or "◌" in name or name[0].isupper() and "-" not in name:
        return False
    is_word = module == COMMON and not re.search(r"[-_]", name)
    return not is_word and name not in definitions(top, module)


def lemma_files(folder):
    """The paths of a crate's files of lemmas, but answers, invariants and lists of modules."""
    skipped = ("Answers.antt", "Invariants.antt", "Proof.antt", "Lib.antt", "Prelude.antt")
    found = (f"{at}/{it}" for at, _, names in os.walk(f"{folder}/proofs") for it in names if it.endswith(".antt"))
    return sorted(it for it in found if os.path.basename(it) not in skipped)
