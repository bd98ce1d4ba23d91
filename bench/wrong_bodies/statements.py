"""What a crate's proofs state: of a lemma its statement, since nobody who cites it sees its proof; of a definition the whole."""
import re

from wrong_bodies.reach import words_of

# A definition that other proofs see whole.
OPEN = re.compile(r"(?:pub )?(?:abbrev|unfoldable|opaque|pattern|record|data|ruleset|infix\w*|syntax|module|mutual|axiom)\b")
KEYWORDS = {"abbrev", "unfoldable", "opaque", "pattern", "pub", "record", "data", "ruleset"}
ANSWERING = ("Answers.antt", "Invariants.antt", "Proof.antt")


class Statement:
    def __init__(self, path, line, opened):
        words = [it for it in line.split() if it not in KEYWORDS]
        self.path, self.name, self.lines = path, words[0].strip("(){}:") if words else "", [line]
        self.is_open = bool(OPEN.match(line)) or self.name in opened
        self.is_stated = False


def statements(path, lines, opened):
    """The declarations of a file of lemmas. `opened` are the names that a proof of the crate unfolds."""
    found = []
    for line in lines:
        if not line.strip() or line.startswith(("use ", "pub use", "unfoldable pub use", "mod ", "pub mod")):
            continue
        now = found[-1] if found else None
        is_more = line[0] in " })]"
        if now and (is_more or line.startswith("unfolding ") or line.split()[0] == now.name):
            now.is_stated = now.is_stated or not is_more
            if now.is_open or not now.is_stated:
                now.lines.append(line)
        elif now and not OPEN.match(line) and not re.match(r"(?:pub )?\S+ :(?: |$)", line):
            # An equation of an operator, say.
            now.is_open = True
            now.lines.append(line)
        else:
            found.append(Statement(path, line, opened))
    return found


def cited(files):
    """Of a crate's files, by paths and lines: those with answers and invariants, and of its lemmas what the sources, the definitions and these
    cite, and what is cited there, each with the lines of its statement."""
    kept = [(path, lines) for path, lines in files if path.startswith("proofs/") and path.endswith(ANSWERING)]
    opened = set()
    for _, lines in files:
        for line in lines:
            for it in re.findall(r"\bunfold(?:ing)? (.*?)(?: in\b|$)", line):
                opened |= words_of(it)
    lemmas = [(path, lines) for path, lines in files if path.startswith("proofs/") and not path.endswith((*ANSWERING, "/Lib.antt"))]
    by_name = {}
    for path, lines in lemmas:
        for it in statements(path, lines, opened):
            by_name.setdefault(it.name, []).append(it)
    # Of a file of lemmas without its declarations the imports, by which its names are read.
    left = [words_of("\n".join(lines)) for path, lines in [*kept, *((path, lines) for path, lines in files if not path.startswith("proofs/"))]]
    seen, found = set(), []
    while left:
        for name in left.pop() - seen:
            seen.add(name)
            for it in by_name.get(name, ()):
                found.append(it)
                left.append(words_of("\n".join(it.lines)))
    imports = dict(lemmas)
    brought = {path: [line for line in imports[path] if line.startswith(("use ", "pub use"))] for path in {it.path for it in found}}
    stated = {}
    for it in sorted(found, key=lambda it: (it.path, it.name)):
        stated.setdefault(it.path, []).append(it.lines)
    return kept + [(path, with_imports(brought[path], texts)) for path, texts in sorted(stated.items())]


def with_imports(brought, texts):
    """Statements after the imports of the names that they write."""
    words, kept = words_of("\n".join("\n".join(it) for it in texts)), []
    for line in brought:
        before, _, names = line.partition(".{")
        mine = [it for it in names.rstrip("}").split(", ") if words_of(it.rpartition(" as ")[2]) & words]
        if mine:
            kept.append(f"{before}.{{{', '.join(mine)}}}")
    return kept + [line for it in texts for line in it]
